"""print the plan that made a stored record

The plan has the tasks and spacings of PLAN and the releases that made RECORD, so that ./gateway run runs it again. RECORD has a record's bytes, as
./gateway record writes them. Releases in PLAN are passed over, with a note on standard error: who has a record often has a plan whose tasks
are right and whose releases are others. Of a record that no releases make, it is said at which byte, and what the rules give there.
"""

from tools import output
from tools import arguments as common
from tools.stored import stored_releases


def arguments(parser):
    common.plan(parser)
    parser.add_argument("record", metavar="RECORD", help="a file with a record's bytes, - for standard input")


check = common.check_stored


def main(given):
    plan, releases, _ = stored_releases(given.plan, given.record)
    lines = [*(each.text for each in plan.head), *(f"release {time} {task}" for time, task in releases)]
    return output.write_text("".join(f"{line}\n" for line in lines))
