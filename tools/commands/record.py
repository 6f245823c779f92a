"""write a plan's record, as bytes

The record has an entry for each job, interval and skipped release; docs/FORMATS.md has their bytes. A refused plan writes none.
"""

from tools import arguments as common
from tools import output, programs, refusals
from tools.output import Rejected, Trouble
from tools.plan import read_plan

REFUSED = "recorder: the input is refused: "


def arguments(parser):
    common.plan(parser)


def main(given):
    plan = read_plan(given.plan)
    if plan.unreadable():
        raise Rejected(plan.told())
    try:
        for piece in programs.output_of("recorder", [plan.data]):
            status = output.write(piece)
            if status:
                return status
    except Trouble as trouble:
        if not str(trouble).startswith(REFUSED):
            raise
        raise Rejected(refusals.of_plan(plan, refusals.line_of(str(trouble)[len(REFUSED):]))) from None
    return output.write(b"")
