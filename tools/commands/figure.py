"""tell what members can plan on, task by task, and what is left of it

First M, than which no interval of the plan's tasks is longer. Then for each task, the highest priority first: its jobs; the worst response, from the
release; the worst from the taking, with the release of the job that had it; of that job h, which are the other jobs, not lower, that were executed
between, its intervals, the bound, which is (h + 3) x M + U, or (h + 2) x M + U of a latency-sensitive task, and what is left of it; and the least
that was left of any job's bound. The bound counts from the taking: for a release that waited that is the completion of the job before it. Times are
in ticks.
"""

import json

from tools import arguments as common
from tools import bounds, output
from tools.figures import as_csv, table
from tools.runs import run_of_plan, run_of_record


def arguments(parser):
    common.plan(parser)
    common.stored(parser)
    form = parser.add_mutually_exclusive_group()
    form.add_argument("--csv", action="store_true", help="comma-separated, with the columns' names in the first line; M is the last column")
    form.add_argument("--json", action="store_true", help="an object with M and a list with an object for each task")


check = common.check_stored


def about(tasks):
    """M, what it is made of, and what is promised."""
    (own, owner), (copy_in, copied_in), (copy_out, copied_out) = bounds.greatest(tasks)
    engine = f"{copy_in} + {copy_out} (L of task {copied_in}, U of task {copied_out})"
    return (f"M is {bounds.longest_interval(tasks)} ticks, the larger of {own} (L + C of task {owner}) and {engine}: no interval is longer.\n"
            "From its taking a job is done within (h + 3) x M + U ticks, of a latency-sensitive task within (h + 2) x M + U.\n\n")


def main(given):
    run = run_of_plan(given.plan) if given.record is None else run_of_record(given.plan, given.record)
    rows, longest = bounds.figure(run), bounds.longest_interval(run.table)
    if given.json:
        return output.write_text(json.dumps({"longest_interval": longest, "tasks": rows}, indent=1) + "\n")
    if given.csv:
        return output.write_text(as_csv([*bounds.COLUMNS, "longest_interval"], [{**row, "longest_interval": longest} for row in rows]))
    return output.write_text(about(run.table) + table(list(bounds.COLUMNS.values()), [[row[name] for name in bounds.COLUMNS] for row in rows]))
