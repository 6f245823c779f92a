"""tell what a run comes to, task by task

For each task, the highest priority first: its releases, those done, those that waited first, those skipped, and how many of these came
sooner than the task's spacing; the worst and the median response with
the release of a job that had it; the most intervals in which one of its jobs was blocked, its release, and by whom; how often a copy-in of
it was cancelled or thrown out, and how often a job was promoted. Times are in ticks.
"""

import json

from tools import arguments as common
from tools import output
from tools.figures import COLUMNS, as_csv, summary, table
from tools.runs import run_of_plan, run_of_record


def arguments(parser):
    common.plan(parser)
    common.stored(parser)
    form = parser.add_mutually_exclusive_group()
    form.add_argument("--csv", action="store_true", help="comma-separated, with the columns' names in the first line")
    form.add_argument("--json", action="store_true", help="a list with an object for each task")


check = common.check_stored


def as_table(rows):
    return table(list(COLUMNS.values()), [[row[name] for name in COLUMNS] for row in rows])


def main(given):
    rows = summary(run_of_plan(given.plan) if given.record is None else run_of_record(given.plan, given.record))
    if given.json:
        return output.write_text(json.dumps(rows, indent=1) + "\n")
    return output.write_text(as_csv(COLUMNS, rows) if given.csv else as_table(rows))
