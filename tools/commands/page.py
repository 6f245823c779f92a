"""write a run as a page for a browser, with zoom, search and the reasons

One file with all that it needs: ./gateway page PLAN > run.html. A row for each task from release to completion, rows for the processor and
the engine; pointing at a job tells what ./gateway why says of it.
"""

import os

from tools import arguments as common
from tools import output
from tools.page import page
from tools.runs import run_of_plan, run_of_record

MEMORY = 256


def arguments(parser):
    common.plan(parser)
    common.stored(parser)


check = common.check_stored


def main(given):
    run = run_of_plan(given.plan) if given.record is None else run_of_record(given.plan, given.record)
    name = output.shown(os.path.basename(given.record or given.plan), 200)
    return output.write_text(page(run, f"Run of {name}"))
