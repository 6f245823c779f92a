"""tell why a job took as long as it did

The job of the release of TASK at TIME, interval by interval, with the rule that decided each (docs/RULES.md has the rules): when it was released and
taken, what the processor ran and what the engine chose meanwhile, and where the ticks of its response went. A skipped release: which one
waited, or after which one it came sooner than its task's spacing. What is told is held against the proved program's lines, or against the record.
"""

from bisect import bisect_left

from tools import arguments as common
from tools import output
from tools.output import Rejected, named
from tools.runs import run_of_plan, run_of_record
from tools.words import told


def arguments(parser):
    common.plan(parser)
    parser.add_argument("task", metavar="TASK", type=int, help="the number of a task")
    parser.add_argument("time", metavar="TIME", type=int, help="the tick of one of its releases")
    common.stored(parser)


check = common.check_stored


def nearest(run, task, time):
    """What there is instead of a release that there is not."""
    if task not in run.table:
        return f"there is no task {task}; the tasks are {', '.join(map(str, sorted(run.table)))}"
    times = [when for when, number in run.lives if number == task]
    if not times:
        return f"there is no release of task {task} at all"
    at = bisect_left(times, time)
    beside = " and ".join(str(when) for when in times[max(0, at - 1):at + 1])
    return f"there is no release of task {task} at {time}; the nearest: {beside}"


def main(given):
    run = run_of_plan(given.plan) if given.record is None else run_of_record(given.plan, given.record)
    life = run.lives.get((given.time, given.task))
    if life is None:
        raise Rejected(f"{named(given.plan)}: {nearest(run, given.task, given.time)}")
    return output.write_text(told(run, life))
