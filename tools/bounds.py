"""A figure members can plan on (7/13): of each job of a run what is promised, beside what it took.

M is as long as an interval can be, by the table alone. h of a job are the other jobs, not lower, that are executed in the intervals between the
one that it is taken in and the one that executes it, neither of them counted: every other reading of "between" counts these too.
"""

from typing import Any, NamedTuple

from sim.dispatcher import is_higher
from tools.output import Trouble

# The columns, in their order, with the words of the table's head.
COLUMNS = {
    "task": "task", "priority": "prio", "mark": "mark", "jobs": "jobs", "worst_response": "worst", "worst_release": "released",
    "worst_from_taking": "from taking", "taking_release": "released", "ahead": "h", "intervals": "intervals", "bound": "bound", "left": "left",
    "least_left": "least left", "least_left_release": "released",
}


def greatest(table):
    """The greatest L + C, L and U of a table, each with the task that has it; of several the lowest number."""
    tasks = sorted(table.values(), key=lambda task: task.number)
    lengths = (lambda task: task.copy_in + task.execution, lambda task: task.copy_in, lambda task: task.copy_out)
    return [(length(task), task.number) for length in lengths for task in [max(tasks, key=length)]]


def longest_interval(table):
    """M: the processor copies in and executes one task at most, and the engine copies out one and copies in another."""
    (own, _), (copy_in, _), (copy_out, _) = greatest(table)
    return max(own, copy_in + copy_out)


class Measured(NamedTuple):
    """A job, what it took, and what is promised of it."""
    life: Any
    ahead: int  # h
    intervals: int  # from the one that holds its taking to the one that executes it, both counted
    most_intervals: int
    from_taking: int  # ticks until its completion
    bound: int

    @property
    def left(self):
        return self.bound - self.from_taking


def measured(run, life, longest):
    between = run.between(life)
    ahead = sum(spell.executed is not None and not is_higher(life.job, spell.executed) for spell in between[1:])
    most = ahead + (2 if life.task.mark else 3)
    return Measured(life, ahead, len(between) + 1, most, life.completion - life.taken, most * longest + life.task.copy_out)


def hold(run, jobs, longest):
    """What is promised, held against each interval and each job of a run."""
    for spell in run.spells:
        if spell.end - spell.begin > longest:
            raise Trouble(f"gateway: the interval from {spell.begin} to {spell.end} is longer than {longest} ticks; nothing is told")
    for job in jobs:
        if job.intervals > job.most_intervals or job.left < 0:
            name = f"the job of task {job.life.task.number} released at {job.life.release}"
            raise Trouble(f"gateway: {name} took longer than is promised; nothing is told")


def of_task(task, jobs):
    """One row: the worst response of a task's jobs, and of the one that took longest from its taking what was promised; of several the earliest."""
    row = {**dict.fromkeys(COLUMNS), "task": task.number, "priority": task.priority, "mark": task.mark, "jobs": len(jobs)}
    if not jobs:
        return row
    worst = max((job.life for job in jobs), key=lambda life: life.response)
    slowest = max(jobs, key=lambda job: job.from_taking)
    nearest = min(jobs, key=lambda job: job.left)
    return {**row, "worst_response": worst.response, "worst_release": worst.release,
            "worst_from_taking": slowest.from_taking, "taking_release": slowest.life.release, "ahead": slowest.ahead, "intervals": slowest.intervals,
            "bound": slowest.bound, "left": slowest.left, "least_left": nearest.left, "least_left_release": nearest.life.release}


def figure(run):
    """A row for each task, the highest priority first."""
    longest = longest_interval(run.table)
    jobs = [measured(run, life, longest) for life in run.done()]
    hold(run, jobs, longest)
    by_task = {number: [] for number in run.table}
    for job in jobs:
        by_task[job.life.task.number].append(job)
    return [of_task(task, by_task[task.number]) for task in sorted(run.table.values(), key=lambda task: (task.priority, task.number))]
