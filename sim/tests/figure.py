"""7/13, a figure members can plan on, of a whole run and from outside: computed of a history's answers alone, without a look into a dispatcher.

h is read in several ways, since "between a job's release and its execution" can be. All of them count executions of other jobs that are not
lower; they differ in what lies between. The bound is claimed in the smallest reading and so holds in each.
"""

from dataclasses import dataclass
from typing import Any

# The readings of h, the smallest first. An execution lies between a job's taking and its own execution if its interval
BETWEEN = "is strictly between the first interval and the executing one"
STARTS = "has its execution start at the taking or later"
RUNS = "still executes at a tick after the taking"
FIRST_TOO = "is the first one or a later one"
SINCE_RELEASE = "still executes at a tick after the original release"
READINGS = (BETWEEN, STARTS, RUNS, FIRST_TOO, SINCE_RELEASE)


@dataclass
class Measured:
    """What is measured of one job that was executed and completed."""
    job: Any  # a history's Taken
    first: int  # the interval its taking belongs to, counted from 0
    executing: int
    ahead: dict  # reading -> h

    @property
    def intervals(self):
        """From the one that holds the taking to the executing one, both counted."""
        return self.executing - self.first + 1

    @property
    def response(self):
        """From the taking to the completion."""
        return self.job.done.completion - self.job.taking

    def most_intervals(self, reading=BETWEEN):
        return self.ahead[reading] + (2 if self.job.task.mark else 3)

    def bound(self, longest, reading=BETWEEN):
        return self.most_intervals(reading) * longest + self.job.task.copy_out

    def left(self, longest):
        """What is left between the response and the bound in the smallest reading."""
        return self.bound(longest) - self.response


def longest_units(table):
    """The greatest L + C, as long as the processor works in an interval; and the greatest L and U together, as long as the engine does."""
    tasks = table.values()
    return max(task.copy_in + task.execution for task in tasks), max(task.copy_in for task in tasks) + max(task.copy_out for task in tasks)


def longest_interval(table):
    """M: the larger of the two."""
    return max(longest_units(table))


def executions(history):
    """The interval that executes each job, by its start: index -> job, rising."""
    found, at = {}, 0
    for job in sorted((job for job in history.jobs if job.done is not None), key=lambda job: job.done.start):
        while history.intervals[at].end <= job.done.start:
            at += 1
        found[at] = job
    return found


def _is_between(reading, job, at, other):
    """Whether an execution before a job's own lies between, in a reading."""
    end = other.done.start + other.task.execution
    return {BETWEEN: at > job.first, STARTS: other.done.start >= job.taking, RUNS: end > job.taking, FIRST_TOO: at >= job.first,
            SINCE_RELEASE: at >= job.first or end > job.release}[reading]


def measured(history):
    """Each completed job, measured."""
    found, before = [], []
    for executing, job in executions(history).items():
        ahead = dict.fromkeys(READINGS, 0)
        for at, other in reversed(before):
            if not _is_between(SINCE_RELEASE, job, at, other):
                break  # nor is any that is earlier still
            if other.task.priority <= job.task.priority:
                for reading in READINGS:
                    ahead[reading] += _is_between(reading, job, at, other)
        found.append(Measured(job, job.first, executing, ahead))
        before.append((executing, job))
    return found


def check(test, history):
    """Assert the figure of a history, in each reading of h; answer what was measured."""
    longest = longest_interval(history.table)
    for interval in history.intervals:
        test.assertLessEqual(interval.end - interval.begin, longest)
    found = measured(history)
    for each in found:
        _check_job(test, each, longest)
        _check_sharp(test, each, history.table)
    return found


def _check_job(test, each, longest):
    """The sentences of the request, of one job."""
    for reading in READINGS:
        test.assertLessEqual(each.ahead[BETWEEN], each.ahead[reading])
        test.assertLessEqual(each.intervals, each.most_intervals(reading))
        test.assertLessEqual(each.response, each.bound(longest, reading))
    test.assertLessEqual(each.response, each.intervals * longest + each.job.task.copy_out)


def _check_sharp(test, each, table):
    """What is always left of the bounds, which is little.

    A marked job has exactly h + 2 intervals, any other h + 2 or h + 3. With h + 3 it was taken after its first interval's choice, and so a tick
    behind that one's begin at least: one tick of its time is always left. So it is of a marked one that is promoted, for the same reason; and one
    that is not promoted has an executing interval of M ticks only if the engine fills it.
    """
    processor, engine = longest_units(table)
    test.assertGreaterEqual(each.intervals, each.ahead[BETWEEN] + 2)
    test.assertGreaterEqual(each.left(max(processor, engine)), 0 if each.job.task.mark and engine >= processor else 1)
