"""Document 01's plans: its three tasks, and the releases (time, task) of each plan."""

from unittest import mock

from sim.dispatcher import COPY_IN_CANCELLED, NO_COPY_IN
from sim.entries import release_entry, task_entry

TASK_1 = task_entry(1, 1, 1, 2, 3, 1)
TASK_2 = task_entry(2, 2, 0, 2, 4, 1)
TASK_3 = task_entry(3, 3, 0, 2, 5, 2)
TASKS = TASK_1 + TASK_2 + TASK_3

PLANS = {
    "A": [(0, 3), (2, 2), (3, 1)],
    "B": [(0, 3), (2, 2), (4, 1)],
    "C": [(0, 1)],
    "D": [(0, 2), (1, 1)],
    "E": [(0, 2), (2, 1)],
    "F": [(0, 1), (5, 1)],
    "F'": [(0, 1), (6, 1)],
    "G": [],
}


def releases(*pairs):
    return b"".join(release_entry(*pair) for pair in pairs)


def plan_file(*pairs, tasks=TASKS):
    """A file over the plans' tasks with these releases (time, task)."""
    return tasks + releases(*pairs)


def plan(name):
    return plan_file(*PLANS[name])


# The second release of task 1 waits, and the third, at 4, is skipped.
THIRD_RELEASE = plan_file((0, 1), (3, 1), (4, 1))


def finished_copies_stay():
    """The rule before 2/13, as long as the context lasts."""
    return mock.patch.dict("sim.dispatcher.GIVES_WAY", {NO_COPY_IN: COPY_IN_CANCELLED}, clear=True)


def task_set(*numbers):
    return sum(1 << number for number in numbers)
