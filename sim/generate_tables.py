"""Random tables: tasks, and spacings of none, some or all of them. The same generator state gives the same bytes.

Most have few tasks and lengths of 1 to 5, half of them longer executions, so that ends of phases and releases fall on the same ticks; in most of them
many tasks share few priorities. Half of the tables have no spacing.
"""

from sim.entries import TASK, decode, spacing_entry, task_entry
from sim.table import LAST_TASK, LENGTH_LIMIT, LONGEST_SPACING

# How many priorities the tasks of a table share, where they share them; and how often all are different.
LEVELS = (1, 2, 2, 2, 3, 3, 4, 5)
DIFFERENT_CHANCE = 0.25

# How often a table has a desk of marked tasks that share a priority, over lower ones.
DESK_CHANCE = 0.25

# How much longer than copies the executions of some tables are, so that copies are done before their interval ends.
STRETCH = 4


# How many of a table's tasks have a spacing: none, all, or each by this chance.
SPACED_SHARES = (0, 0, 0, 0, 1, 0.7, 0.5, 0.25)

# How often a spacing is any one at all, at the limit among them; else it is about as long as a job of its task takes.
ANY_SPACING_CHANCE = 0.06


def small_length(rng, top):
    return rng.randint(1, top)


def large_length(rng, _):
    return rng.choice((1, rng.randint(1, 100), rng.randint(1, LENGTH_LIMIT), LENGTH_LIMIT))


def some_priorities(rng, count):
    """Priorities of so many tasks: few, which many of them share, near each other, anywhere or at the ends; sometimes all different."""
    if rng.random() < DIFFERENT_CHANCE:
        return rng.sample(range(256), count)
    first = rng.randrange(250)
    levels = rng.sample(rng.choice((range(256), range(first, first + 6), (0, 1, 127, 128, 254, 255))), rng.choice(LEVELS))
    return [rng.choice(levels) for _ in range(count)]


def _tasks_of(rng, standings, lengths, stretch):
    """Task entries of these priorities and marks, with any numbers. A stretch makes executions longer than copies."""
    numbers = rng.sample(range(LAST_TASK + 1), len(standings))
    top = rng.choice((1, 2, 3, 5, 5))
    return [task_entry(number, *standing, *(lengths(rng, most) for most in (top, stretch * top, top)))
            for number, standing in zip(numbers, standings)]


def some_tasks(rng, count, lengths, stretch=1):
    """Task entries in any order: numbers, priorities and marks shuffled."""
    priorities = some_priorities(rng, count)
    marked = rng.choice((0, 0.3, 0.5, 0.5, 0.8, 1))
    return _tasks_of(rng, [(priority, int(rng.random() < marked)) for priority in priorities], lengths, stretch)


def desk_tasks(rng):
    """Marked tasks of one priority over a few that are lower and run long, so that of several that come in one interval one is promoted; among them
    sometimes an unmarked one of their priority, or a marked one above them."""
    above, desk, below = sorted(rng.sample(range(256), 3))
    standings = [(desk, 1)] * rng.randint(2, 4) + [(below, 0)] * rng.randint(1, 2)
    standings += [(desk, 0)] * rng.choice((0, 0, 1)) + [(above, 1)] * rng.choice((0, 0, 1))
    rng.shuffle(standings)
    return _tasks_of(rng, standings, small_length, STRETCH)


def random_tasks(rng):
    """Mostly few tasks and short lengths; also many, all 32, and long ones."""
    if rng.random() < DESK_CHANCE:
        return desk_tasks(rng)
    count, lengths = rng.choices(((rng.choice((1, 2, 3, 4, 4, 5, 5, 6, 6)), small_length), (rng.randint(6, 31), small_length),
                                  (LAST_TASK + 1, small_length), (rng.randint(1, LAST_TASK + 1), large_length)),
                                 weights=(14, 2, 2, 3))[0]
    return some_tasks(rng, count, lengths, rng.choice((1, STRETCH)))


def _some_spacing(rng, task):
    """The spacing of a task in ticks: from 1, which every release keeps, to some five times what its job takes alone; seldom any one at all."""
    if rng.random() < ANY_SPACING_CHANCE:
        return rng.choice((LONGEST_SPACING, LONGEST_SPACING, LONGEST_SPACING - 1, rng.randint(1, LONGEST_SPACING)))
    alone = sum(decode(task)[3:])
    return rng.choice((1, 2, rng.randint(1, alone), alone, rng.randint(alone, 2 * alone), rng.randint(alone, 3 * alone),
                       rng.randint(2 * alone, 5 * alone)))


def some_spacings(rng, tasks, share):
    """Spacing entries of so large a share of some tasks, in any order."""
    spaced = [task for task in tasks if rng.random() < share]
    rng.shuffle(spaced)
    return [spacing_entry(decode(task)[0], _some_spacing(rng, task)) for task in spaced]


def with_spacings(rng, tasks):
    """A table's entries from its tasks: half of the tables have no spacing."""
    return tasks + some_spacings(rng, tasks, rng.choice(SPACED_SHARES))


def random_table(rng):
    """The entries of a table that is served."""
    return with_spacings(rng, random_tasks(rng))


def tasks_of(table):
    """The task entries of a table."""
    return [entry for entry in table if entry[0] == TASK]


def task_numbers(table):
    """The numbers of the tasks of a table, in its order."""
    return [decode(task)[0] for task in tasks_of(table)]


def longest_length(table):
    """The greatest L, C or U of a table's tasks."""
    return max(max(decode(task)[3:]) for task in tasks_of(table))
