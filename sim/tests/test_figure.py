"""7/13, a figure members can plan on: held against random files and lists of calls with mark calls, and met by runs that were worked out by hand.

The rows can be copied to where rows are proved: an input, its lines, and of one job h, its intervals and what is left of its time.
"""

import itertools
import random
import unittest
from collections import Counter
from typing import NamedTuple

from sim.entries import task_entry
from sim.generate import random_calls, random_file
from sim.generate_tables import desk_tasks, random_table
from sim.lines import file_lines
from sim.tests.figure import BETWEEN, FIRST_TOO, READINGS, RUNS, SINCE_RELEASE, STARTS, check, longest_interval, measured
from sim.tests.histories import file_history, list_history
from sim.tests.plans import finished_copies_stay, plan, plan_file

FILES = 500
LISTS = 800


class RandomRuns(unittest.TestCase):
    """The figure holds of every run, in every reading of h; and the runs are such that it could fail."""

    def tally(self, histories):
        """Check some histories, and count what kinds of jobs they had."""
        seen = Counter()
        for seed, history in enumerate(histories):
            with self.subTest(seed=seed):
                found = check(self, history)
                equals = Counter(task.priority for task in history.table.values())
                longest = longest_interval(history.table)
                seen["longest"] += any(interval.end - interval.begin == longest for interval in history.intervals)
                for each in found:
                    task = each.job.task
                    kind = "marked" if task.mark else "unmarked"
                    seen[kind] += 1
                    seen[f"{kind}, {'some' if each.ahead[BETWEEN] else 'nobody'} ahead, meets it"] += each.intervals == each.most_intervals()
                    seen["equal"] += equals[task.priority] > 1
                    seen["waited"] += each.job.release < each.job.taking
                    seen.update(reading for reading in READINGS if each.ahead[reading] > each.ahead[BETWEEN])
        return seen

    def check_dense(self, seen):
        """Of each kind there were many; every other reading is a larger one somewhere; and both bounds on intervals are met."""
        for kind in ("marked", "unmarked", "equal", "waited"):
            self.assertGreater(seen[kind], 2_000, seen)
        for reading in (STARTS, RUNS, FIRST_TOO, SINCE_RELEASE):
            self.assertGreater(seen[reading], 500, seen)
        for kind, ahead in itertools.product(("marked", "unmarked"), ("nobody", "some")):
            self.assertGreater(seen[f"{kind}, {ahead} ahead, meets it"], 15, seen)
        self.assertGreater(seen["longest"], 100, seen)

    def test_files(self):
        self.check_dense(self.tally(file_history(random_file(random.Random(f"figure file {seed}"))) for seed in range(FILES)))

    def test_call_lists(self):
        def histories():
            for seed in range(LISTS):
                rng = random.Random(f"figure list {seed}")
                table = desk_tasks(rng) if seed % 3 == 0 else random_table(rng)
                yield list_history(b"".join(table), random_calls(rng, table, rng.choice((10, 60, 200)), drained=True))
        self.check_dense(self.tally(histories()))


class Row(NamedTuple):
    """An input, the lines of its run, and of one job its task, release, h, intervals and the ticks that are left of its bound."""
    data: bytes
    lines: list
    job: tuple


def alike(lengths, *standings):
    """Tasks 1, 2, .. of these priorities and marks, all with the same L, C and U."""
    return b"".join(task_entry(number, *standing, *lengths) for number, standing in enumerate(standings, 1))


THREE = (1, 1), (2, 0), (3, 0)  # the highest is marked

DESKS = task_entry(1, 5, 1, 2, 3, 1) + task_entry(2, 5, 1, 2, 4, 1) + task_entry(3, 9, 0, 2, 5, 2)

# A copy-in of 2 and a copy-out of 2 make M = 4, an execution is shorter; then all three are 2, and M is 4 by either sum.
SHORT, EVEN = (2, 1, 2), (2, 2, 2)
# M = 8 by copy-in and execution of one task.
LONG = (2, 6, 1)

ROWS = {
    # The bounds on intervals.

    # M = 7, by L + C of task 3. 2 comes at 3, when interval 2-7 has chosen nobody already. It is not marked, so that nobody is promoted, and the
    # processor idles in 7-11, where 2 is copied in behind the copy-out of 3. Intervals 2-7, 7-11 and 11-15, and no other job between: h = 0, 3
    # intervals. Its bound is 3 x 7 + 1 = 22, and it is done 13 ticks after its release.
    "not marked, nobody ahead, an idle second interval": Row(plan_file((0, 3), (3, 2)), [
        "I 0 2 0 - 0 - 3 1 -",
        "I 2 7 1 3 1 - - 0 -",
        "J 3 0 2 9 0",
        "I 7 11 0 - 0 3 2 1 -",
        "I 11 15 1 2 1 - - 0 -",
        "J 2 3 11 16 1",
        "I 15 16 0 - 0 2 - 0 -",
    ], (2, 3, 0, 3, 9)),
    # 2 comes at 1, while 3 is copied in, and 3 stays, since 2 is not marked. 3 is lower and runs in 2-7; 2 in 7-11. h = 0, 3 intervals; done 11
    # ticks after its release, of 22.
    "not marked, nobody ahead, a lower job in the second interval": Row(plan_file((0, 3), (1, 2)), [
        "I 0 2 0 - 0 - 3 1 -",
        "I 2 7 1 3 1 - 2 1 -",
        "J 3 0 2 9 0",
        "I 7 11 0 2 1 3 - 0 -",
        "J 2 1 7 12 1",
        "I 11 12 1 - 0 2 - 0 -",
    ], (2, 1, 0, 3, 11)),
    # As the first one, and at 8 comes task 1, which is higher: at 9 it is chosen before 2, and runs in 11-14. For 2 intervals 2-7, 7-11, 11-14
    # and 14-18, and job 1 between: h = 1, 4 intervals. Its bound is 4 x 7 + 1 = 29, and it is done 16 ticks after its release.
    "not marked, a higher job ahead": Row(plan_file((0, 3), (3, 2), (8, 1)), [
        "I 0 2 0 - 0 - 3 1 -",
        "I 2 7 1 3 1 - - 0 -",
        "J 3 0 2 9 0",
        "I 7 11 0 - 0 3 1 1 -",
        "I 11 14 1 1 1 - 2 1 -",
        "J 1 8 11 15 0",
        "I 14 18 0 2 1 1 - 0 -",
        "J 2 3 14 19 1",
        "I 18 19 1 - 0 2 - 0 -",
    ], (2, 3, 1, 4, 13)),
    # Plan A. 1 is marked and comes at 3, in 2-7; it is promoted, and runs in 7-12. h = 0, 2 intervals. Its bound is 2 x 7 + 1 = 15, and it is
    # done 10 ticks after its release.
    "marked, nobody ahead": Row(plan("A"), [
        "I 0 2 0 - 0 - 3 1 -",
        "I 2 7 1 3 1 - 2 2 1",
        "J 3 0 2 9 0",
        "I 7 12 0 1 2 3 2 1 -",
        "J 1 3 9 13 1",
        "I 12 16 1 2 1 1 - 0 -",
        "J 2 2 12 17 1",
        "I 16 17 0 - 0 2 - 0 -",
    ], (1, 3, 0, 2, 5)),
    # Of two marked desks of one priority that come in 2-7 the earlier one, 2, is promoted and runs in 7-13; 1 runs in 13-16. For 1 intervals 2-7,
    # 7-13 and 13-16, and job 2, an equal, between: h = 1, 3 intervals. Its bound is 3 x 7 + 1 = 22, and it is done 13 ticks after its release.
    "marked, an equal ahead": Row(plan_file((0, 3), (3, 2), (4, 1), tasks=DESKS), [
        "I 0 2 0 - 0 - 3 1 -",
        "I 2 7 1 3 1 - - 0 2",
        "J 3 0 2 9 0",
        "I 7 13 0 2 2 3 1 1 -",
        "J 2 3 9 14 1",
        "I 13 16 1 1 1 2 - 0 -",
        "J 1 4 13 17 1",
        "I 16 17 0 - 0 1 - 0 -",
    ], (1, 4, 1, 3, 9)),

    # The bound on time.

    # M = 4. 1, marked, comes at 4, where interval 2-4 ends in step b: it belongs to 4-8 from its begin on. There 3 is copied out until 6 and 1
    # copied in until 8, which is as long as an interval can be; in 8-12 2 is copied out and 3 copied in again, while 1 runs. Its copy-out ends at
    # 14: 10 ticks, and 2 x 4 + 2 = 10. Nothing is left.
    "marked, nobody ahead, no tick left": Row(plan_file((0, 3), (2, 2), (4, 1), (7, 3), tasks=alike(SHORT, *THREE)), [
        "I 0 2 0 - 0 - 3 1 -",
        "I 2 4 1 3 1 - 2 1 -",
        "J 3 0 2 6 0",
        "I 4 8 0 2 1 3 1 1 -",
        "J 2 2 4 10 1",
        "I 8 12 1 1 1 2 3 1 -",
        "J 1 4 8 14 1",
        "I 12 14 0 3 1 1 - 0 -",
        "J 3 7 12 16 0",
        "I 14 16 1 - 0 3 - 0 -",
    ], (1, 4, 0, 2, 0)),
    # The same with 4, marked and of the same priority as 1, released with it: 1 has the lower number and goes first, in 8-12. 4 runs in 12-16,
    # where 1 is copied out and 3 copied in. It is done at 18: 14 ticks, and 3 x 4 + 2 = 14.
    "marked, an equal ahead, no tick left": Row(plan_file((0, 3), (2, 2), (4, 1), (4, 4), (7, 3), tasks=alike(SHORT, *THREE, (1, 1))), [
        "I 0 2 0 - 0 - 3 1 -",
        "I 2 4 1 3 1 - 2 1 -",
        "J 3 0 2 6 0",
        "I 4 8 0 2 1 3 1 1 -",
        "J 2 2 4 10 1",
        "I 8 12 1 1 1 2 4 1 -",
        "J 1 4 8 14 1",
        "I 12 16 0 4 1 1 3 1 -",
        "J 4 4 12 18 1",
        "I 16 18 1 3 1 4 - 0 -",
        "J 3 7 16 20 0",
        "I 18 20 0 - 0 3 - 0 -",
    ], (4, 4, 1, 3, 0)),
    # M = 4. At 1 the marked 1 cancels the copy-in of 3 and is promoted; 1-5 is its copy-in and execution, with no copy-out before, so that the
    # choice is made at its very begin: 3 again. 2, not marked, comes a tick later. In 5-9 3, which is lower, runs, 1 is copied out and 2 copied
    # in; in 9-13 2 runs, 3 is copied out and 1, which came again at 9, copied in. 2 is done at 15: 13 ticks, and 3 x 4 + 2 = 14. One tick is
    # left: had 2 come at 1, it would have been chosen.
    "not marked, nobody ahead, one tick left": Row(plan_file((0, 3), (1, 1), (2, 2), (9, 1), tasks=alike(EVEN, *THREE)), [
        "I 0 1 0 - 0 - 3 2 1",
        "I 1 5 1 1 2 - 3 1 -",
        "J 1 1 3 7 0",
        "I 5 9 0 3 1 1 2 1 -",
        "J 3 0 5 11 0",
        "I 9 13 1 2 1 3 1 1 -",
        "J 2 2 9 15 1",
        "I 13 15 0 1 1 2 - 0 -",
        "J 1 9 13 17 1",
        "I 15 17 1 - 0 1 - 0 -",
    ], (2, 2, 0, 3, 1)),
    # The same with 4 of the same priority as 2, released with it and behind it: 2 runs in 9-13 and 4 in 13-17, where 2 is copied out and 1, which
    # came again at 13, copied in. 4 is done at 19: 17 ticks, and 4 x 4 + 2 = 18.
    "not marked, an equal ahead, one tick left": Row(plan_file((0, 3), (1, 1), (2, 2), (2, 4), (13, 1), tasks=alike(EVEN, *THREE, (2, 0))), [
        "I 0 1 0 - 0 - 3 2 1",
        "I 1 5 1 1 2 - 3 1 -",
        "J 1 1 3 7 0",
        "I 5 9 0 3 1 1 2 1 -",
        "J 3 0 5 11 0",
        "I 9 13 1 2 1 3 4 1 -",
        "J 2 2 9 15 1",
        "I 13 17 0 4 1 2 1 1 -",
        "J 4 2 13 19 1",
        "I 17 19 1 1 1 4 - 0 -",
        "J 1 13 17 21 1",
        "I 19 21 0 - 0 1 - 0 -",
    ], (4, 2, 1, 4, 1)),
    # M = 8, by L + C: an interval is so long only where the processor copies in too. At 1 the marked 2 cancels the copy-in of 3 and is promoted,
    # 1-9. At 2 the marked 1 cancels it again and is promoted behind 2, 9-17. It is done at 18: 16 ticks, and 2 x 8 + 1 = 17. One tick is left,
    # since what is promoted came after its interval's choice.
    "marked, where a promoted job makes the longest interval": Row(plan_file((0, 3), (1, 2), (2, 1), tasks=alike(LONG, (1, 1), (2, 1), (3, 0))), [
        "I 0 1 0 - 0 - 3 2 2",
        "I 1 9 1 2 2 - 3 2 1",
        "J 2 1 3 10 0",
        "I 9 17 0 1 2 2 3 1 -",
        "J 1 2 11 18 1",
        "I 17 23 1 3 1 1 - 0 -",
        "J 3 0 17 24 0",
        "I 23 24 0 - 0 3 - 0 -",
    ], (1, 2, 0, 2, 1)),
    # M = 16, by U of task 1 and L of task 2. 2 comes at 2, where the copy-out of 1 begins, and is chosen behind it, at 10: 2-18 is as long as an
    # interval can be, and no task has L + U or L + C of more than 9.
    "the longest interval is of two tasks": Row(plan_file((0, 1), (2, 2), tasks=task_entry(1, 1, 0, 1, 1, 8) + task_entry(2, 2, 0, 8, 1, 1)), [
        "I 0 1 0 - 0 - 1 1 -",
        "I 1 2 1 1 1 - - 0 -",
        "J 1 0 1 10 0",
        "I 2 18 0 - 0 1 2 1 -",
        "I 18 19 1 2 1 - - 0 -",
        "J 2 2 18 20 0",
        "I 19 20 0 - 0 2 - 0 -",
    ], (2, 2, 0, 2, 31)),
    # A task alone, marked, M = 4. Its second release waits from 1 on, is taken at 6, in 4-8, and runs in 8-10. From its taking it has 6 of 2 x 4
    # + 2 = 10 ticks; from its release it is 11: counted from there the bound does not hold.
    "waiting is not counted": Row(plan_file((0, 1), (1, 1), tasks=alike(EVEN, (1, 1))), [
        "I 0 2 0 - 0 - 1 1 -",
        "I 2 4 1 1 1 - - 0 -",
        "J 1 0 2 6 0",
        "I 4 8 0 - 0 1 1 1 -",
        "I 8 10 1 1 1 - - 0 -",
        "J 1 1 8 12 0",
        "I 10 12 0 - 0 1 - 0 -",
    ], (1, 1, 0, 2, 4)),
    # The row with no tick left, and 1 comes again at 9, when its first job has just executed: it waits until 14, where it is chosen at once, and
    # runs in 16-18. It is done at 20, 6 ticks after its taking and 11 after its release, and no other job was executed since its release: the
    # bound is 10 however h is counted.
    "waiting is not counted, whatever h is": Row(plan_file((0, 3), (2, 2), (4, 1), (7, 3), (9, 1), tasks=alike(SHORT, *THREE)), [
        "I 0 2 0 - 0 - 3 1 -",
        "I 2 4 1 3 1 - 2 1 -",
        "J 3 0 2 6 0",
        "I 4 8 0 2 1 3 1 1 -",
        "J 2 2 4 10 1",
        "I 8 12 1 1 1 2 3 1 -",
        "J 1 4 8 14 1",
        "I 12 16 0 3 1 1 1 1 -",
        "J 3 7 12 18 0",
        "I 16 18 1 1 1 3 - 0 -",
        "J 1 9 16 20 1",
        "I 18 20 0 - 0 1 - 0 -",
    ], (1, 9, 0, 2, 4)),
}


def job_of(history, task, release):
    [each] = [each for each in measured(history) if (each.job.task.number, each.job.release) == (task, release)]
    return each


def row_job(name):
    """A row's history and the job that it is about."""
    history = file_history(ROWS[name].data)
    return history, job_of(history, *ROWS[name].job[:2])


class Sharp(unittest.TestCase):
    def test_lines_and_figures(self):
        for name, row in ROWS.items():
            with self.subTest(name):
                self.assertEqual(file_lines(row.data), row.lines)
                history = file_history(row.data)
                check(self, history)
                task, release, *figures = row.job
                each = job_of(history, task, release)
                self.assertEqual([each.ahead[BETWEEN], each.intervals, each.left(longest_interval(history.table))], figures)

    def test_met_in_every_reading(self):
        """In these rows every reading of h is the same: whatever is counted, nobody can be promised less."""
        for name in ("not marked, nobody ahead, an idle second interval", "not marked, nobody ahead, a lower job in the second interval",
                     "not marked, a higher job ahead", "marked, nobody ahead", "marked, an equal ahead", "marked, nobody ahead, no tick left",
                     "marked, an equal ahead, no tick left"):
            _, each = row_job(name)
            self.assertEqual({each.most_intervals(reading) for reading in READINGS}, {each.intervals}, name)

    def check_family(self, tasks, releases, job, expected):
        history = file_history(plan_file(*sorted(releases), tasks=tasks))
        check(self, history)
        each = job_of(history, *job)
        self.assertEqual((each.ahead[BETWEEN], each.intervals, each.left(longest_interval(history.table))), expected)

    def test_with_many_equals_ahead(self):
        """As the rows with no tick and with one tick left: each of the equals is copied in behind the copy-out of the one before."""
        for ahead in range(28):
            last = 4 + ahead
            standings = [*THREE, *[(1, 1)] * ahead, (1, 1)]
            releases = [(0, 3), (2, 2), *((4, number) for number in range(4, last + 1)), (7, 3)]
            self.check_family(alike(SHORT, *standings), releases, (last, 4), (ahead, ahead + 2, 0))
            standings = [*THREE, *[(2, 0)] * ahead]
            releases = [(0, 3), (1, 1), *((2, number) for number in (2, *range(4, last))), (9 + 4 * ahead, 1)]
            self.check_family(alike(EVEN, *standings), releases, (2 if ahead == 0 else last - 1, 2), (ahead, ahead + 3, 1))

    def test_for_every_number_of_jobs_ahead(self):
        """With two higher tasks ahead in turn, 4 and 5: each comes again while its job is copied out, waits, and is chosen when that is done."""
        for ahead in (0, 1, 2, 3, 4, 5, 50, 500):
            turns = [(4 * turn, 4 + turn % 2) for turn in range(ahead)]
            higher = [(5 + time, number) for time, number in turns]
            self.check_family(alike(SHORT, *THREE, (0, 0), (0, 0)), [(0, 3), (2, 2), (4, 1), (7, 3), *higher], (1, 4), (ahead, ahead + 2, 0))
            higher = [(6 + time, number) for time, number in turns]
            releases = [(0, 3), (1, 1), (2, 2), (9 + 4 * ahead, 1), *higher]
            self.check_family(alike(EVEN, *THREE, (0, 0), (0, 0)), releases, (2, 2), (ahead, ahead + 3, 1))


class Search(unittest.TestCase):
    """No run of a small table comes nearer to the bounds on time than the rows do."""

    def runs(self):
        """Three tasks of the same lengths, with all marks; each is released once in the first few ticks, and one of them once more, or none."""
        again = [[], *([(time, number)] for time in range(4, 10) for number in (1, 2, 3))]
        for lengths, marks in itertools.product((EVEN, (1, 1, 1)), itertools.product((0, 1), repeat=3)):
            tasks = alike(lengths, *zip((1, 2, 3), marks))
            for times, more in itertools.product(itertools.product(range(4), repeat=3), again):
                if min(times) == 0:
                    yield plan_file(*sorted([*zip(times, (1, 2, 3)), *more]), tasks=tasks)

    def test_the_least_that_is_left(self):
        least = {0: [], 1: []}
        for data in self.runs():
            history = file_history(data)
            longest = longest_interval(history.table)
            for each in check(self, history):
                least[each.job.task.mark].append(each.left(longest))
        self.assertEqual({mark: min(left) for mark, left in least.items()}, {0: 1, 1: 0})


class Less(unittest.TestCase):
    """What is a little less than the figure does not hold: a row breaks it."""

    def test_no_more_than_h_and_2_for_every_task(self):
        for name in ("not marked, nobody ahead, an idle second interval", "not marked, a higher job ahead"):
            _, each = row_job(name)
            self.assertGreater(each.intervals, each.ahead[BETWEEN] + 2)

    def test_a_longest_interval_without_one_of_its_sums(self):
        for name, sums in (("marked, nobody ahead, no tick left", (3, 4)), ("marked, where a promoted job makes the longest interval", (8, 3))):
            history, _ = row_job(name)
            tasks = history.table.values()
            self.assertEqual((max(task.copy_in + task.execution for task in tasks),
                              max(task.copy_in for task in tasks) + max(task.copy_out for task in tasks)), sums)
            self.assertEqual(max(interval.end - interval.begin for interval in history.intervals), max(sums))

    def test_l_and_u_of_one_task(self):
        history, _ = row_job("the longest interval is of two tasks")
        self.assertEqual(max(task.copy_in + task.copy_out for task in history.table.values()), 9)
        self.assertEqual(max(interval.end - interval.begin for interval in history.intervals), 16)

    def test_h_of_higher_jobs_alone(self):
        history, each = row_job("marked, an equal ahead")
        self.assertEqual((each.intervals, history.table[1].priority, history.table[2].priority), (3, 5, 5))

    def test_counted_from_the_original_release(self):
        for name, reading in (("waiting is not counted", BETWEEN), ("waiting is not counted, whatever h is", SINCE_RELEASE)):
            history, each = row_job(name)
            self.assertGreater(each.job.done.completion - each.job.release, each.bound(longest_interval(history.table), reading))

    def test_where_finished_copies_stay(self):
        """Before 2/13 plan B broke it: a lower job ran in the second interval of a marked one."""
        with finished_copies_stay():
            history = file_history(plan("B"))
        each = job_of(history, 1, 4)
        self.assertEqual((each.ahead[BETWEEN], each.intervals), (0, 3))
        with self.assertRaises(AssertionError):
            check(self, history)


if __name__ == "__main__":
    unittest.main()
