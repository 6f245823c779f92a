"""Demand 3 and R1 to R6, checked from outside on random files and call lists."""

import random
import unittest

from sim.dispatcher import Dispatcher, members
from sim.earlier import NothingWaits
from sim.generate import DESKS, LOOKS, random_calls, random_file
from sim.generate_tables import random_table
from sim.sessions import INSTANT
from sim.tests.histories import file_history, list_history
from sim.tests.history import check, check_order
from sim.tests.plans import TASKS, finished_copies_stay, plan, plan_file, task_set

FILES = 400
LISTS = 400


class RandomRuns(unittest.TestCase):
    def test_files(self):
        for seed in range(FILES):
            data = random_file(random.Random(f"demand 3 file {seed}"))
            with self.subTest(seed=seed):
                check(self, file_history(data))

    def test_call_lists(self):
        for seed in range(LISTS):
            rng = random.Random(f"demand 3 list {seed}")
            table = random_table(rng)
            calls = random_calls(rng, table, rng.choice((10, 60, 200)), drained=True, looks=rng.choice(LOOKS), desks=rng.choice(DESKS))
            with self.subTest(seed=seed):
                check(self, list_history(b"".join(table), calls))


class MarkedJobs(unittest.TestCase):
    """Plan B's marked job: a lower one executes in its first interval only."""

    def check_order(self, history):
        [job] = [job for job in history.jobs if job.task.mark]
        [index] = [index for index, interval in enumerate(history.intervals) if interval.executed == job.task.number]
        check_order(self, history, index, job)

    def test_plan_b(self):
        self.check_order(file_history(plan("B")))

    def test_where_finished_copies_stay_it_does_not_hold(self):
        with finished_copies_stay():
            history = file_history(plan("B"))
        with self.assertRaises(AssertionError):
            self.check_order(history)


class Loses(Dispatcher):
    """A wrong one: what waits is never taken."""

    def _step_c(self, now, released, answer):
        lost = sum(1 << number for number in members(released) if number in self.pending)
        return super()._step_c(now, released & ~lost, answer)


class WaitingReleases(unittest.TestCase):
    """4/13: everything is counted from the taking, and what waits is taken, executed and completed."""

    # Job 1 is loaded while 3 executes in 2-7, and its next release waits from 3 on; it is taken at 11.
    WAITS_WHILE_A_LOWER_ONE_RUNS = plan_file((0, 3), (2, 1), (3, 1))

    def test_plan_f(self):
        history = file_history(plan("F"))
        check(self, history)
        self.assertEqual([(job.release, job.taking, job.first, job.done.completion) for job in history.jobs], [(0, 0, 0, 6), (5, 6, 2, 12)])
        self.assertEqual(history.set_waiting, [(1, 5)])

    def test_a_run_in_which_it_was_skipped_is_refused(self):
        with self.assertRaises(AssertionError):
            check(self, file_history(plan("F"), NothingWaits))

    def test_a_run_in_which_it_was_lost_is_refused(self):
        with self.assertRaisesRegex(AssertionError, "nothing is pending|nothing waits"):
            check(self, file_history(plan("F"), Loses))

    def test_counted_from_the_release_it_does_not_hold(self):
        history = file_history(self.WAITS_WHILE_A_LOWER_ONE_RUNS)
        check(self, history)
        job = history.jobs[2]
        self.assertEqual((job.release, job.taking, job.first, job.done.blocked), (3, 11, 3, 0))
        job.first = 1  # the interval that holds the release
        with self.assertRaises(AssertionError):
            check_order(self, history, 4, job)

    def test_empty_sets_take_jobs_and_n_has_them(self):
        calls = [(INSTANT, time, released) for time, released in ((0, task_set(1)), (2, 0), (5, task_set(1)))]
        history = list_history(TASKS, calls)
        self.assertEqual(history.tallies[-1], (3, 1))
        self.assertEqual(history.waiting, {1: 5})
        history = list_history(TASKS, calls + [(INSTANT, time, 0) for time in (6, 8, 11, 12)])
        check(self, history)
        self.assertEqual(history.tallies[-1], (5, 2))  # more than three for the one job that the list itself took


if __name__ == "__main__":
    unittest.main()
