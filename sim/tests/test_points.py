"""Decided points where the document is easily misread, and its readings that tempt."""

import random
import unittest

from sim.dispatcher import COPY_IN_CANCELLED, COPY_IN_DONE, NO_COPY_IN, Dispatcher
from sim.entries import Refused, release_entry, task_entry
from sim.files import read_file, record, released_sets, run
from sim.generate import random_file
from sim.lines import file_lines
from sim.tests.plans import TASK_1, TASKS, plan, plan_file, task_set

LAST_TICK = 2**64 - 1

# The plans' tasks with copies of three ticks.
LONG = task_entry(1, 1, 1, 3, 3, 3) + task_entry(2, 2, 0, 3, 4, 3) + task_entry(3, 3, 0, 3, 5, 3)


def fields(letter, data):
    """The fields of each line with this letter."""
    return [line.split()[1:] for line in file_lines(data) if line.startswith(letter)]


class OrderWithinAnInstant(unittest.TestCase):
    """Point 1: 16, then 17 of step b, then the 18s, then 17 of step f."""

    # A copy-in of 2 takes three ticks, so that a release of it waits and another is skipped before it ends.
    SLOW = task_entry(1, 1, 1, 2, 3, 1) + task_entry(2, 2, 0, 3, 4, 1)

    def test_skip_before_an_interval_that_ends_at_step_f(self):
        lines = file_lines(plan_file((0, 2), (1, 2), (2, 1), (2, 2), tasks=self.SLOW))
        self.assertEqual(lines[:2], ["S 2 2", "I 0 2 0 - 0 - 2 2 1"])

    def test_skip_after_an_interval_that_ends_at_step_b(self):
        self.assertEqual(file_lines(plan_file((0, 2), (1, 2), (2, 2)))[:2], ["I 0 2 0 - 0 - 2 1 -", "S 2 2"])

    def test_job_done_then_skip_then_the_interval_of_step_f(self):
        # In 6-10 job 2 executes and job 1 is copied out; both end at 10, where a release of 2 is skipped: one waits since 8.
        tasks = task_entry(1, 1, 1, 2, 3, 4) + task_entry(2, 2, 0, 2, 4, 1)
        lines = file_lines(plan_file((0, 2), (1, 1), (8, 2), (10, 2), tasks=tasks))
        self.assertEqual(lines[2:5], ["J 1 1 3 10 0", "S 2 10", "I 6 10 0 2 1 1 - 0 -"])

    def test_job_done_then_skip_of_another_at_a_taking(self):
        # At 12 job 1 completes and its waiting release is taken; that of 2, behind one that waits since 10, is skipped. No interval ends.
        lines = file_lines(plan_file((0, 3), (2, 1), (3, 1), (9, 2), (10, 2), (12, 2)))
        self.assertEqual(lines[4:7], ["J 1 2 7 12 1", "S 2 12", "I 11 15 1 2 1 1 1 1 -"])

    def test_skips_by_rising_task_number(self):
        lines = file_lines(plan_file(*((time, number) for time in (0, 1, 2) for number in (1, 2, 3)), tasks=LONG))
        self.assertEqual(lines[:3], ["S 1 2", "S 2 2", "S 3 2"])

    def test_closing_step_f(self):
        dispatcher = Dispatcher.open(self.SLOW)
        self.assertIsNone(dispatcher.instant(0, task_set(2)).closed_at)
        self.assertEqual(dispatcher.instant(1, task_set(2)).skipped, 0)
        answer = dispatcher.instant(2, task_set(1, 2))
        self.assertEqual((answer.closed_at, answer.skipped, answer.due), ("f", task_set(2), 4))

    def test_closing_step_b(self):
        dispatcher = Dispatcher.open(TASKS)
        for time in (0, 1):
            dispatcher.instant(time, task_set(2))
        answer = dispatcher.instant(2, task_set(2))
        self.assertEqual((answer.closed_at, answer.skipped, answer.due), ("b", task_set(2), 6))

    def test_job_done_and_interval_of_step_f_in_one_answer(self):
        dispatcher = Dispatcher.open(TASKS)
        dispatcher.instant(0, task_set(1))
        dispatcher.instant(2, 0)
        dispatcher.instant(5, 0)
        answer = dispatcher.instant(6, 0)
        self.assertEqual(answer.job_done, (1, 0, 2, 6, 0))
        self.assertEqual(answer.interval, (5, 6, 0, None, 0, 1, None, 0, None))
        self.assertEqual((answer.closed_at, answer.skipped, answer.due), ("f", 0, None))


class ProcessorsOwnCopyIn(unittest.TestCase):
    """Point 2: its end is due, and 15 refuses an instant beyond it."""

    def test_due_and_refused_beyond(self):
        dispatcher = Dispatcher.open(TASK_1 + task_entry(2, 2, 0, 6, 4, 1))
        dispatcher.instant(0, task_set(2))
        self.assertEqual(dispatcher.instant(1, task_set(1)).due, 3)  # the engine's copy-in of 2 ends at 7
        with self.assertRaises(Refused) as caught:
            dispatcher.instant(4, 0)
        self.assertEqual(caught.exception.number, 15)
        self.assertEqual(dispatcher.instant(3, 0).due, 6)

    def test_it_is_not_cancelled(self):
        # The processor copies in promoted job 2 from 1 to 3; marked 1 comes at 2 and cancels the engine's copy only.
        tasks = task_entry(1, 1, 1, 2, 3, 1) + task_entry(2, 2, 1, 2, 4, 1) + task_entry(3, 3, 0, 2, 5, 2)
        lines = file_lines(plan_file((0, 3), (1, 2), (2, 1), tasks=tasks))
        self.assertEqual(lines[0], "I 0 1 0 - 0 - 3 2 2")
        self.assertEqual(lines[1], "I 1 7 1 2 2 - 3 2 1")
        self.assertIn("J 2 1 3 8 0", lines)


class Halves(unittest.TestCase):
    """Point 3: they alternate over idle time too."""

    def test_odd_number_of_intervals_before_idle_time(self):
        halves = [line[2] for line in fields("I", plan_file((0, 1), (100, 1)))]
        self.assertEqual(halves, ["0", "1", "0", "1", "0", "1"])


class BlockedCounts(unittest.TestCase):
    """Point 4: whole intervals count; the lower job may have ended before the release."""

    def test_lower_job_ended_before_the_release(self):
        tasks = task_entry(1, 1, 0, 1, 1, 1) + task_entry(2, 2, 0, 10, 1, 1) + task_entry(3, 3, 0, 1, 1, 1)
        lines = file_lines(plan_file((0, 3), (1, 2), (5, 1), tasks=tasks))
        # Job 3 executes from 1 to 2 in the interval 1-11, which the copy-in of 2 holds open.
        self.assertEqual(lines[1], "I 1 11 1 3 1 - 2 1 -")
        self.assertIn("J 1 5 13 15 2", lines)

    def test_release_at_an_end_by_step_b_belongs_to_the_next(self):
        # Plan E: the interval 0-2 is not job 1's, the next one executes job 2 and is.
        self.assertIn("J 1 2 6 10 1", file_lines(plan("E")))

    def test_release_at_an_end_by_step_f_belongs_to_the_ended_one(self):
        # The interval 2-4 executes 3 until 3, and job 1's release at 4 cancels the copy-in of 2 and so ends it.
        tasks = task_entry(1, 1, 1, 2, 3, 1) + task_entry(2, 2, 0, 9, 4, 1) + task_entry(3, 3, 0, 2, 1, 2)
        lines = file_lines(plan_file((0, 3), (2, 2), (4, 1), tasks=tasks))
        self.assertEqual(lines[1], "I 2 4 1 3 1 - 2 2 1")
        self.assertIn("J 1 4 6 16 1", lines)


class LastServed(unittest.TestCase):
    """Point 5: 14 compares with the last served instant; a refused call leaves no trace."""

    def test_refused_instant_is_not_the_last(self):
        dispatcher = Dispatcher.open(TASKS)
        dispatcher.instant(0, task_set(1))
        for time, released, number in ((3, 0, 15), (2, task_set(9), 16), (0, 0, 14), (10**9 + 1, 2, 10)):
            with self.assertRaises(Refused) as caught:
                dispatcher.instant(time, released)
            self.assertEqual(caught.exception.number, number)
        self.assertEqual(dispatcher.instant(1, 0).due, 2)
        self.assertEqual(dispatcher.instant(2, 0).due, 5)

    def test_refused_first_instant(self):
        dispatcher = Dispatcher.open(TASKS)
        with self.assertRaises(Refused):
            dispatcher.instant(7, task_set(9))
        self.assertEqual(dispatcher.instant(0, task_set(1)).due, 2)


class NothingDue(unittest.TestCase):
    """Point 6: with nothing due, an empty set is served at any u64 time."""

    def test_last_tick(self):
        dispatcher = Dispatcher.open(TASKS)
        answer = dispatcher.instant(LAST_TICK, 0)
        self.assertEqual((answer.job_done, answer.interval, answer.closed_at, answer.skipped, answer.due),
                         (None, None, None, 0, None))
        with self.assertRaises(Refused) as caught:
            dispatcher.instant(LAST_TICK, 0)
        self.assertEqual(caught.exception.number, 14)

    def test_far_ahead_after_work(self):
        dispatcher = Dispatcher.open(TASKS)
        for time, released in ((0, 2), (2, 0), (5, 0), (6, 0), (10**9 + 1, 0), (10**12, 0)):
            answer = dispatcher.instant(time, released)
        self.assertIsNone(answer.due)


class Checks(unittest.TestCase):
    """Point 7: kind before length before everything else; openings; only zero bytes are 12."""

    def refused(self, call, data):
        with self.assertRaises(Refused) as caught:
            call(data)
        return caught.exception.number, caught.exception.place

    def test_kind_before_length(self):
        self.assertEqual(self.refused(record, TASKS + bytes([18])), (2, 48))

    def test_opening_refuses_a_release_by_2_at_its_place(self):
        self.assertEqual(self.refused(Dispatcher.open, TASKS + release_entry(0, 1)), (2, 48))

    def test_only_zero_bytes_are_12(self):
        self.assertEqual(self.refused(record, b""), (12, None))
        self.assertEqual(self.refused(record, release_entry(0, 1)), (8, 0))
        self.assertEqual(record(TASK_1), b"")


class Promotion(unittest.TestCase):
    """Point 8: the highest of the marked jobs released in the interval and ready."""

    TABLE = (task_entry(1, 1, 1, 2, 3, 1) + task_entry(2, 2, 1, 2, 3, 1) + task_entry(3, 3, 0, 5, 9, 2)
             + task_entry(4, 4, 0, 9, 9, 9) + task_entry(0, 0, 0, 1, 1, 1))

    def second_interval(self, *pairs):
        return fields("I", plan_file((0, 4), *pairs, tasks=self.TABLE))[1]

    def test_a_higher_one_after_the_cancelling_is_promoted(self):
        self.assertEqual(self.second_interval((9, 3), (10, 2), (12, 1))[6:], ["3", "2", "1"])

    def test_a_lower_one_after_the_cancelling_is_not(self):
        self.assertEqual(self.second_interval((9, 3), (10, 1), (12, 2))[6:], ["3", "2", "1"])

    def test_an_unmarked_higher_one_is_not(self):
        self.assertEqual(self.second_interval((9, 3), (10, 2), (12, 0))[6:], ["3", "2", "2"])

    def test_the_mark_at_the_release_counts(self):
        dispatcher = Dispatcher.open(TASKS)
        dispatcher.mark(1, 0)
        dispatcher.instant(0, task_set(2))
        self.assertIsNone(dispatcher.instant(1, task_set(1)).interval)
        marked = Dispatcher.open(TASKS)
        marked.mark(2, 1)
        marked.instant(0, task_set(3))
        self.assertEqual(marked.instant(1, task_set(2)).interval, (0, 1, 0, None, 0, None, 3, COPY_IN_CANCELLED, 2))

    def test_chosen_and_cancelled_marked_job_is_ready_but_lower(self):
        # Marked 2 is chosen at 0 and cancelled by marked 1 at 1: both are marked, released in it and ready.
        lines = fields("I", plan_file((0, 2), (1, 1), tasks=self.TABLE))
        self.assertEqual(lines[0], ["0", "1", "0", "-", "0", "-", "2", "2", "1"])

    def test_an_older_marked_job_waits(self):
        # In 9-18 the copy-in of 4 is cancelled. Marked 2 is ready too, but of the interval before.
        tasks = (task_entry(0, 0, 1, 1, 1, 1) + task_entry(1, 1, 0, 9, 9, 1) + task_entry(4, 2, 0, 9, 9, 1)
                 + task_entry(2, 3, 1, 1, 1, 1))
        lines = file_lines(plan_file((0, 1), (1, 2), (9, 4), (10, 0), tasks=tasks))
        self.assertEqual(lines[:4], ["I 0 9 0 - 0 - 1 1 -", "I 9 18 1 1 1 - 4 2 0", "J 1 0 9 19 0",
                                     "I 18 28 0 0 2 1 4 1 -"])

    def test_an_interval_whose_copy_stays_promotes_nobody(self):
        # Marked job 2 is released at 12 and ready at the end of 9-18, but the copy-in of 1, which is higher, was done at 11.
        self.assertEqual(self.second_interval((9, 1), (12, 2))[6:], ["1", "1", "-"])


class FinishedCopies(unittest.TestCase):
    """2/13: a marked release that is taken throws out a lower-priority copy-in that the engine has finished in the open interval.

    With (0, 4) first, the second interval, 2-7, executes task 4, and what it copies in is done at 4.
    """

    TABLE = (task_entry(1, 1, 1, 2, 3, 1) + task_entry(2, 2, 1, 2, 4, 1) + task_entry(3, 3, 0, 2, 5, 2)
             + task_entry(4, 4, 0, 2, 5, 2))

    def intervals(self, *pairs):
        return fields("I", plan_file((0, 4), *pairs, tasks=self.TABLE))

    def copy_in(self, *pairs):
        """Of the second interval: its end, the task chosen, its fate, and the task promoted."""
        _, end, *_, chosen, fate, promoted = self.intervals(*pairs)[1]
        return int(end), chosen, fate, promoted

    def test_on_each_tick_from_the_choice_to_the_end_of_the_interval(self):
        found = {time: self.copy_in((2, 3), (time, 2)) for time in range(3, 9)}
        cancelled, thrown_out, stays = (7, "3", "2", "2"), (7, "3", "3", "2"), (7, "3", "1", "-")
        self.assertEqual(found, {3: cancelled, 4: thrown_out, 5: thrown_out, 6: thrown_out, 7: stays, 8: stays})

    def test_thrown_out_and_promoted(self):
        self.assertEqual(self.copy_in((2, 3), (5, 2)), (7, "3", "3", "2"))
        self.assertEqual(self.intervals((2, 3), (5, 2))[2], ["7", "13", "0", "2", "2", "4", "3", "1", "-"])

    def test_another_higher_release_of_the_interval_is_promoted(self):
        # 2 throws out the copy of 3; 1 comes later and is higher. The next interval copies in 2, the one behind it 3.
        found = self.intervals((2, 3), (4, 2), (5, 1))
        self.assertEqual(found[1][6:], ["3", "3", "1"])
        self.assertEqual([each[3:8] for each in found[2:5]], [["1", "2", "4", "2", "1"], ["2", "1", "1", "3", "1"], ["3", "1", "2", "-", "0"]])

    def test_a_lower_release_behind_it_is_not(self):
        self.assertEqual(self.copy_in((2, 3), (4, 1), (5, 2)), (7, "3", "3", "1"))

    def test_both_at_once(self):
        self.assertEqual(self.copy_in((2, 3), (5, 1), (5, 2)), (7, "3", "3", "1"))

    def test_a_marked_copy_is_thrown_out_too_and_is_not_promoted(self):
        # The job of 2 was released in this interval, is marked and is ready again; 1 is higher.
        self.assertEqual(self.copy_in((2, 2), (5, 1)), (7, "2", "3", "1"))

    def test_a_higher_copy_stays(self):
        self.assertEqual(self.copy_in((2, 1), (5, 2)), (7, "1", "1", "-"))

    def test_an_unmarked_release_throws_out_nothing(self):
        self.assertEqual(fields("I", plan_file((0, 1), (2, 3), (4, 2)))[1], ["2", "5", "1", "1", "1", "-", "3", "1", "-"])

    def test_the_mark_at_the_release_counts(self):
        dispatcher = Dispatcher.open(self.TABLE)
        dispatcher.mark(2, 0)
        for time, numbers in ((0, [4]), (2, [3]), (4, [2])):
            dispatcher.instant(time, task_set(*numbers))
        self.assertEqual(dispatcher.instant(7, 0).interval, (2, 7, 1, 4, 1, None, 3, COPY_IN_DONE, None))

    def test_a_release_that_waits_or_is_skipped_throws_out_nothing(self):
        # At 4 and 5 job 2 is executing and the copy of 3 is done; its releases wait and are skipped.
        lines = file_lines(plan_file((0, 2), (2, 3), (4, 2), (5, 2), tasks=self.TABLE))
        self.assertEqual(lines[1:3], ["S 2 5", "I 2 6 1 2 1 - 3 1 -"])

    def test_a_copy_of_the_interval_before_stays(self):
        # The interval 2-7 ends at step b of 7 and the release of 1 belongs to the next, which executes 3.
        self.assertEqual([each[3:] for each in self.intervals((2, 3), (7, 1))[1:3]],
                         [["4", "1", "-", "3", "1", "-"], ["3", "1", "4", "1", "1", "-"]])
        self.assertIn("J 1 7 12 16 1", file_lines(plan_file((0, 4), (2, 3), (7, 1), tasks=self.TABLE)))

    def test_no_second_choice_after_it(self):
        # The engine stays free until 7, though 3 and 2 are ready from 5 on.
        dispatcher = Dispatcher.open(self.TABLE)
        for time, numbers in ((0, [4]), (2, [3]), (4, []), (5, [2])):
            answer = dispatcher.instant(time, task_set(*numbers))
        self.assertEqual(answer.due, 7)
        self.assertEqual(dispatcher.instant(6, 0).due, 7)

    def test_one_job_may_be_thrown_out_twice(self):
        # 2 throws out 3 and is promoted; in 7-13 the engine copies in 3 again, and 1 throws it out once more.
        found = self.intervals((2, 3), (5, 2), (11, 1))
        self.assertEqual([each[6:] for each in found[1:3]], [["3", "3", "2"], ["3", "3", "1"]])

    def test_blocked_by_whole_intervals(self):
        # Job 3 waits in 2-7 and 7-13, of which the first executes a lower job.
        self.assertIn("J 3 2 13 20 1", file_lines(plan_file((0, 4), (2, 3), (5, 2), tasks=self.TABLE)))


class WaitingReleases(unittest.TestCase):
    """4/13: one release of a task waits for its job's completion, and is taken then, before the releases of that instant."""

    def jobs(self, *pairs, tasks=TASKS):
        return [line for line in file_lines(plan_file(*pairs, tasks=tasks)) if line[0] in "JS"]

    def test_on_each_tick_from_the_release_to_the_completion(self):
        """Wherever it comes in that time it is taken at 6; its job shows when it came."""
        for time in range(1, 7):
            self.assertEqual(self.jobs((0, 1), (time, 1)), ["J 1 0 2 6 0", f"J 1 {time} 8 12 0"])
        self.assertEqual(self.jobs((0, 1), (7, 1)), ["J 1 0 2 6 0", "J 1 7 9 13 0"])

    def test_a_release_at_the_taking_waits_in_its_turn(self):
        self.assertEqual(self.jobs((0, 1), (5, 1), (6, 1)), ["J 1 0 2 6 0", "J 1 5 8 12 0", "J 1 6 14 18 0"])
        self.assertEqual(self.jobs((0, 1), (5, 1), (6, 1), (12, 1)), ["J 1 0 2 6 0", "J 1 5 8 12 0", "J 1 6 14 18 0", "J 1 12 20 24 0"])

    def test_a_third_one_is_skipped_and_the_first_of_them_stays(self):
        self.assertEqual(self.jobs((0, 1), (3, 1), (4, 1), (5, 1)), ["S 1 4", "S 1 5", "J 1 0 2 6 0", "J 1 3 8 12 0"])

    def test_behind_the_taking_another_may_wait(self):
        self.assertEqual(self.jobs((0, 1), (3, 1), (4, 1), (6, 1), (7, 1)),
                         ["S 1 4", "J 1 0 2 6 0", "S 1 7", "J 1 3 8 12 0", "J 1 6 14 18 0"])

    def test_a_release_at_a_completion_behind_which_none_waits_is_taken(self):
        self.assertEqual(self.jobs((0, 1), (6, 1), (6, 2)), ["J 1 0 2 6 0", "J 1 6 8 12 0", "J 2 6 11 16 0"])

    def test_each_task_has_one(self):
        self.assertEqual(self.jobs((0, 1), (0, 2), (1, 1), (1, 2)), ["J 1 0 2 6 0", "J 2 0 5 10 0", "J 1 1 9 13 1", "J 2 1 12 17 0"])

    def test_it_waits_for_its_own_task_only(self):
        # Job 1 completes at 6, where nothing of 1 waits; what waits of 2 is taken at 10, when job 2 completes.
        dispatcher = Dispatcher.open(TASKS)
        for time, numbers in ((0, (1, 2)), (1, (2,)), (2, ()), (4, ()), (5, ()), (6, ())):
            dispatcher.instant(time, task_set(*numbers))
        self.assertEqual((dispatcher.waiting, sorted(dispatcher.pending)), ({2: 1}, [2]))
        for time in (9, 10):
            dispatcher.instant(time, 0)
        self.assertEqual((dispatcher.waiting, dispatcher.pending[2].release), ({}, 1))

    def test_the_engine_chooses_at_the_taking_and_the_taken_one_is_among_the_ready(self):
        # At 6 nothing else is ready: the copy-in begins at the very instant, as in F'.
        dispatcher = Dispatcher.open(TASKS)
        for time, numbers in ((0, (1,)), (2, ()), (5, (1,))):
            answer = dispatcher.instant(time, task_set(*numbers))
        self.assertEqual((answer.skipped, answer.due), (0, 6))
        answer = dispatcher.instant(6, 0)
        self.assertEqual((answer.job_done, answer.interval, answer.skipped, answer.due), ((1, 0, 2, 6, 0), None, 0, 8))

    def test_a_higher_release_of_the_instant_of_the_taking_is_chosen(self):
        # At 7 job 2 completes and its waiting release is taken; 1 comes on the same tick and is higher.
        lines = file_lines(plan_file((0, 2), (5, 2), (7, 1)))
        self.assertEqual(lines[2:4], ["J 2 0 2 7 0", "I 6 9 0 - 0 2 1 1 -"])

    def test_its_copy_in_gives_way_as_any_does(self):
        # Taken at 7 and copied in from then on; 1 comes at 8. What is promoted is 1, and 2 is copied in again behind it.
        lines = fields("I", plan_file((0, 2), (5, 2), (8, 1)))
        self.assertEqual(lines[2], ["6", "8", "0", "-", "0", "2", "2", "2", "1"])
        self.assertEqual(lines[3][3:8], ["1", "2", "-", "2", "1"])

    def test_blocking_is_counted_from_the_taking(self):
        # Released at 3, while 3 executes in 2-7; taken at 11, in an interval in which the processor idles.
        self.assertEqual(self.jobs((0, 3), (2, 1), (3, 1)), ["J 3 0 2 9 0", "J 1 2 7 11 1", "J 1 3 13 17 0"])

    def test_the_interval_of_the_taking_counts_whole(self):
        # Taken at 12 in 11-15, where 2 executes from 11 on.
        self.assertEqual(self.jobs((0, 3), (2, 1), (3, 1), (9, 2)), ["J 3 0 2 9 0", "J 1 2 7 12 1", "J 2 9 11 16 0", "J 1 3 15 19 1"])

    def test_where_it_came_at_the_end_of_an_interval_at_step_b_it_belongs_to_that_of_its_taking(self):
        # At 5 the interval 2-5 ends at step b and the next begins; at 6, in it, the release is taken.
        dispatcher = Dispatcher.open(TASKS)
        for time, numbers in ((0, (1,)), (2, ())):
            dispatcher.instant(time, task_set(*numbers))
        answer = dispatcher.instant(5, task_set(1))
        self.assertEqual((answer.closed_at, dispatcher.waiting, dispatcher.arrivals), ("b", {1: 5}, set()))
        dispatcher.instant(6, 0)
        self.assertEqual([job.release for job in dispatcher.arrivals], [5])

    def test_at_a_taking_no_interval_ends_and_nothing_gives_way(self):
        """The engine has just ended a copy-out and has chosen nobody yet; it chooses at step e, since one is ready."""
        takings = 0
        for seed in range(150):
            table, releases = read_file(random_file(random.Random(f"takings {seed}")))
            dispatcher, sets = Dispatcher(table), dict(released_sets(releases))
            for time, _ in run(table, releases):
                waiting, interval = set(dispatcher.waiting), dispatcher.interval
                answer = dispatcher.instant(time, sets.get(time, 0))
                if answer.job_done is not None and answer.job_done.task in waiting:
                    takings += 1
                    self.assertIsNone(answer.interval)
                    self.assertIs(dispatcher.interval, interval)
                    self.assertEqual((interval.fate, interval.engine.end), (NO_COPY_IN, time + interval.chosen.task.copy_in))
        self.assertGreater(takings, 300)

    def test_nothing_waits_when_nothing_is_due(self):
        for seed in range(50):
            table, releases = read_file(random_file(random.Random(f"idle {seed}")))
            dispatcher, sets = Dispatcher(table), dict(released_sets(releases))
            for time, _ in run(table, releases):
                if dispatcher.instant(time, sets.get(time, 0)).due is None:
                    self.assertEqual((dispatcher.pending, dispatcher.waiting), ({}, {}))

    def test_a_release_at_the_limit_waits_and_is_taken_behind_it(self):
        self.assertEqual(self.jobs((10**9 - 5, 1), (10**9, 1)),
                         [f"J 1 {10**9 - 5} {10**9 - 3} {10**9 + 1} 0", f"J 1 {10**9} {10**9 + 3} {10**9 + 7} 0"])

    def test_the_mark_of_its_task_is_that_of_the_job_before(self):
        """It cannot change while one waits, so that the mark at the taking is the one at the release."""
        dispatcher = Dispatcher.open(TASKS)
        for time, numbers in ((0, (1,)), (2, ()), (5, (1,))):
            dispatcher.instant(time, task_set(*numbers))
            with self.assertRaises(Refused) as caught:
                dispatcher.mark(1, 0)
            self.assertEqual(caught.exception.number, 17)
        dispatcher.instant(6, 0)
        self.assertEqual(dispatcher.pending[1].task.mark, 1)


class ReadingsThatTempt(unittest.TestCase):
    def test_a_copy_that_ends_on_the_tick_of_the_release_is_thrown_out_and_not_cancelled(self):
        self.assertEqual(fields("I", plan("B"))[1], ["2", "7", "1", "3", "1", "-", "2", "3", "1"])

    def test_the_release_that_cuts_an_interval_short_belongs_to_it(self):
        self.assertEqual(fields("I", plan("D"))[0], ["0", "1", "0", "-", "0", "-", "2", "2", "1"])

    def test_plan_c_with_a_release_of_2_at_3(self):
        """Neither is the choice made again in 2-5, nor is unmarked job 2 promoted at its end."""
        self.assertEqual(file_lines(plan_file((0, 1), (3, 2))), [
            "I 0 2 0 - 0 - 1 1 -",
            "I 2 5 1 1 1 - - 0 -",
            "J 1 0 2 6 0",
            "I 5 8 0 - 0 1 2 1 -",
            "I 8 12 1 2 1 - - 0 -",
            "J 2 3 8 13 0",
            "I 12 13 0 - 0 2 - 0 -",
        ])

    def test_a_marked_one_is_promoted_there(self):
        tasks = task_entry(1, 1, 1, 2, 3, 1) + task_entry(2, 2, 1, 2, 4, 1)
        lines = fields("I", plan_file((0, 1), (3, 2), tasks=tasks))
        self.assertEqual(lines[1], ["2", "5", "1", "1", "1", "-", "-", "0", "2"])
        self.assertEqual(lines[2], ["5", "11", "0", "2", "2", "1", "-", "0", "-"])

    def test_no_second_choice_after_a_cancelling(self):
        # Plan A: at 3 the copy-in of 2 is cancelled; the engine stays free until 7.
        dispatcher = Dispatcher.open(TASKS)
        for time, number in ((0, 3), (2, 2), (3, 1)):
            answer = dispatcher.instant(time, task_set(number))
        self.assertEqual(answer.due, 7)

    def test_an_unmarked_release_cancels_nothing(self):
        self.assertEqual(fields("I", plan_file((0, 3), (1, 2)))[0], ["0", "2", "0", "-", "0", "-", "3", "1", "-"])

    def test_a_marked_release_of_lower_priority_cancels_nothing(self):
        tasks = task_entry(1, 1, 0, 2, 3, 1) + task_entry(2, 2, 1, 2, 4, 1)
        self.assertEqual(fields("I", plan_file((0, 1), (1, 2), tasks=tasks))[0][6:8], ["1", "1"])

    def test_a_marked_release_that_waits_or_is_skipped_cancels_nothing(self):
        # At 4 and 5 the engine copies in 2 while job 1 executes; the releases of 1 find it pending, and the second one waiting.
        lines = file_lines(plan_file((0, 1), (3, 2), (4, 1), (5, 1), tasks=LONG))
        self.assertEqual(lines[:3], ["I 0 3 0 - 0 - 1 1 -", "S 1 5", "I 3 6 1 1 1 - 2 1 -"])

    def test_a_copy_out_is_not_cancelled(self):
        lines = file_lines(plan_file((0, 3), (7, 2), (8, 1)))
        self.assertIn("J 3 0 2 9 0", lines)
        self.assertEqual(fields("I", plan_file((0, 3), (7, 2), (8, 1)))[2][5:8], ["3", "1", "1"])


if __name__ == "__main__":
    unittest.main()
