"""Every row of the refusal table with its example, its place, and its turn among the others."""

import pickle
import unittest

from sim.dispatcher import Dispatcher
from sim.entries import Refused, encode, release_entry, task_entry
from sim.files import record
from sim.lines import file_lines
from sim.tests.plans import PLANS, TASK_1, TASK_2, TASKS, plan, plan_file, releases, task_set

LIMIT = 1_000_000_000


def outcome(call, *arguments):
    """(number, place) of a refusal, or None for a served call."""
    try:
        call(*arguments)
    except Refused as refused:
        return refused.number, refused.place
    return None


def with_length(index, length):
    """A task entry with L, C or U (index 0, 1, 2) of this length."""
    lengths = [1, 1, 1]
    lengths[index] = length
    return task_entry(5, 5, 0, *lengths)


class FileRefusals(unittest.TestCase):
    def refused(self, data, number, place):
        self.assertEqual(outcome(record, data), (number, place))
        self.assertEqual(file_lines(data), [f"R {number} {place or 0}"])

    def test_1_entry_cut_short(self):
        self.refused(bytes([1, 5]), 1, 0)
        self.refused(TASKS[:-1], 1, 32)
        self.refused(plan("C")[:-1], 1, 48)
        self.refused(TASKS + bytes([2]), 1, 48)

    def test_2_kind(self):
        self.refused(bytes([7]), 2, 0)
        for kind in (0, 4, 16, 17, 18, 255):
            self.refused(TASKS + bytes([kind]), 2, 48)

    def test_3_task_after_release(self):
        self.refused(TASK_1 + release_entry(0, 1) + TASK_2, 3, 26)

    def test_4_number(self):
        self.refused(task_entry(32, 1, 0, 1, 1, 1), 4, 0)
        self.refused(task_entry(255, 1, 0, 1, 1, 1), 4, 0)
        self.refused(TASKS + task_entry(2, 9, 0, 1, 1, 1), 4, 48)
        self.assertIsNone(outcome(record, task_entry(31, 1, 0, 1, 1, 1)))

    def test_5_is_not_said_of_a_priority_given_before(self):
        self.assertIsNone(outcome(record, task_entry(1, 9, 0, 1, 1, 1) + task_entry(2, 9, 0, 1, 1, 1)))
        for priority in (0, 9, 255):
            self.assertIsNone(outcome(record, b"".join(task_entry(number, priority, 0, 1, 1, 1) for number in range(32))))

    def test_6_mark(self):
        self.refused(task_entry(1, 1, 2, 1, 1, 1), 6, 0)

    def test_7_lengths(self):
        self.refused(task_entry(1, 1, 1, 2, 0, 1), 7, 0)
        for index in range(3):
            for length in (0, 1_000_001, 2**32 - 1):
                self.refused(TASKS + with_length(index, length), 7, 48)
            self.assertIsNone(outcome(record, TASKS + with_length(index, 1_000_000)))

    def test_8_release_of_unknown_task(self):
        self.refused(release_entry(0, 1), 8, 0)
        self.refused(plan_file((0, 4)), 8, 48)
        self.refused(plan_file((0, 255)), 8, 48)

    def test_9_release_not_after_the_one_before(self):
        self.refused(plan_file((5, 2), (5, 2)), 9, 58)
        self.refused(plan_file((5, 2), (5, 1)), 9, 58)
        self.refused(plan_file((5, 2), (4, 3)), 9, 58)
        self.assertIsNone(outcome(record, plan_file((5, 2), (5, 3), (6, 1))))

    def test_10_release_too_late(self):
        self.refused(plan_file((LIMIT + 1, 1)), 10, 48)
        self.assertIsNone(outcome(record, plan_file((LIMIT, 1))))

    def test_11_too_many_releases(self):
        most = [(time, 1) for time in range(4096)]
        self.assertIsNone(outcome(record, plan_file(*most)))
        self.refused(plan_file(*most, (4096, 1)), 11, 48 + 40_960)
        self.refused(plan_file(*most, (4096, 1), (4097, 1)), 11, 48 + 40_960)

    def test_12_empty(self):
        self.refused(b"", 12, None)

    def test_13_slice_too_short(self):
        self.assertEqual(outcome(record, plan("A"), 200), (13, 201))
        self.assertEqual(outcome(record, plan("A"), 0), (13, 201))
        self.assertEqual(len(record(plan("A"), 201)), 201)
        self.assertEqual(record(plan("G"), 0), b"")

    def test_13_comes_last(self):
        self.assertEqual(outcome(record, plan("A") + bytes([7]), 0), (2, 78))
        self.assertEqual(outcome(record, b"", 0), (12, None))


class OrderOfFileChecks(unittest.TestCase):
    """An entry that meets several rows is refused by the first in document 01's order."""

    def check(self, data, number):
        self.assertEqual(outcome(record, data)[0], number)

    def test_kind_before_length(self):
        self.check(bytes([7]), 2)
        self.check(TASKS + bytes([17, 0]), 2)

    def test_length_before_fields(self):
        self.check(plan_file((0, 1)) + task_entry(32, 1, 2, 0, 0, 0)[:-1], 1)
        self.check(plan_file((0, 40))[:-1], 1)

    def test_task_checks(self):
        after = TASKS + release_entry(0, 1)
        self.check(after + task_entry(32, 1, 2, 0, 0, 0), 3)
        self.check(TASKS + task_entry(32, 1, 2, 0, 0, 0), 4)
        self.check(TASKS + task_entry(1, 1, 2, 0, 0, 0), 4)
        self.check(TASKS + task_entry(5, 1, 2, 0, 0, 0), 6)
        self.check(TASKS + task_entry(5, 5, 2, 0, 0, 0), 6)
        self.check(TASKS + task_entry(5, 5, 1, 0, 0, 0), 7)

    def test_release_checks(self):
        first = (LIMIT, 3)
        self.check(plan_file(first, (LIMIT + 1, 9)), 8)
        self.check(plan_file((LIMIT, 3), (LIMIT, 9)), 8)
        self.check(plan_file((LIMIT + 1, 1)), 10)
        self.check(plan_file((5, 1), (5, 1)), 9)

    def test_release_checks_at_the_4097th(self):
        most = [(time, 1) for time in range(4096)]
        self.check(plan_file(*most, (0, 9)), 8)
        self.check(plan_file(*most, (LIMIT + 1, 1)), 10)
        self.check(plan_file(*most, (4095, 1)), 9)
        self.check(plan_file(*most, (4096, 1)), 11)

    def test_first_bad_entry_decides(self):
        self.check(plan_file((5, 1), (4, 1)) + bytes([7]), 9)
        self.check(TASKS + task_entry(32, 9, 0, 1, 1, 1) + bytes([1]), 4)


class OpeningRefusals(unittest.TestCase):
    def refused(self, data, number, place):
        self.assertEqual(outcome(Dispatcher.open, data), (number, place))

    def test_rows(self):
        self.refused(b"", 12, None)
        self.refused(bytes([1, 5]), 1, 0)
        self.refused(bytes([7]), 2, 0)
        self.refused(TASKS + task_entry(32, 9, 0, 1, 1, 1), 4, 48)
        self.refused(TASKS + TASK_1, 4, 48)
        self.assertIsNone(outcome(Dispatcher.open, TASKS + task_entry(4, 3, 0, 1, 1, 1)))
        self.refused(task_entry(4, 3, 2, 1, 1, 1), 6, 0)
        self.refused(task_entry(4, 3, 1, 1, 0, 1), 7, 0)

    def test_release_entry_is_2_also_when_cut_or_first(self):
        self.refused(plan("C"), 2, 48)
        self.refused(plan("C")[:-1], 2, 48)
        self.refused(release_entry(0, 1), 2, 0)


class CallRefusals(unittest.TestCase):
    def setUp(self):
        self.dispatcher = Dispatcher.open(TASKS)

    def refused(self, number, call, *arguments):
        """The call is refused by the number alone and leaves no trace."""
        before = pickle.dumps(self.dispatcher)
        self.assertEqual(outcome(call, *arguments), (number, None))
        self.assertEqual(pickle.dumps(self.dispatcher), before)

    def instant_refused(self, number, time, released=0):
        self.refused(number, self.dispatcher.instant, time, released)

    def mark_refused(self, number, task, mark):
        self.refused(number, self.dispatcher.mark, task, mark)

    def test_6_mark(self):
        self.mark_refused(6, 1, 2)
        self.mark_refused(6, 1, 255)

    def test_10_only_with_a_set(self):
        self.instant_refused(10, LIMIT + 1, task_set(1))
        self.assertIsNone(self.dispatcher.instant(LIMIT + 1, 0).due)

    def test_10_at_the_limit_is_served(self):
        self.assertEqual(self.dispatcher.instant(LIMIT, task_set(1)).due, LIMIT + 2)

    def test_14_5_after_5(self):
        self.dispatcher.instant(5, 0)
        self.instant_refused(14, 5)
        self.instant_refused(14, 4, task_set(1))
        self.instant_refused(14, 0)

    def test_14_0_is_allowed_first_and_only_first(self):
        self.dispatcher.instant(0, 0)
        self.instant_refused(14, 0)

    def test_15_3_when_2_is_due(self):
        self.assertEqual(self.dispatcher.instant(0, task_set(1)).due, 2)
        self.instant_refused(15, 3)
        self.instant_refused(15, 3, task_set(2))
        self.instant_refused(15, 2**64 - 1)
        self.assertEqual(self.dispatcher.instant(2, 0).due, 5)

    def test_16_bit_9(self):
        self.instant_refused(16, 0, task_set(9))
        self.instant_refused(16, 0, task_set(1, 31))
        self.instant_refused(16, 0, task_set(0))
        self.instant_refused(16, 0, 2**32 - 1)

    def test_16_mark(self):
        for task in (0, 9, 31, 32, 255):
            self.mark_refused(16, task, 1)

    def test_17_task_1_at_time_1_of_plan_c(self):
        for time, task in PLANS["C"]:
            self.dispatcher.instant(time, task_set(task))
        self.dispatcher.instant(1, 0)
        self.mark_refused(17, 1, 0)
        self.mark_refused(17, 1, 1)

    def test_17_ends_with_the_copy_out(self):
        self.dispatcher.instant(0, task_set(1))
        for time in (2, 5):
            self.dispatcher.instant(time, 0)
            self.mark_refused(17, 1, 0)
        self.dispatcher.instant(6, 0)
        self.dispatcher.mark(1, 0)
        self.assertEqual(self.dispatcher.table[1].mark, 0)

    def test_17_while_a_release_waits(self):
        """Through its wait, at its taking, and to its job's completion: the mark that it came with is the one that its job has."""
        for time, released in ((0, task_set(1)), (2, 0), (5, task_set(1)), (6, 0), (8, 0), (11, 0)):
            self.dispatcher.instant(time, released)
            self.mark_refused(17, 1, 0)
            self.mark_refused(17, 1, 1)
        self.dispatcher.instant(12, 0)
        self.dispatcher.mark(1, 0)

    def test_17_in_a_state_in_which_only_a_release_waits(self):
        """No calls make one: behind what waits there is a pending job."""
        self.dispatcher.waiting[1] = 0
        self.mark_refused(17, 1, 0)
        self.dispatcher.mark(2, 1)

    def test_10_is_not_said_of_a_taking(self):
        """The release that waits was handed in by the limit; it is taken behind it, by an empty set."""
        for time, released in ((LIMIT - 5, task_set(1)), (LIMIT - 3, 0), (LIMIT, task_set(1))):
            self.dispatcher.instant(time, released)
        self.instant_refused(10, LIMIT + 1, task_set(1))
        self.assertEqual(self.dispatcher.instant(LIMIT + 1, 0).due, LIMIT + 3)
        for time in (LIMIT + 3, LIMIT + 6, LIMIT + 7):
            answer = self.dispatcher.instant(time, 0)
        self.assertEqual(answer.job_done, (1, LIMIT, LIMIT + 3, LIMIT + 7, 0))

    def test_order_at_an_instant(self):
        self.dispatcher.instant(0, 0)
        self.dispatcher.instant(5, task_set(1))
        self.instant_refused(16, LIMIT + 1, task_set(9))
        self.instant_refused(16, 5, task_set(9))
        self.instant_refused(10, LIMIT + 1, task_set(1))
        self.instant_refused(15, LIMIT + 1)

    def test_10_before_14(self):
        self.dispatcher.instant(LIMIT + 5, 0)
        self.instant_refused(10, LIMIT + 5, task_set(1))
        self.instant_refused(10, LIMIT + 1, task_set(1))
        self.instant_refused(14, LIMIT, task_set(1))
        self.instant_refused(14, LIMIT + 5)

    def test_order_at_a_mark(self):
        self.dispatcher.instant(0, task_set(1))
        self.mark_refused(16, 9, 2)
        self.mark_refused(6, 1, 2)
        self.mark_refused(17, 1, 1)

    def test_served_calls_change_the_state(self):
        before = pickle.dumps(self.dispatcher)
        self.dispatcher.instant(0, 0)
        self.assertNotEqual(pickle.dumps(self.dispatcher), before)


class WireFormat(unittest.TestCase):
    def test_a_field_too_many_is_an_error_of_the_caller(self):
        with self.assertRaises(ValueError):
            encode(2, 1, 2, 3)

    def test_lengths_of_input_entries(self):
        self.assertEqual((len(TASK_1), len(releases((0, 1)))), (16, 10))


if __name__ == "__main__":
    unittest.main()
