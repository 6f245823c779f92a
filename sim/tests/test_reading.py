"""Reading a stored record: the releases come back, and each refusal with its place and in its order."""

import random
import unittest

from sim.earlier import NothingWaits
from sim.entries import INTERVAL, JOB_DONE, NO_TASK, SKIPPED, Refused, encode, release_entry, task_entry, two_parts
from sim.files import read_file, record
from sim.generate import random_file
from sim.generate_records import record_entries
from sim.other_orders import ALL
from sim.reading import read, read_lines
from sim.tests.plans import PLANS, TASK_1, TASKS, THIRD_RELEASE, finished_copies_stay, plan, plan_file
from sim.tests.test_equals import ROWS

LIMIT = 1_000_000_000

# Plan A's record, and where its entries begin.
A = record(plan("A"))
STARTS = (0, 24, 48, 75, 99, 126, 150, 177)
ENTRIES = [A[start:end] for start, end in zip(STARTS, (*STARTS[1:], len(A)))]

SKIP = encode(SKIPPED, 1, 5)


def alone(time):
    """The record of task 1 alone, released once."""
    return (encode(INTERVAL, time, time + 2, 0, NO_TASK, 0, NO_TASK, 1, 1, NO_TASK)
            + encode(INTERVAL, time + 2, time + 5, 1, 1, 1, NO_TASK, NO_TASK, 0, NO_TASK)
            + encode(JOB_DONE, 1, time, time + 2, time + 6, 0)
            + encode(INTERVAL, time + 5, time + 6, 0, NO_TASK, 0, 1, NO_TASK, 0, NO_TASK))


def lines(tasks, stored):
    return read_lines(two_parts(tasks, stored))


def outcome(tasks, stored, lent=None):
    """The releases, or the number and the value of the refusal."""
    try:
        return read(tasks, stored, lent)
    except Refused as refused:
        return refused.number, refused.place


class RoundTrip(unittest.TestCase):
    def test_plans(self):
        for name, releases in PLANS.items():
            with self.subTest(plan=name):
                self.assertEqual(read(TASKS, record(plan(name))), releases)

    def test_random_files(self):
        for seed in range(200):
            data = random_file(random.Random(f"round trip {seed}"))
            releases = read_file(data)[1]
            with self.subTest(seed=seed):
                self.assertEqual(read(data[:len(data) - 10 * len(releases)], record(data)), releases)

    def test_lines_are_in_the_order_of_the_releases(self):
        """Task 1 is done before task 2, which was released before it."""
        self.assertEqual(lines(TASKS, A), ["L 3 0", "L 2 2", "L 1 3"])
        self.assertEqual(lines(TASKS, record(plan("F"))), ["L 1 0", "L 1 5"])

    def test_an_empty_record_is_that_of_no_release(self):
        self.assertEqual(lines(TASKS, b""), [])

    def test_at_the_limit_of_time(self):
        self.assertEqual(read(TASKS, record(TASKS + release_entry(LIMIT, 1))), [(LIMIT, 1)])

    def test_as_many_releases_as_there_may_be(self):
        most = [(time, 1) for time in range(4096)]
        self.assertEqual(read(TASKS, record(TASKS + b"".join(release_entry(*each) for each in most))), most)


class Head(unittest.TestCase):
    """The task entries are checked first, as at opening, with places in them."""

    def refused(self, tasks, number, place):
        for stored in (A, b"\x07", SKIP):
            self.assertEqual(outcome(tasks, stored), (number, place))

    def test_each_refusal(self):
        self.refused(b"", 12, None)
        self.refused(TASKS + bytes([7]), 2, 48)
        self.refused(TASKS + release_entry(0, 1), 2, 48)
        self.refused(TASKS + release_entry(0, 1)[:-1], 2, 48)
        self.refused(TASKS + A[:27], 2, 48)
        self.refused(TASKS[:-1], 1, 32)
        self.refused(TASKS + TASK_1, 4, 48)
        self.refused(TASK_1 + task_entry(2, 1, 2, 1, 1, 1), 6, 16)
        self.refused(TASK_1 + task_entry(2, 2, 0, 1, 0, 1), 7, 16)

    def test_lines_of_a_refusal(self):
        self.assertEqual(lines(b"", A), ["R 12 0"])
        self.assertEqual(lines(TASKS[:-1], A), ["R 1 32"])


class RecordEntries(unittest.TestCase):
    """2 and 1 of the record's entries, with places that count from its start and not from the input's."""

    def test_2_another_kind(self):
        for kind in (0, 1, 2, 15, 19, 255):
            self.assertEqual(outcome(TASKS, bytes([kind])), (2, 0))
            self.assertEqual(outcome(TASKS, A + bytes([kind])), (2, 201))
            self.assertEqual(lines(TASKS, A + bytes([kind])), ["R 2 201"])

    def test_1_cut_short(self):
        for end in set(range(1, len(A))) - set(STARTS):
            self.assertEqual(outcome(TASKS, A[:end]), (1, max(start for start in STARTS if start < end)))

    def test_bytes_behind_are_a_further_entry(self):
        for kind in (JOB_DONE, INTERVAL, SKIPPED):
            self.assertEqual(outcome(TASKS, A + bytes([kind])), (1, 201))
        self.assertEqual(outcome(TASKS, A + bytes(30)), (2, 201))
        self.assertEqual(outcome(TASKS, A + SKIP), (18, None))

    def test_kind_before_length(self):
        self.assertEqual(outcome(TASKS, A + bytes([19])), (2, 201))
        self.assertEqual(outcome(TASKS, A[:24] + bytes([2]) + A[25:30]), (2, 24))

    def test_both_before_18(self):
        self.assertEqual(outcome(TASKS, SKIP + SKIP), (18, None))
        self.assertEqual(outcome(TASKS, SKIP + SKIP + bytes([7])), (2, 20))
        self.assertEqual(outcome(TASKS, SKIP + SKIP + SKIP[:-1]), (1, 20))

    def test_the_first_of_them_decides(self):
        self.assertEqual(outcome(TASKS, SKIP + bytes([7]) + SKIP[:-1]), (2, 10))


class NoListYields(unittest.TestCase):
    def refused(self, stored, tasks=TASKS):
        self.assertEqual(outcome(tasks, stored), (18, None))
        self.assertEqual(lines(tasks, stored), ["R 18 0"])

    def test_an_entry_left_out_doubled_or_out_of_place(self):
        for at in range(len(ENTRIES)):
            self.refused(b"".join(ENTRIES[:at] + ENTRIES[at + 1:]))
            self.refused(b"".join(ENTRIES[:at + 1] + ENTRIES[at:]))
        self.refused(b"".join([*ENTRIES[:6], ENTRIES[7], ENTRIES[6]]))  # of one instant, and the job comes first
        self.refused(b"".join(reversed(ENTRIES)))

    def test_every_byte_counts(self):
        for at in set(range(len(A))) - set(STARTS):
            self.refused(A[:at] + bytes([A[at] ^ 64]) + A[at + 1:])

    def test_another_fate(self):
        stored = record(plan("B"))
        at = 24 + 22  # of the second interval
        self.assertEqual(stored[at], 3)
        for fate in (0, 1, 2, 4, 255):
            self.refused(stored[:at] + bytes([fate]) + stored[at + 1:])

    def test_a_record_of_the_rule_by_which_finished_copies_stayed(self):
        with finished_copies_stay():
            stored = record(plan("B"))
            self.assertEqual(read(TASKS, stored), PLANS["B"])
        self.refused(stored)

    def test_the_table_of_another_plan(self):
        self.refused(A, tasks=TASKS[:32])
        self.refused(A, tasks=TASKS[:-4] + (3).to_bytes(4, "little"))

    def test_tasks_beyond_the_table(self):
        for task in (0, 4, 31, 32, 255):
            self.refused(encode(SKIPPED, task, 0))

    def test_one_release_twice(self):
        """A release that is taken, and its own pair as skipped."""
        stored = record(plan("C"))
        self.refused(encode(SKIPPED, 1, 0) + stored)
        self.refused(stored[:24] + encode(SKIPPED, 1, 0) + stored[24:])

    def test_a_release_too_late(self):
        """Right but for the limit."""
        self.assertEqual(read(TASK_1, alone(LIMIT)), [(LIMIT, 1)])
        self.refused(alone(LIMIT + 1), tasks=TASK_1)

    def test_a_4097th_release(self):
        self.refused(b"".join(record_entries([TASK_1], [(time, 1) for time in range(4097)])), tasks=TASK_1)

    def test_a_skipped_release_left_out_is_the_record_of_a_shorter_list(self):
        stored = record(THIRD_RELEASE)
        self.assertEqual(read(TASKS, stored), [(0, 1), (3, 1), (4, 1)])
        self.assertEqual(read(TASKS, stored[:24] + stored[34:]), [(0, 1), (3, 1)])


class WaitingReleases(unittest.TestCase):
    """4/13: a job's entry has its original time, so that the list comes back as it was."""

    F = record(plan("F"))
    AT = 123  # the entry of its second job

    def shown_as_released_at(self, time):
        return self.F[:self.AT + 2] + time.to_bytes(8, "little") + self.F[self.AT + 10:]

    def test_the_original_times_come_back(self):
        for releases in (PLANS["F"], [(0, 1), (5, 1), (6, 1)], [(0, 1), (3, 1), (4, 1), (6, 1)], [(0, 3), (2, 1), (3, 1)]):
            with self.subTest(releases=releases):
                self.assertEqual(read(TASKS, record(plan_file(*releases))), releases)

    def test_another_time_of_the_wait_is_the_record_of_another_list(self):
        """The run is the same wherever in the first job's time the second release comes, and at its completion."""
        for time in range(1, 7):
            self.assertEqual(read(TASKS, self.shown_as_released_at(time)), [(0, 1), (time, 1)])
        self.assertEqual(self.shown_as_released_at(6), record(plan("F'")))

    def test_a_time_before_or_behind_the_wait_is_that_of_none(self):
        for time in (0, 7, 8):
            self.assertEqual(outcome(TASKS, self.shown_as_released_at(time)), (18, None))

    def test_a_record_of_the_rule_by_which_nothing_waited(self):
        """The release at 5 was skipped; it would wait now, and leave another run."""
        stored = b"".join(record_entries([TASKS], PLANS["F"], NothingWaits))
        self.assertEqual(stored[48:58], encode(SKIPPED, 1, 5))
        self.assertEqual(outcome(TASKS, stored), (18, None))
        self.assertEqual(read(TASKS, stored[:48] + stored[58:]), PLANS["C"])

    def test_where_nothing_came_while_a_job_was_pending_the_rule_before_left_the_same(self):
        for name in ("A", "B", "C", "D", "E", "F'"):
            self.assertEqual(b"".join(record_entries([TASKS], PLANS[name], NothingWaits)), record(plan(name)))

    def test_a_skip_that_finds_none_waiting(self):
        """In place of the release that waits, and on the tick of its taking, where it would wait in its turn."""
        stored = record(THIRD_RELEASE)
        skip = stored[24:34]
        self.assertEqual(outcome(TASKS, stored[:24] + encode(SKIPPED, 1, 2) + stored[24:]), (18, None))
        self.assertEqual(outcome(TASKS, stored[:24] + encode(SKIPPED, 1, 3) + skip + stored[34:]), (18, None))
        behind = 34 + 24 + 27  # the job that completes at 6
        self.assertEqual(outcome(TASKS, stored[:behind] + encode(SKIPPED, 1, 6) + stored[behind:]), (18, None))

    def test_a_waiting_release_told_twice(self):
        at = self.AT + 27
        self.assertEqual(outcome(TASKS, self.F[:at] + encode(SKIPPED, 1, 5) + self.F[at:]), (18, None))
        self.assertEqual(outcome(TASKS, self.F[:48] + encode(SKIPPED, 1, 5) + self.F[48:]), (18, None))


class LentSlice(unittest.TestCase):
    def test_13_with_the_length_needed(self):
        self.assertEqual(outcome(TASKS, A, 29), (13, 30))
        self.assertEqual(outcome(TASKS, A, 0), (13, 30))
        self.assertEqual(outcome(TASKS, A, 30), PLANS["A"])
        self.assertEqual(outcome(TASKS, b"", 0), [])

    def test_13_comes_last(self):
        self.assertEqual(outcome(b"", A, 0), (12, None))
        self.assertEqual(outcome(TASKS, A + b"\x07", 0), (2, 201))
        self.assertEqual(outcome(TASKS, A[:24], 0), (18, None))


class Input(unittest.TestCase):
    def test_length_or_task_entries_cut_short(self):
        data = two_parts(TASKS, A)
        for length in (0, 1, 3, 4, 4 + 47):
            self.assertEqual(read_lines(data[:length]), ["X"])
        self.assertEqual(read_lines(data[:4 + 48]), [])
        self.assertEqual(read_lines(b"\xff\xff\xff\xff" + data[4:]), ["X"])



class Equals(unittest.TestCase):
    """6/13: a record over tasks of one priority is read back; one that another order among equals would have made is not."""

    def test_what_is_read_back(self):
        for data, _ in ROWS.values():
            tasks, releases = data[:48], read_file(data)[1]
            self.assertEqual(read(tasks, record(data)), releases)

    def test_what_another_order_would_have_made(self):
        for kind in ALL:
            for data, _ in ROWS.values():
                tasks, releases = data[:48], read_file(data)[1]
                stored = b"".join(record_entries([tasks], releases, kind))
                self.assertEqual(outcome(tasks, stored), releases if stored == record(data) else (18, None))

    def test_a_table_in_which_they_are_not_equal(self):
        """The record of plan A is one of its own tasks, and not of three tasks of one priority, whose mark cancels nothing."""
        equal = task_entry(1, 2, 1, 2, 3, 1) + task_entry(2, 2, 0, 2, 4, 1) + task_entry(3, 2, 0, 2, 5, 2)
        self.assertEqual(outcome(equal, A), (18, None))


if __name__ == "__main__":
    unittest.main()
