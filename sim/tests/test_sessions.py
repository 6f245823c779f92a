"""The session program's lines."""

import unittest

from sim.entries import task_entry
from sim.sessions import INSTANT, MARK, call_entry, session_bytes, session_lines
from sim.tests.plans import TASKS, plan, task_set

PLAN_A_BY_INSTANTS = [
    "O",
    "A 0 2",
    "I 0 2 0 - 0 - 3 1 -", "A 0 4",
    "A 0 7",
    "I 2 7 1 3 1 - 2 2 1", "A 0 9",
    "J 3 0 2 9 0", "A 0 11",
    "A 0 12",
    "I 7 12 0 1 2 3 2 1 -", "A 0 13",
    "J 1 3 9 13 1", "A 0 16",
    "I 12 16 1 2 1 1 - 0 -", "A 0 17",
    "J 2 2 12 17 1", "I 16 17 0 - 0 2 - 0 -", "A 0 -",
]


def lines(*calls, opening=TASKS):
    return session_lines(session_bytes(opening, calls))


def instant(time, *numbers):
    return INSTANT, time, task_set(*numbers)


class ServedCalls(unittest.TestCase):
    def test_plan_a_by_instants(self):
        calls = [instant(0, 3), instant(2, 2), instant(3, 1)] + [instant(time) for time in (7, 9, 11, 12, 13, 16, 17)]
        self.assertEqual(lines(*calls), PLAN_A_BY_INSTANTS)

    def test_plan_b_up_to_the_promotion(self):
        # At 4 the copy-in of 2 ends and is thrown out: what is due next is the end of the execution of 3.
        self.assertEqual(lines(instant(0, 3), instant(2, 2), instant(4, 1), instant(7)),
                         ["O", "A 0 2", "I 0 2 0 - 0 - 3 1 -", "A 0 4", "A 0 7", "I 2 7 1 3 1 - 2 3 1", "A 0 9"])

    def test_instants_between_change_nothing_else(self):
        self.assertEqual(lines(instant(0, 1), instant(1), instant(2)),
                         ["O", "A 0 2", "A 0 2", "I 0 2 0 - 0 - 1 1 -", "A 0 5"])

    def test_skipped_set_and_closing_at_f(self):
        opening = task_entry(1, 1, 1, 2, 3, 1) + task_entry(2, 2, 0, 3, 4, 1)
        self.assertEqual(lines(instant(0, 2), instant(1, 2), instant(2, 1, 2), opening=opening),
                         ["O", "A 0 3", "A 0 3", "I 0 2 0 - 0 - 2 2 1", "A 4 4"])

    def test_skipped_set_of_bit_31_is_unsigned(self):
        opening = task_entry(31, 1, 0, 5, 5, 5)
        self.assertEqual(lines(instant(0, 31), instant(1, 31), instant(2, 31), opening=opening),
                         ["O", "A 0 5", "A 0 5", "A 2147483648 5"])

    def test_plan_f_and_a_release_at_its_taking(self):
        """A release that waits is not told; its job's entry has the time at which it was handed in."""
        calls = [instant(0, 1), instant(2), instant(5, 1), instant(6, 1), instant(8), instant(11), instant(12)]
        self.assertEqual(lines(*calls), ["O", "A 0 2", "I 0 2 0 - 0 - 1 1 -", "A 0 5", "I 2 5 1 1 1 - - 0 -", "A 0 6", "J 1 0 2 6 0", "A 0 8",
                                         "I 5 8 0 - 0 1 1 1 -", "A 0 11", "I 8 11 1 1 1 - - 0 -", "A 0 12", "J 1 5 8 12 0", "A 0 14"])

    def test_only_what_is_skipped_now_is_told(self):
        calls = [instant(0, 1, 2), instant(1, 1), instant(2, 1, 2), instant(3, 1, 2)]
        self.assertEqual([line for line in lines(*calls) if line[0] == "A"], ["A 0 2", "A 0 2", "A 2 4", "A 6 4"])

    def test_mark(self):
        self.assertEqual(lines((MARK, 2, 1), instant(0, 3), instant(1, 2)),
                         ["O", "M", "A 0 2", "I 0 1 0 - 0 - 3 2 2", "A 0 3"])

    def test_no_calls(self):
        self.assertEqual(lines(), ["O"])


class RefusedCalls(unittest.TestCase):
    def test_numbers_alone_and_on_with_the_next_call(self):
        calls = [instant(0, 9), instant(10**9 + 1, 1), instant(0, 1), instant(0), instant(3), (MARK, 9, 0),
                 (MARK, 1, 2), (MARK, 1, 1), (MARK, 2, 0), instant(2)]
        self.assertEqual(lines(*calls), ["O", "R 16", "R 10", "A 0 2", "R 14", "R 15", "R 16", "R 6", "R 17", "M",
                                         "I 0 2 0 - 0 - 1 1 -", "A 0 5"])

    def test_a_mark_while_a_release_waits(self):
        """17 from the first release to the completion of the job that waited; what waits is taken at 6."""
        calls = [instant(0, 1), instant(2), instant(5, 1), (MARK, 1, 0), instant(6), (MARK, 1, 0), instant(8), instant(11), (MARK, 1, 0),
                 instant(12), (MARK, 1, 0)]
        self.assertEqual([line for line in lines(*calls) if line[0] in "RM"], ["R 17", "R 17", "R 17", "M"])


class RefusedOpenings(unittest.TestCase):
    def test_nothing_after_the_refusal(self):
        self.assertEqual(lines(instant(0, 1), opening=plan("C")), ["R 2 48"])
        self.assertEqual(lines(instant(0, 1), opening=b""), ["R 12 0"])
        self.assertEqual(lines(instant(0, 1), opening=TASKS[:-1]), ["R 1 32"])
        self.assertEqual(lines(opening=bytes([7])), ["R 2 0"])


class BadEntries(unittest.TestCase):
    START = session_bytes(TASKS, [instant(0, 1)])

    def test_another_kind(self):
        for kind in (0, 1, 2, 63, 69, 255):
            self.assertEqual(session_lines(self.START + bytes([kind]) + call_entry(*instant(2))), ["O", "A 0 2", "X"])

    def test_cut_short(self):
        whole = call_entry(*instant(2))
        for length in range(1, len(whole)):
            self.assertEqual(session_lines(self.START + whole[:length]), ["O", "A 0 2", "X"])
        self.assertEqual(session_lines(self.START + bytes([MARK, 2])), ["O", "A 0 2", "X"])

    def test_length_or_opening_cut_short(self):
        for length in (0, 1, 3, 4, 4 + 47):
            self.assertEqual(session_lines(self.START[:length]), ["X"])
        self.assertEqual(session_lines(self.START[:4 + 48]), ["O"])
        self.assertEqual(session_lines(b"\xff\xff\xff\xff" + self.START[4:]), ["X"])


class CallBytes(unittest.TestCase):
    def test_bytes_of_the_calls(self):
        self.assertEqual(call_entry(INSTANT, 258, 3).hex(), "40" "0201000000000000" "03000000")
        self.assertEqual(call_entry(MARK, 2, 1).hex(), "41" "02" "01")
        self.assertEqual(session_bytes(TASKS, [])[:4].hex(), "30000000")


if __name__ == "__main__":
    unittest.main()
