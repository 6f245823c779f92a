"""Plans A to G with F': every number that document 01 states, of plan B what 2/13 and of F what 4/13 states, and the whole run worked out by hand."""

import unittest

from sim.entries import decode, encode, entries
from sim.files import record
from sim.lines import file_lines, record_lines, text
from sim.tests.plans import THIRD_RELEASE, plan

PLAN_A = """\
I 0 2 0 - 0 - 3 1 -
I 2 7 1 3 1 - 2 2 1
J 3 0 2 9 0
I 7 12 0 1 2 3 2 1 -
J 1 3 9 13 1
I 12 16 1 2 1 1 - 0 -
J 2 2 12 17 1
I 16 17 0 - 0 2 - 0 -
"""

PLAN_B = """\
I 0 2 0 - 0 - 3 1 -
I 2 7 1 3 1 - 2 3 1
J 3 0 2 9 0
I 7 12 0 1 2 3 2 1 -
J 1 4 9 13 1
I 12 16 1 2 1 1 - 0 -
J 2 2 12 17 1
I 16 17 0 - 0 2 - 0 -
"""

PLAN_C = """\
I 0 2 0 - 0 - 1 1 -
I 2 5 1 1 1 - - 0 -
J 1 0 2 6 0
I 5 6 0 - 0 1 - 0 -
"""

PLAN_D = """\
I 0 1 0 - 0 - 2 2 1
I 1 6 1 1 2 - 2 1 -
J 1 1 3 7 0
I 6 10 0 2 1 1 - 0 -
J 2 0 6 11 0
I 10 11 1 - 0 2 - 0 -
"""

PLAN_E = """\
I 0 2 0 - 0 - 2 1 -
I 2 6 1 2 1 - 1 1 -
J 2 0 2 7 0
I 6 9 0 1 1 2 - 0 -
J 1 2 6 10 1
I 9 10 1 - 0 1 - 0 -
"""

PLAN_F = """\
I 0 2 0 - 0 - 1 1 -
I 2 5 1 1 1 - - 0 -
J 1 0 2 6 0
I 5 8 0 - 0 1 1 1 -
I 8 11 1 1 1 - - 0 -
J 1 5 8 12 0
I 11 12 0 - 0 1 - 0 -
"""

PLAN_F_PRIME = """\
I 0 2 0 - 0 - 1 1 -
I 2 5 1 1 1 - - 0 -
J 1 0 2 6 0
I 5 8 0 - 0 1 1 1 -
I 8 11 1 1 1 - - 0 -
J 1 6 8 12 0
I 11 12 0 - 0 1 - 0 -
"""


def lines_of(letter, name):
    return [line for line in file_lines(plan(name)) if line.startswith(letter)]


class WholeRuns(unittest.TestCase):
    def check(self, name, expected):
        self.assertEqual(text(file_lines(plan(name))), expected)

    def test_plan_a(self):
        self.check("A", PLAN_A)

    def test_plan_b(self):
        self.check("B", PLAN_B)

    def test_plan_c(self):
        self.check("C", PLAN_C)

    def test_plan_d(self):
        self.check("D", PLAN_D)

    def test_plan_e(self):
        self.check("E", PLAN_E)

    def test_plan_f(self):
        self.check("F", PLAN_F)

    def test_plan_f_prime(self):
        self.check("F'", PLAN_F_PRIME)

    def test_plan_g(self):
        self.check("G", "")
        self.assertEqual(record(plan("G")), b"")


class StatedNumbers(unittest.TestCase):
    """The numbers of the document's sentences, apart from the whole runs above."""

    def test_plan_a_prints_eight_lines_and_its_record_has_201_bytes(self):
        self.assertEqual(len(file_lines(plan("A"))), 8)
        self.assertEqual(len(record(plan("A"))), 201)

    def test_plan_b_prints_as_a_does_but_for_the_copy_of_2_and_the_release_of_1(self):
        lines_a, lines_b = (file_lines(plan(name)) for name in "AB")
        self.assertTrue(lines_b[1].endswith(" 2 3 1"))
        lines_a[1] = lines_a[1].removesuffix(" 2 2 1") + " 2 3 1"
        lines_a[4] = lines_a[4].replace("J 1 3 ", "J 1 4 ")
        self.assertEqual(lines_b, lines_a)

    def test_plan_c_intervals_and_completion(self):
        spans = [tuple(line.split()[1:3]) for line in lines_of("I", "C")]
        self.assertEqual(spans, [("0", "2"), ("2", "5"), ("5", "6")])
        self.assertEqual([line.split()[4] for line in lines_of("J", "C")], ["6"])

    def test_plan_d_first_interval_is_cancelled_at_1(self):
        first = lines_of("I", "D")[0].split()
        self.assertEqual((first[1], first[2], first[8]), ("0", "1", "2"))
        self.assertEqual(lines_of("J", "D"), ["J 1 1 3 7 0", "J 2 0 6 11 0"])

    def test_plan_e_interval_ends_before_the_release(self):
        self.assertEqual(lines_of("I", "E")[0].split()[1:3], ["0", "2"])
        self.assertIn("J 1 2 6 10 1", lines_of("J", "E"))

    def test_plan_f_runs_as_f_prime_does_with_its_second_job_shown_as_released_at_5(self):
        lines = file_lines(plan("F'"))
        lines[5] = lines[5].replace("J 1 6 ", "J 1 5 ")
        self.assertEqual(file_lines(plan("F")), lines)
        self.assertEqual(lines_of("S", "F"), [])

    def test_plan_f_prime_takes_at_6(self):
        self.assertEqual(lines_of("S", "F'"), [])
        self.assertEqual(lines_of("I", "F'")[2].split()[1:3], ["5", "8"])
        self.assertEqual(lines_of("J", "F'")[1].split()[3:5], ["8", "12"])


class RecordBytes(unittest.TestCase):
    def test_first_interval_of_plan_a_byte_for_byte(self):
        self.assertEqual(record(plan("A"))[:24].hex(),
                         "11" "0000000000000000" "0200000000000000" "00" "ff" "00" "ff" "03" "01" "ff")

    def test_first_job_of_plan_a_byte_for_byte(self):
        self.assertEqual(record(plan("A"))[48:75].hex(),
                         "10" "03" "0000000000000000" "0200000000000000" "0900000000000000" "00")

    def test_second_job_of_plan_f_byte_for_byte(self):
        self.assertEqual(record(plan("F"))[123:150].hex(),
                         "10" "01" "0500000000000000" "0800000000000000" "0c00000000000000" "00")

    def test_a_skip_byte_for_byte(self):
        self.assertEqual(record(THIRD_RELEASE)[24:34].hex(), "12" "01" "0400000000000000")

    def test_lengths_of_entries(self):
        lengths = {kind: len(encode(kind, *fields)) for _, kind, fields in entries(record(THIRD_RELEASE), (16, 17, 18))}
        self.assertEqual(lengths, {16: 27, 17: 24, 18: 10})

    def test_round_trip(self):
        written = encode(17, 1, 2**64 - 1, 1, 31, 2, 255, 0, 2, 255)
        self.assertEqual(decode(written), (1, 2**64 - 1, 1, 31, 2, 255, 0, 2, 255))

    def test_255_is_no_task_only_in_task_fields(self):
        self.assertEqual(record_lines(encode(16, 1, 255, 255, 255, 255)), ["J 1 255 255 255 255"])
        self.assertEqual(record_lines(encode(17, 255, 255, 0, 255, 0, 255, 255, 0, 255)),
                         ["I 255 255 0 - 0 - - 0 -"])


if __name__ == "__main__":
    unittest.main()
