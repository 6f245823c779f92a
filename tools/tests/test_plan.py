"""Plan files: each entry's bytes, and every mistake with its line and value."""

import os
import pathlib
import random
import subprocess
import tempfile
import unittest

from sim import generate
from sim.entries import RELEASE, SPACING, TASK, Refused, entries
from sim.files import read_file
from tools.plan import read_plan, sound_plan
from tools.tests.captured import gateway

ROOT = pathlib.Path(__file__).resolve().parents[2]
TASK_1 = "task 1 1 1 2 3 1"


def read(lines):
    """The plan of some lines, through a file."""
    with tempfile.TemporaryDirectory() as folder:
        path = os.path.join(folder, "x.plan")
        pathlib.Path(path).write_bytes("".join(f"{line}\n" for line in lines).encode())
        return read_plan(path)


def mistakes(lines):
    return [str(each) for each in read(lines).mistakes]


def plan_lines(data):
    """The lines of an input's whole entries, with no care for what they say."""
    words = {TASK: "task", SPACING: "spacing", RELEASE: "release"}
    found = []
    for _, kind, fields in entries(data, kinds=words):
        found.append(" ".join([words[kind], *map(str, reversed(fields) if kind == RELEASE else fields)]))
    return found


class Entries(unittest.TestCase):
    def test_a_task_is_its_fields_in_order(self):
        expected = bytes([1, 5, 9, 1, 2, 0, 0, 0, 0, 1, 0, 0, 64, 66, 15, 0])
        self.assertEqual(read(["task 5 9 1 2 256 1000000"]).data, expected)

    def test_a_spacing_is_its_fields_in_order(self):
        self.assertEqual(read(["spacing 3 258"]).data, bytes([3, 3, 2, 1, 0, 0]))

    def test_a_release_has_the_task_before_the_time(self):
        self.assertEqual(read(["release 258 3"]).data, bytes([2, 3, 2, 1, 0, 0, 0, 0, 0, 0]))

    def test_comments_and_blank_lines_do_not_count(self):
        self.assertEqual(read(["# a comment", "", "  release 0 1  # at once", "#" + "-" * 9000]).data, bytes([2, 1] + [0] * 8))

    def test_what_the_gateway_refuses_is_passed_on(self):
        self.assertEqual(read(["task 32 0 2 0 0 0"]).data[:4], bytes([1, 32, 0, 2]))

    def test_what_stands_behind_a_long_comment_counts(self):
        self.assertEqual(len(read([TASK_1 + " # " + "long " * 5000, "release 0 1"]).entries), 2)

    def test_ends_of_lines_of_other_systems_and_the_mark_in_front(self):
        with tempfile.NamedTemporaryFile() as file:
            file.write(b"\xef\xbb\xbftask 1 1 1 2 3 1\r\nrelease 0 1\rrelease 1 1")
            file.flush()
            self.assertEqual(sound_plan(file.name).releases, [(0, 1), (1, 1)])


class NoEntries(unittest.TestCase):
    def test_an_unknown_word(self):
        self.assertEqual(mistakes(["# head", "job 1"]), ["line 2: 'job' is none of 'task', 'spacing' and 'release'"])

    def test_too_few_numbers(self):
        self.assertEqual(mistakes(["task 1 2 3"]), ["line 1: 'task' takes 6 numbers (number priority mark L C U), and here are 3"])

    def test_a_number_that_does_not_fit(self):
        self.assertEqual(mistakes(["release 1 256"]), ["line 1: task is 256, over 255"])

    def test_a_number_that_is_far_too_long(self):
        self.assertEqual(mistakes(["", f"release {'9' * 4000} 1"]), ["line 2: time has 4000 digits, over 20"])

    def test_a_word_for_a_number(self):
        self.assertEqual(mistakes(["release -1 2"]), ["line 1: time is '-1', not a whole number"])

    def test_text_is_escaped_and_cut(self):
        said, = mistakes(["\x1b[31m\u202e" + "x" * 500])
        self.assertTrue(said.isprintable(), said)
        self.assertIn(r"\x1b[31m\u202exxx", said)
        self.assertLess(len(said), 140)
        said, = mistakes([f"release {'y' * 3000} 1"])
        self.assertLess(len(said), 140)


class Mistakes(unittest.TestCase):
    def test_all_in_one_go_with_their_values_and_the_earlier_line(self):
        self.assertEqual(mistakes([TASK_1, "task 1 1 2 0 3 1000001", "task 40 7 0 1 1 1", "tusk", "release 5 1", "release 5 1", "release 4 9",
                                   "release 1000000001 1", "task 3 7 0 1 1 1"]),
                         ["line 2: task number 1 is given before, in line 1 (refusal 4)",
                          "line 2: mark is 2, over 1 (refusal 6)",
                          "line 2: L is 0, outside 1 to 1000000 (refusal 7)",
                          "line 2: U is 1000001, outside 1 to 1000000 (refusal 7)",
                          "line 3: task number 40 is over 31 (refusal 4)",
                          "line 4: 'tusk' is none of 'task', 'spacing' and 'release'",
                          "line 6: the release of task 1 at 5 is not after that of task 1 at 5 in line 5 (refusal 9)",
                          "line 7: a release of task 9, which is not in the table (refusal 8)",
                          "line 7: the release of task 9 at 4 is not after that of task 1 at 5 in line 6 (refusal 9)",
                          "line 8: release time 1000000001 is over 1000000000 (refusal 10)",
                          "line 9: a task after a release: the first release is in line 5 (refusal 3)"])

    def test_of_spacings(self):
        self.assertEqual(mistakes([TASK_1, "task 2 2 0 1 1 1", "spacing 1 5", "spacing 3 0", "spacing 2 1000000001", "spacing 1 5", "task 4 4 0 1 1 1",
                                   "release 0 1", "spacing 2 7", "spacing 9 1"]),
                         ["line 4: a spacing of task 3, which is not in the table (refusal 8)",
                          "line 4: the spacing of task 3 is 0, outside 1 to 1000000000 (refusal 19)",
                          "line 5: the spacing of task 2 is 1000000001, outside 1 to 1000000000 (refusal 19)",
                          "line 6: a second spacing of task 1: the first is in line 3 (refusal 19)",
                          "line 7: a task after a spacing: the first spacing is in line 3 (refusal 3)",
                          "line 9: a spacing after a release: the first release is in line 8 (refusal 3)",
                          "line 9: a second spacing of task 2: the first is in line 5 (refusal 19)",
                          "line 10: a spacing after a release: the first release is in line 8 (refusal 3)",
                          "line 10: a spacing of task 9, which is not in the table (refusal 8)"])

    def test_spacings_at_their_limits(self):
        plan = read([TASK_1, "task 2 2 0 1 1 1", "task 3 3 0 1 1 1", "spacing 2 1000000000", "spacing 1 1", "release 0 1"])
        self.assertEqual(plan.mistakes, [])
        self.assertEqual({number: task.spacing for number, task in plan.table.items()}, {1: 1, 2: 1_000_000_000, 3: None})

    def test_one_priority_may_be_that_of_many_tasks(self):
        self.assertEqual(mistakes([TASK_1, "task 2 1 0 1 1 1", "task 3 1 1 1 1 1", "release 0 1"]), [])

    def test_the_first_is_the_gateways_own_refusal(self):
        """On random damaged inputs, where all entries are whole."""
        rng, refused = random.Random(5), 0
        for _ in range(600):
            data = generate.damaged_file(rng)
            try:
                lines = plan_lines(data)
            except Refused:
                continue
            plan = read(lines)
            try:
                read_file(data)
                self.assertEqual(plan.mistakes, [])
            except Refused as expected:
                first = plan.mistakes[0]
                line = None if expected.place is None else plan.line_at(expected.place)
                self.assertEqual((first.number, first.line), (expected.number, line))
                refused += 1
        self.assertGreater(refused, 200)

    def test_of_hundred_megabytes_no_more_is_read_than_the_release_too_many(self):
        """From a pipe that never ends."""
        words = f"{{ echo {TASK_1}; seq -f 'release %.0f 1' 0 999999999999; }} | '{ROOT}/gateway' input -"
        done = subprocess.run(["bash", "-c", words], capture_output=True, timeout=20, check=False)
        self.assertEqual((done.returncode, len(done.stdout), done.stderr), (0, 16 + 4097 * 10, b""))

    def test_a_file_of_another_kind_is_not_read_to_its_end(self):
        done = subprocess.run(["bash", "-c", f"'{ROOT}/gateway' input - </dev/zero"], capture_output=True, timeout=20, check=False)
        self.assertEqual((done.returncode, done.stdout, done.stderr),
                         (1, b"", b"standard input: line 1: it has more than 4096 letters; nothing behind it is read\n"))
        done = subprocess.run(["bash", "-c", f"yes | '{ROOT}/gateway' input -"], capture_output=True, timeout=20, check=False)
        self.assertEqual(done.returncode, 1)
        self.assertEqual(len(done.stderr.splitlines()), 1001)


class Merge(unittest.TestCase):
    def merged(self, *texts):
        with tempfile.TemporaryDirectory() as folder:
            paths = [os.path.join(folder, f"{at}.plan") for at in range(len(texts))]
            for path, lines in zip(paths, texts):
                pathlib.Path(path).write_text("".join(f"{line}\n" for line in lines), encoding="utf-8")
            status, printed, said = gateway("merge", *paths)
            return status, printed.decode().splitlines(), said.replace(f"{folder}{os.sep}", "").splitlines()

    def test_sorted_by_time_and_task(self):
        self.assertEqual(self.merged(["task 2 2 0 1 1 1", "release 9 2", "release 3 2"], [TASK_1, "release 9 1", "release 0 1", "release 4 2"]),
                         (0, [TASK_1, "task 2 2 0 1 1 1", "release 0 1", "release 3 2", "release 4 2", "release 9 1", "release 9 2"], []))

    def test_a_table_that_each_desk_has(self):
        self.assertEqual(self.merged([TASK_1, "release 1 1"], [TASK_1, "release 0 1"])[:2], (0, [TASK_1, "release 0 1", "release 1 1"]))

    def test_what_does_not_go_together(self):
        self.assertEqual(self.merged([TASK_1, "release 1 1"], ["task 1 1 0 2 3 1", "release 1 1", "task 4 1 0 1 1 1", "release 2 9", "tusk"]),
                         (1, [], ["1.plan: line 5: 'tusk' is none of 'task', 'spacing' and 'release'",
                                  "1.plan line 1: task 1 is another than in 0.plan line 1",
                                  "1.plan line 2: the release of task 1 at 1 is given before, in 0.plan line 2 (refusal 9)",
                                  "1.plan line 4: a release of task 9, which is in no plan (refusal 8)"]))

    def test_spacings_of_several_desks(self):
        """Behind all tasks, by task; one may stand in a plan without its task, or in several."""
        self.assertEqual(self.merged([TASK_1, "spacing 1 6", "release 1 1"], ["task 2 1 1 1 1 1", "spacing 2 9", "spacing 1 6", "release 1 2"],
                                     ["spacing 2 9"])[:2],
                         (0, [TASK_1, "task 2 1 1 1 1 1", "spacing 1 6", "spacing 2 9", "release 1 1", "release 1 2"]))

    def test_spacings_that_do_not_go_together(self):
        self.assertEqual(self.merged([TASK_1, "spacing 1 6"], ["spacing 1 7", "spacing 4 7", "spacing 1 7"]),
                         (1, [], ["1.plan: line 3: a second spacing of task 1: the first is in line 1 (refusal 19)",
                                  "1.plan line 1: the spacing of task 1 is another than in 0.plan line 2 (refusal 19)",
                                  "1.plan line 3: the spacing of task 1 is another than in 0.plan line 2 (refusal 19)",
                                  "1.plan line 2: a spacing of task 4, which is in no plan (refusal 8)"]))

    def test_desks_of_one_priority(self):
        self.assertEqual(self.merged([TASK_1, "release 1 1"], ["task 2 1 1 1 1 1", "release 1 2"])[:2],
                         (0, [TASK_1, "task 2 1 1 1 1 1", "release 1 1", "release 1 2"]))

    def test_too_many_together(self):
        half = [f"release {time} 1" for time in range(3000)]
        status, printed, said = self.merged([TASK_1, *half], [TASK_1, *(f"release {time} 1" for time in range(3000, 6000))])
        self.assertEqual((status, printed, said), (1, [], ["together they have 6000 releases, over 4096 (refusal 11)"]))


if __name__ == "__main__":
    unittest.main()
