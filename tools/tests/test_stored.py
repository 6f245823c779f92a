"""Stored records: read back as a plan, shown as lines, and where one is wrong that no releases make."""

import os
import pathlib
import tempfile
import unittest

from sim.entries import INTERVAL, JOB_DONE, RELEASE, SKIPPED, encode
from sim.files import read_file, record
from sim.lines import record_lines, text
from tools.damage import where
from tools.tests.captured import gateway
from tools.tests.house import House

TASKS = ["task 1 1 1 2 3 1", "task 2 2 0 2 4 1", "task 3 3 0 2 5 2"]
RELEASES = ["release 0 3", "release 2 2", "release 3 1", "release 9 2"]


def input_of(lines):
    with tempfile.TemporaryDirectory() as folder:
        path = pathlib.Path(folder, "plan")
        path.write_text("".join(f"{line}\n" for line in lines), encoding="utf-8")
        return gateway("input", str(path))[1]


RECORD = record(input_of(TASKS + RELEASES))
TABLE, _ = read_file(input_of(TASKS))


class Outcome:
    """What becomes of a plan and a record, with the simulator as the reader: a status, what is printed, and what is said, by the files' names."""

    def __init__(self, plan, stored_bytes, **how):
        with tempfile.TemporaryDirectory() as folder:
            paths = [os.path.join(folder, name) for name in ("plan", "record")]
            for path, data in zip(paths, ("".join(f"{line}\n" for line in plan).encode(), stored_bytes)):
                pathlib.Path(path).write_bytes(data)
            self.status, self.printed, said = gateway("read", *paths, **how)
            self.lines = self.printed.decode().splitlines()
            self.said = said.replace(f"{folder}{os.sep}", "")


class Plans(unittest.TestCase):
    def test_tasks_of_the_plan_and_releases_of_the_record(self):
        outcome = Outcome(TASKS, RECORD)
        self.assertEqual((outcome.status, outcome.lines, outcome.said), (0, TASKS + RELEASES, ""))

    def test_what_is_printed_makes_the_same_record(self):
        self.assertEqual(record(input_of(Outcome(TASKS, RECORD).lines)), RECORD)

    def test_a_record_with_a_copy_thrown_out(self):
        releases = [RELEASES[0], RELEASES[1], "release 4 1"]
        self.assertEqual(Outcome(TASKS, record(input_of(TASKS + releases))).lines, TASKS + releases)

    def test_comments_are_left_out_and_the_tasks_stay_in_order(self):
        outcome = Outcome(["# a table", TASKS[2] + "  # the slow one", "", TASKS[0], TASKS[1]], RECORD)
        self.assertEqual(outcome.lines, [TASKS[2], TASKS[0], TASKS[1]] + RELEASES)

    def test_an_empty_record_has_no_release(self):
        self.assertEqual(Outcome(TASKS, b"").lines, TASKS)

    def test_spacings_of_the_plan_come_back_too(self):
        """They count in the reading: beside another spacing the record is one that no releases make."""
        plan = [*TASKS, "spacing 1 6", "release 0 1", "release 5 1", "release 6 1"]
        stored = record(input_of(plan))
        self.assertEqual(Outcome(plan[:-3], stored).lines, plan)
        outcome = Outcome([*TASKS, "spacing 1 5"], stored)
        self.assertEqual((outcome.status, outcome.printed), (1, b""))
        self.assertEqual(outcome.said.splitlines(), [
            "record: no list of releases of these tasks makes this record (refusal 18)",
            "record: byte 48: the record has 'S 1 5'; the releases that it tells, run again, give 'J 1 0 2 6 0'"])

    def test_releases_of_the_plan_are_passed_over_with_a_note(self):
        outcome = Outcome([*TASKS, "# others", "release 7 1", "release 8 2"], RECORD)
        self.assertEqual((outcome.status, outcome.lines), (0, TASKS + RELEASES))
        self.assertEqual(outcome.said, "plan: its releases, 2 from line 5 on, are passed over: those of the record count\n")

    def test_releases_before_a_task_and_too_many_do_not_matter(self):
        self.assertEqual(Outcome([TASKS[0], *["release 7 1"] * 5000, *TASKS[1:]], RECORD).lines, TASKS + RELEASES)


class Refusals(unittest.TestCase):
    def refused(self, plan, stored_bytes=RECORD):
        outcome = Outcome(plan, stored_bytes)
        self.assertEqual((outcome.status, outcome.printed), (1, b""))
        return outcome.said.rstrip("\n")

    def test_of_the_plan_by_its_line(self):
        head = ["# a table", "", TASKS[0]]
        for line, expected in (
                ("task 32 2 0 1 1 1", "plan: line 4: task number 32 is over 31 (refusal 4)"),
                ("task 2 2 2 1 1 1", "plan: line 4: mark is 2, over 1 (refusal 6)"),
                ("task 2 2 0 0 1 1", "plan: line 4: L is 0, outside 1 to 1000000 (refusal 7)"),
                ("tusk", "plan: line 4: 'tusk' is none of 'task', 'spacing' and 'release'"),
                ("spacing 1 0", "plan: line 4: the spacing of task 1 is 0, outside 1 to 1000000000 (refusal 19)"),
                ("spacing 2 5", "plan: line 4: a spacing of task 2, which is not in the table (refusal 8)")):
            self.assertEqual(self.refused([*head, line]), expected)

    def test_lines_are_counted_with_the_releases_between(self):
        said = self.refused([TASKS[0], "release 7 1", "task 2 2 2 1 1 1"])
        self.assertTrue(said.endswith("plan: line 3: mark is 2, over 1 (refusal 6)"), said)

    def test_no_task(self):
        self.assertEqual(self.refused(["# nothing"]), "plan: the plan has no task (refusal 12)")
        self.assertTrue(self.refused(["release 0 1"]).endswith("plan: the plan has no task (refusal 12)"))

    def test_of_the_record_by_its_byte(self):
        self.assertEqual(self.refused(TASKS, RECORD + b"\x10"), f"record: byte {len(RECORD)}: an entry that is cut short (refusal 1)")
        self.assertEqual(self.refused(TASKS, RECORD + b"\x02"),
                         f"record: byte {len(RECORD)}: an entry of another kind than a job's, an interval's or a skipped release's (refusal 2)")
        self.assertEqual(self.refused(TASKS, RECORD[:30]), "record: byte 24: an entry that is cut short (refusal 1)")

    def test_no_list_makes_it(self):
        """With the place, and what the rules give there."""
        for plan, stored_bytes, place in (
                (TASKS, RECORD[24:], "byte 0: the record has 'I 2 7 1 3 1 - 2 2 1'; the releases that it tells, run again, give 'I 0 2 0 - 0 - 3 1 -'"),
                (TASKS[:2], RECORD, "byte 48: 'J 3 0 2 9 0' tells a release of task 3, which the plan does not have")):
            self.assertEqual(self.refused(plan, stored_bytes), f"record: no list of releases of these tasks makes this record (refusal 18)\nrecord: {place}")

    def test_what_the_reader_does_not_print(self):
        for printed in ("X\n", "L 1\n"):
            outcome = Outcome(TASKS, RECORD, programs=lambda name, pieces, printed=printed: iter([printed.encode()]))
            self.assertEqual((outcome.status, outcome.said), (2, f"gateway: the reader printed '{printed.strip()}'\n"))


class Where(unittest.TestCase):
    """What is said of a record that no list makes."""

    def test_another_entry(self):
        """Each byte that is changed, where the entries stay whole and no other list makes the record, is found in its entry or before it."""
        seen = 0
        for at in range(len(RECORD)):
            changed = RECORD[:at] + bytes([RECORD[at] ^ 1]) + RECORD[at + 1:]
            said = Outcome(TASKS, changed).said
            if "(refusal 18)" in said:
                place = int(said.split("record: byte ")[1].split(":")[0])
                self.assertLessEqual(place, at)
                seen += 1
        self.assertGreater(seen, 150)

    def test_an_end_too_early_or_too_late(self):
        last = record_lines(RECORD)[-1]
        self.assertEqual(where(TABLE, RECORD[:-24]), f"byte {len(RECORD) - 24}: the record ends; the releases that it tells, run again, go on with '{last}'")
        more = RECORD + encode(INTERVAL, 90, 91, 0, 255, 0, 255, 255, 0, 255)
        self.assertEqual(where(TABLE, more), f"byte {len(RECORD)}: the record goes on with 'I 90 91 0 - 0 - - 0 -'; the releases that it tells, run again, end here")

    def test_releases_that_no_list_can_hold(self):
        for entry, words in ((encode(SKIPPED, 1, 1_000_000_001), "tells a release at 1000000001, over 1000000000"),
                             (encode(SKIPPED, 9, 4), "tells a release of task 9, which the plan does not have"),
                             (encode(JOB_DONE, 3, 0, 2, 9, 0), "tells a release of task 3 at 0 a second time: the entry at byte 48 tells it too")):
            said = where(TABLE, RECORD + entry)
            self.assertTrue(said.startswith(f"byte {len(RECORD)}: '") and said.endswith(words), said)
        many = b"".join(encode(SKIPPED, 1, time) for time in range(4097))
        self.assertEqual(where(TABLE, many), "byte 40960: 'S 1 4096' tells a release of task 1 at 4096, the 4097th")


class Show(unittest.TestCase):
    def shown(self, data, *words):
        with tempfile.TemporaryDirectory() as folder:
            path = pathlib.Path(folder, "record")
            path.write_bytes(data)
            status, printed, said = gateway("show", str(path), *words)
            return status, printed.decode(), said.replace(f"{folder}{os.sep}", "")

    def test_its_lines(self):
        self.assertEqual(self.shown(RECORD), (0, text(record_lines(RECORD)), ""))
        self.assertEqual(self.shown(b""), (0, "", ""))
        self.assertEqual(self.shown(RECORD, "--bytes")[1].splitlines()[2], "      48  J 3 0 2 9 0")
        self.assertIn('"byte": 48, "event": "job done"', self.shown(RECORD, "--json")[1])

    def test_a_damaged_one_as_far_as_it_goes(self):
        self.assertEqual(self.shown(RECORD + encode(RELEASE, 1, 2)),
                         (1, text(record_lines(RECORD)),
                          f"record: byte {len(RECORD)}: an entry of another kind than a job's, an interval's or a skipped release's (refusal 2)\n"))
        self.assertEqual(self.shown(RECORD[:30]), (1, "I 0 2 0 - 0 - 3 1 -\n", "record: byte 24: an entry that is cut short (refusal 1)\n"))


class Command(unittest.TestCase):
    """./gateway read as a program; what it shares with the others is tried there."""

    @classmethod
    def setUpClass(cls):
        folder = tempfile.TemporaryDirectory()
        cls.addClassCleanup(folder.cleanup)
        cls.house = House(folder.name)
        cls.house.run("build")
        cls.plan = cls.house.plan("".join(f"{line}\n" for line in TASKS))
        cls.record = cls.house.folder.parent / "record"
        cls.record.write_bytes(RECORD)

    def read(self, *arguments, **how):
        return self.house.run("read", *arguments, **how)

    def test_a_plan(self):
        self.assertEqual(self.read(self.plan, "record"), (0, "".join(f"{line}\n" for line in TASKS + RELEASES), ""))

    def test_standard_input(self):
        status, printed, said = self.read("-", "record", text="".join(f"{line}\n" for line in TASKS))
        self.assertEqual((status, printed.splitlines(), said), (0, TASKS + RELEASES, ""))
        with open(self.record, "rb") as file:
            self.assertEqual(self.read(self.plan, "-", stdin=file)[:2], (0, printed))

    def test_trouble_with_files(self):
        self.assertEqual(self.read(self.plan, "/no/record"), (2, "", "/no/record: No such file or directory\n"))
        self.assertEqual(self.read("/no/plan", "record"), (2, "", "/no/plan: No such file or directory\n"))
        self.assertEqual(self.read("/", "record"), (2, "", "/: Is a directory\n"))
        with open("/dev/full", "wb") as full:
            self.assertEqual(self.read(self.plan, "record", stdout=full), (2, "", "standard output: No space left on device\n"))

    def test_a_record_without_end(self):
        with open("/dev/zero", "rb") as zeros:
            status, printed, said = self.read(self.plan, "-", stdin=zeros)
        self.assertEqual((status, printed), (1, ""))
        self.assertIn("standard input: byte 0: an entry of another kind", said)


if __name__ == "__main__":
    unittest.main()
