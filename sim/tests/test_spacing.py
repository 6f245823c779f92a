"""8/13: the spacing that desks promised. Each run is worked out by hand from the request's sentences, and each wrong reading of a spacing is told from
the rule by some row.

The tasks are document 01's. A job of task 1 alone, released at 0, is copied in from 0 to 2, executed until 5 and copied out until 6.
"""

import random
import unittest

from sim.dispatcher import Dispatcher
from sim.entries import Refused, encode, release_entry, spacing_entry, task_entry
from sim.files import instant_entries, read_file, record, run
from sim.generate import random_file
from sim.lines import file_lines, record_lines
from sim.notes import Skipped, TooSoon
from sim.other_spacings import ALL
from sim.reading import read
from sim.sessions import INSTANT, MARK, session_bytes, session_lines
from sim.waveform import dump
from sim.tests.plans import TASK_1, TASK_2, TASKS, plan, plan_file, task_set

LIMIT = 1_000_000_000


def spaced(*spacings):
    """The tasks with these spacings (task, ticks)."""
    return TASKS + b"".join(spacing_entry(*each) for each in spacings)


def spaced_file(spacings, *pairs):
    return plan_file(*pairs, tasks=spaced(*spacings))


FIRST_JOB = ["I 0 2 0 - 0 - 1 1 -", "I 2 5 1 1 1 - - 0 -", "J 1 0 2 6 0"]

# Each row: its input, and the lines of its run.
ROWS = {
    # As plan F': 6 is 0 and one spacing, which passes.
    "exactly one spacing later": (spaced_file([(1, 6)], (0, 1), (6, 1)), [
        *FIRST_JOB,
        "I 5 8 0 - 0 1 1 1 -",
        "I 8 11 1 1 1 - - 0 -",
        "J 1 6 8 12 0",
        "I 11 12 0 - 0 1 - 0 -",
    ]),
    # The same release under a spacing of 7. Task 1 has no job then, and would be taken; it is skipped at step c, between the job's end and that of the
    # interval, which finds nobody to choose.
    "one tick sooner": (spaced_file([(1, 7)], (0, 1), (6, 1)), [
        *FIRST_JOB,
        "S 1 6",
        "I 5 6 0 - 0 1 - 0 -",
    ]),
    # 5 is too soon after 0. 6 is one tick after 5, but 5 was skipped and does not count: after 0 it is one spacing later.
    "soon after one that was skipped for its spacing": (spaced_file([(1, 6)], (0, 1), (5, 1), (6, 1)), [
        *FIRST_JOB[:2],
        "S 1 5",
        FIRST_JOB[2],
        "I 5 8 0 - 0 1 1 1 -",
        "I 8 11 1 1 1 - - 0 -",
        "J 1 6 8 12 0",
        "I 11 12 0 - 0 1 - 0 -",
    ]),
    # 2 waits. 5 is not too soon after 2, but finds 2 waiting. At 6 that one is taken; 6 is one tick after 5, which was skipped, and four after 2, which
    # counts: it waits in its turn, and is taken at 12.
    "soon after one that was skipped since one waited": (spaced_file([(1, 2)], (0, 1), (2, 1), (5, 1), (6, 1)), [
        *FIRST_JOB[:2],
        "S 1 5",
        FIRST_JOB[2],
        "I 5 8 0 - 0 1 1 1 -",
        "I 8 11 1 1 1 - - 0 -",
        "J 1 2 8 12 0",
        "I 11 14 0 - 0 1 1 1 -",
        "I 14 17 1 1 1 - - 0 -",
        "J 1 6 14 18 0",
        "I 17 18 0 - 0 1 - 0 -",
    ]),
    # As plan F: 5 waits, and is taken at 6. 10 is one spacing after 5, though only four ticks after the taking: it waits for 12.
    "after one that waited its original time counts": (spaced_file([(1, 5)], (0, 1), (5, 1), (10, 1)), [
        *FIRST_JOB,
        "I 5 8 0 - 0 1 1 1 -",
        "I 8 11 1 1 1 - - 0 -",
        "J 1 5 8 12 0",
        "I 11 14 0 - 0 1 1 1 -",
        "I 14 17 1 1 1 - - 0 -",
        "J 1 10 14 18 0",
        "I 17 18 0 - 0 1 - 0 -",
    ]),
    # At 6 the release of 5 is taken, so that another could wait in its turn; but 6 is one tick after 5.
    "at a taking, too soon after the one that is taken": (spaced_file([(1, 5)], (0, 1), (5, 1), (6, 1)), [
        *FIRST_JOB,
        "S 1 6",
        "I 5 8 0 - 0 1 1 1 -",
        "I 8 11 1 1 1 - - 0 -",
        "J 1 5 8 12 0",
        "I 11 12 0 - 0 1 - 0 -",
    ]),
    # The job of 0 is pending and nobody waits, so that 3 could; it came too soon.
    "too soon while a job is pending": (spaced_file([(1, 6)], (0, 1), (3, 1)), [
        FIRST_JOB[0],
        "S 1 3",
        *FIRST_JOB[1:],
        "I 5 6 0 - 0 1 - 0 -",
    ]),
    # Nothing is pending at 10 and nothing goes on; it came too soon all the same.
    "too soon in idle time": (spaced_file([(1, 20)], (0, 1), (10, 1)), [
        *FIRST_JOB,
        "I 5 6 0 - 0 1 - 0 -",
        "S 1 10",
    ]),
    # There was no release before 3 that it could have come too soon after.
    "a first release is never too soon": (spaced_file([(1, LIMIT)], (3, 1)), [
        "I 3 5 0 - 0 - 1 1 -",
        "I 5 8 1 1 1 - - 0 -",
        "J 1 3 5 9 0",
        "I 8 9 0 - 0 1 - 0 -",
    ]),
    # Task 2 has no spacing, whatever task 1 has.
    "a task without one is not tested": (spaced_file([(1, 100)], (0, 2), (7, 2)), [
        "I 0 2 0 - 0 - 2 1 -",
        "I 2 6 1 2 1 - - 0 -",
        "J 2 0 2 7 0",
        "I 6 9 0 - 0 2 2 1 -",
        "I 9 13 1 2 1 - - 0 -",
        "J 2 7 9 14 0",
        "I 13 14 0 - 0 2 - 0 -",
    ]),
    # 2 is copied in from 7 to 9. Marked 1 would cancel that at 8, but is not taken: nothing gives way to what is skipped.
    "a marked one that is too soon cancels nothing": (spaced_file([(1, 10)], (0, 1), (7, 2), (8, 1)), [
        *FIRST_JOB,
        "I 5 6 0 - 0 1 - 0 -",
        "S 1 8",
        "I 7 9 1 - 0 - 2 1 -",
        "I 9 13 0 2 1 - - 0 -",
        "J 2 7 9 14 0",
        "I 13 14 1 - 0 2 - 0 -",
    ]),
    # From the first tick there is to the last that a release may come at is just the longest spacing.
    "the longest spacing": (spaced_file([(1, LIMIT)], (0, 1), (LIMIT - 1, 1), (LIMIT, 1)), [
        *FIRST_JOB,
        "I 5 6 0 - 0 1 - 0 -",
        "S 1 999999999",
        "I 1000000000 1000000002 1 - 0 - 1 1 -",
        "I 1000000002 1000000005 0 1 1 - - 0 -",
        "J 1 1000000000 1000000002 1000000006 0",
        "I 1000000005 1000000006 1 - 0 1 - 0 -",
    ]),
}

# By the name of a wrong reading, the rows that tell it from the rule; each in a way that its name says.
TOLD_BY = {
    "ExactlyOneIsTooSoon": {"exactly one spacing later", "soon after one that was skipped for its spacing",
                            "soon after one that was skipped since one waited", "after one that waited its original time counts",
                            "at a taking, too soon after the one that is taken", "the longest spacing"},
    "OneTickSoonerPasses": {"one tick sooner", "soon after one that was skipped for its spacing", "the longest spacing"},
    "SkippedCounts": {"soon after one that was skipped for its spacing", "soon after one that was skipped since one waited", "the longest spacing"},
    "FromTheTaking": {"soon after one that was skipped since one waited", "after one that waited its original time counts"},
    "OnlyWhilePending": {"one tick sooner", "too soon in idle time", "a marked one that is too soon cancels nothing", "the longest spacing"},
    "OnlyWhereItIsTaken": {"soon after one that was skipped for its spacing", "at a taking, too soon after the one that is taken",
                           "too soon while a job is pending"},
    "SinceTheBeginning": set(ROWS) - {"a task without one is not tested"},
    "NoneTested": {"one tick sooner", "soon after one that was skipped for its spacing", "at a taking, too soon after the one that is taken",
                   "too soon while a job is pending", "too soon in idle time", "a marked one that is too soon cancels nothing",
                   "the longest spacing"},
}


def lines_by(kind, data):
    """The lines of an input's run by another kind of dispatcher."""
    return record_lines(b"".join(entry for time, answer in run(*read_file(data), kind) for entry in instant_entries(time, answer)))


def refusal(call, *arguments):
    """(number, place) of a refusal, or None for a served call."""
    try:
        call(*arguments)
    except Refused as refused:
        return refused.number, refused.place
    return None


class Rows(unittest.TestCase):
    def test_rows(self):
        for name, (data, lines) in ROWS.items():
            with self.subTest(row=name):
                self.assertEqual(file_lines(data), lines)

    def test_what_another_reading_would_do(self):
        for kind in ALL:
            with self.subTest(kind=kind.__name__):
                told = {name for name, (data, lines) in ROWS.items() if lines_by(kind, data) != lines}
                self.assertEqual(told, TOLD_BY[kind.__name__])

    def test_records_are_read_back(self):
        for name, (data, _) in ROWS.items():
            table_end = len(data) - 10 * len(read_file(data)[1])
            with self.subTest(row=name):
                self.assertEqual(read(data[:table_end], record(data)), read_file(data)[1])

    def test_records_of_another_reading_are_not(self):
        for kind in ALL:
            for name in TOLD_BY[kind.__name__]:
                data = ROWS[name][0]
                table, releases = read_file(data)
                stored = b"".join(entry for time, answer in run(table, releases, kind) for entry in instant_entries(time, answer))
                with self.subTest(kind=kind.__name__, row=name):
                    self.assertEqual(refusal(read, data[:-10 * len(releases)], stored), (18, None))

    def test_a_record_without_spacings_is_read_as_before(self):
        """With one in the table that all its releases keep too; and with another it is held to that."""
        stored = record(plan("F"))
        for table in (TASKS, spaced((1, 5)), spaced((2, LIMIT))):
            self.assertEqual(read(table, stored), [(0, 1), (5, 1)])
        self.assertEqual(refusal(read, spaced((1, 6)), stored), (18, None))

    def test_a_record_is_one_of_its_own_spacing(self):
        """Over another spacing, or none, the same releases leave another record; and over one that all of them keep the same."""
        stored = record(spaced_file([(1, 7)], (0, 1), (6, 1)))
        for ticks in (7, 8, LIMIT):
            self.assertEqual(read(spaced((1, ticks)), stored), [(0, 1), (6, 1)])
        self.assertEqual(refusal(read, spaced((1, 6)), stored), (18, None))
        self.assertEqual(refusal(read, TASKS, stored), (18, None))


class EverySpacing(unittest.TestCase):
    def test_1_is_kept_by_every_release(self):
        pairs = [(time, number) for time in range(30) for number in (1, 2, 3)]
        self.assertEqual(file_lines(spaced_file([(1, 1), (2, 1), (3, 1)], *pairs)), file_lines(plan_file(*pairs)))

    def test_each_task_has_its_own(self):
        lines = file_lines(spaced_file([(3, 30), (1, 10), (2, 20)], *((time, number) for time in (0, 10, 20, 30) for number in (1, 2, 3))))
        self.assertEqual([line for line in lines if line[0] == "S"], ["S 2 10", "S 3 10", "S 3 20", "S 2 30"])

    def test_all_32_tasks(self):
        tasks = b"".join(task_entry(number, 7, 0, 1, 1, 1) for number in range(32))
        spacings = b"".join(spacing_entry(number, 400 + number) for number in range(32))
        releases = [(time, number) for time in (0, 415, 431) for number in range(32)]
        lines = file_lines(plan_file(*releases, tasks=tasks + spacings))
        self.assertEqual([line for line in lines if line[0] == "S"], [f"S {number} 415" for number in range(16, 32)]
                         + [f"S {number} 431" for number in range(16)])


class SkippedAlone(unittest.TestCase):
    """What is skipped changes nothing else: its run is that of the other releases, and these keep every spacing, so that none is needed."""

    def without(self, data):
        """An input without its spacings and without the releases that its run skips."""
        table, releases = read_file(data)
        skipped = {tuple(map(int, line.split()[:0:-1])) for line in file_lines(data) if line[0] == "S"}
        tasks = [task_entry(task.number, task.priority, task.mark, task.copy_in, task.execution, task.copy_out) for task in table.values()]
        return b"".join(tasks + [release_entry(*release) for release in releases if release not in skipped]), len(skipped)

    def test_random_files(self):
        left_out = 0
        for seed in range(150):
            data = random_file(random.Random(f"skipped alone {seed}"))
            other, count = self.without(data)
            with self.subTest(seed=seed):
                self.assertEqual([line for line in file_lines(data) if line[0] != "S"], file_lines(other))
            left_out += count
        self.assertGreater(left_out, 1_000)

    def test_waveforms(self):
        for name, (data, _) in ROWS.items():
            with self.subTest(row=name):
                self.assertEqual(dump(data), dump(self.without(data)[0]))


class ByInstants(unittest.TestCase):
    def test_skipped_set_of_an_instant(self):
        calls = [(INSTANT, 0, task_set(1, 2)), (INSTANT, 2, task_set(1, 2, 3))]
        self.assertEqual(session_lines(session_bytes(spaced((1, 3), (2, 2)), calls)),
                         ["O", "A 0 2", "I 0 2 0 - 0 - 1 1 -", "A 2 4"])

    def test_neither_a_refused_call_nor_a_mark_changes_what_was_last(self):
        dispatcher = Dispatcher.open(spaced((1, 10)))
        dispatcher.instant(0, task_set(1))
        for time in (2, 5, 6):
            dispatcher.instant(time, 0)
        self.assertEqual(refusal(dispatcher.instant, 6, task_set(1)), (14, None))
        dispatcher.mark(1, 0)
        self.assertEqual(dispatcher.instant(9, task_set(1)).skipped, task_set(1))
        self.assertEqual(dispatcher.instant(10, task_set(1)).skipped, 0)

    def test_a_dispatcher_that_is_opened_anew_knows_of_no_release_before(self):
        for time in (0, 1, 5):
            self.assertEqual(Dispatcher.open(spaced((1, LIMIT))).instant(time, task_set(1)).skipped, 0)

    def test_what_is_too_soon_is_nobodys_job(self):
        """It has neither a job nor waits, so that its mark can change."""
        calls = [(INSTANT, 0, task_set(1)), *((INSTANT, time, 0) for time in (2, 5, 6)), (INSTANT, 7, task_set(1)), (MARK, 1, 0)]
        self.assertEqual(session_lines(session_bytes(spaced((1, 8)), calls))[-2:], ["A 2 -", "M"])

    def test_why_one_was_skipped_is_noted(self):
        """4 is too soon after 3, which waits too: the spacing is asked first. 6 is one spacing after 3, and finds it waiting."""
        tasks = spaced((3, 3))
        notes = []
        list(run(*read_file(plan_file((0, 3), (3, 3), (4, 3), (6, 3), tasks=tasks)), notes=notes))
        self.assertEqual([note for note in notes if isinstance(note, (Skipped, TooSoon))], [TooSoon(4, 3, 3, 3), Skipped(6, 3, 3)])


class Refusals(unittest.TestCase):
    """Of a file, of an opening and of a table before a record alike, but for what is said of a release."""

    def refused(self, data, number, place):
        for call in (record, Dispatcher.open, lambda head: read(head, b"")):
            self.assertEqual(refusal(call, data), (number, place))
        self.assertEqual(file_lines(data), [f"R {number} {place}"])

    def served(self, data):
        for call in (record, Dispatcher.open, lambda head: read(head, b"")):
            self.assertIsNone(refusal(call, data))

    def test_19_ticks(self):
        for ticks in (0, LIMIT + 1, 2**32 - 1):
            self.refused(spaced((1, ticks)), 19, 48)
            self.refused(spaced((2, 5), (1, ticks)), 19, 54)
        for ticks in (1, LIMIT):
            self.served(spaced((1, ticks)))

    def test_19_a_second_one(self):
        for ticks in (5, 6, 0):
            self.refused(spaced((1, 5), (1, ticks)), 19, 54)
            self.refused(spaced((1, 5), (3, 5), (1, ticks)), 19, 60)
        self.served(spaced((1, 5), (3, 5), (2, 5)))

    def test_8_unknown_task(self):
        for task in (0, 4, 31, 32, 255):
            self.refused(spaced((task, 5)), 8, 48)
        self.refused(spacing_entry(0, 5), 8, 0)

    def test_8_before_19(self):
        for ticks in (0, LIMIT + 1):
            self.refused(spaced((4, ticks)), 8, 48)

    def test_3_a_task_behind_a_spacing(self):
        self.refused(TASK_1 + spacing_entry(1, 5) + TASK_2, 3, 22)

    def test_3_before_what_else_is_wrong_with_the_task(self):
        for task in (TASK_1, task_entry(32, 1, 2, 0, 0, 0), task_entry(5, 5, 2, 0, 0, 0), task_entry(5, 5, 0, 0, 0, 0)):
            self.refused(spaced((1, 5)) + task, 3, 54)

    def test_1_cut_short(self):
        whole = spacing_entry(1, 5)
        for length in range(1, len(whole)):
            self.refused(TASKS + whole[:length], 1, 48)
            self.refused(spaced((1, 5)) + whole[:length], 1, 54)
            self.refused(whole[:length], 1, 0)
        self.refused(spaced((1, 5)) + TASK_2[:-1], 1, 54)

    def test_2_kinds_beside_it(self):
        for kind in (0, 4, 5, 16, 255):
            self.refused(spaced((1, 5)) + bytes([kind]), 2, 54)

    def test_bytes(self):
        self.assertEqual(spacing_entry(2, 258).hex(), "03" "02" "02010000")


class RefusalsOfFiles(unittest.TestCase):
    def refused(self, data, number, place):
        self.assertEqual(refusal(record, data), (number, place))

    def test_3_a_spacing_behind_a_release(self):
        self.refused(plan("C") + spacing_entry(1, 5), 3, 58)
        self.refused(spaced_file([(1, 5)], (0, 1)) + spacing_entry(2, 5), 3, 64)

    def test_3_before_8_and_19(self):
        for task in (1, 4, 255):
            for ticks in (0, 5, LIMIT + 1):
                self.refused(plan("C") + spacing_entry(task, ticks), 3, 58)

    def test_1_before_3(self):
        self.refused(plan("C") + spacing_entry(4, 0)[:-1], 1, 58)

    def test_a_task_behind_a_release_behind_a_spacing(self):
        self.refused(spaced_file([(1, 5)], (0, 1)) + TASK_2, 3, 64)

    def test_a_release_behind_a_spacing(self):
        self.refused(spaced_file([(1, 5)], (0, 4)), 8, 54)
        self.refused(spaced_file([(1, 5)], (LIMIT + 1, 1)), 10, 54)
        self.refused(spaced_file([(1, 5)], (0, 1), (0, 1)), 9, 64)

    def test_13_comes_last(self):
        data, _ = ROWS["one tick sooner"]
        self.assertEqual(refusal(record, data, 0), (13, len(record(data))))
        self.assertEqual(refusal(record, data + spacing_entry(1, 5), 0), (3, 74))


class RefusalsOfOpenings(unittest.TestCase):
    def test_2_a_release_behind_a_spacing(self):
        for call in (Dispatcher.open, lambda head: read(head, b"")):
            for release in (release_entry(0, 1), release_entry(0, 9), release_entry(0, 1)[:-1]):
                self.assertEqual(refusal(call, spaced((1, 5)) + release), (2, 54))

    def test_the_table_comes_before_the_record(self):
        for stored in (bytes([7]), encode(18, 1, 5)):
            self.assertEqual(refusal(read, spaced((1, 0)), stored), (19, 48))

    def test_a_spacing_in_a_record_is_2(self):
        self.assertEqual(refusal(read, TASKS, spacing_entry(1, 5)), (2, 0))

    def test_printed_by_a_session(self):
        self.assertEqual(session_lines(session_bytes(spaced((1, 0)), [])), ["R 19 48"])


if __name__ == "__main__":
    unittest.main()
