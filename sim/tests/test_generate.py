"""The generator: the same seed gives the same bytes, and everything that can occur does occur."""

import collections
import functools
import random
import unittest

from sim import other_marks, other_orders, other_spacings, other_tickets
from sim.dispatcher import TICKETS, Dispatcher, Enquiry
from sim.entries import Refused, parts_of
from sim.files import instant_entries, read_file, run
from sim.generate import LONGEST_CHECKED, damaged_file, damaged_session, random_file, random_session
from sim.generate_records import (LONGEST_KEPT, damaged_stored, longer_than_kept, made_by_another_order, made_by_another_spacing,
                                  made_by_the_earlier_rule, random_stored)
from sim.lines import file_lines, record_lines
from sim.reading import read_lines
from sim.rows import answer_of
from sim.sessions import COMMIT, ENQUIRY, MARK, MARKS, calls_lines, instant_of, session_lines
from sim.table import LONGEST_SPACING
from sim.tests.histories import file_history, list_history, session_calls
from sim.tests.history import is_too_soon

SEEDS = 400


@functools.cache
def made(make):
    return [make(random.Random(f"{make.__name__} {seed}")) for seed in range(SEEDS)]


def refusal(line):
    return int(line.split()[1])


class SameSeed(unittest.TestCase):
    def test_same_bytes(self):
        for make in (random_file, damaged_file, random_session, damaged_session, random_stored, damaged_stored):
            for seed in range(20):
                self.assertEqual(make(random.Random(seed)), make(random.Random(seed)))
            self.assertGreater(len({make(random.Random(seed)) for seed in range(20)}), 15)


class ThrownOut(unittest.TestCase):
    """Copies that are finished and then thrown out come often enough to be compared."""

    def having(self, make, lines):
        """How many inputs have one."""
        return sum(any(line[0] == "I" and line.split()[8] == "3" for line in lines(data)) for data in made(make))

    def test_one_input_in_ten_has_one(self):
        for make, lines in ((random_file, file_lines), (random_session, session_lines),
                            (random_stored, lambda data: record_lines(parts_of(data)[1]))):
            with self.subTest(make=make.__name__):
                self.assertGreater(self.having(make, lines), SEEDS / 10)


def waiting_events(history):
    """What a run has of releases that wait, by name."""
    waited = [job for job in history.jobs if job.release != job.taking]
    takings = {(job.task.number, job.taking) for job in waited}
    completions = {(job.task.number, job.done.completion) for job in history.jobs if job.done is not None}
    found = {
        "one waits": history.set_waiting,
        "one is skipped since one waits": [skip for skip in history.skips if not is_too_soon(history, *skip)],
        "one waits that came at the taking of another": takings & set(history.set_waiting),
        "one is taken at a completion behind which none waited":
            [job for job in history.jobs if job.release == job.taking and (job.task.number, job.taking) in completions],
        "a marked one is taken": [job for job in waited if job.task.mark],
        "one is blocked behind its taking": [job for job in waited if job.done is not None and job.done.blocked],
    }
    closed = [(job, history.intervals[job.first]) for job in waited if job.first < len(history.intervals)]
    found["one is not chosen at its taking"] = [job for job, interval in closed if interval.chosen != job.task.number]
    found["one is cancelled or thrown out"] = [job for job, interval in closed
                                               if interval.chosen == job.task.number and interval.fate in (2, 3)]
    return {name for name, jobs in found.items() if jobs}


class Waiting(unittest.TestCase):
    """What can become of a release that waits comes often enough to be compared."""

    RARE = {"one is cancelled or thrown out"}

    def check(self, histories):
        seen = collections.Counter(name for history in histories for name in waiting_events(history))
        for name in ("one waits", "one is skipped since one waits", "one waits that came at the taking of another",
                     "one is taken at a completion behind which none waited", "a marked one is taken", "one is blocked behind its taking",
                     "one is not chosen at its taking", "one is cancelled or thrown out"):
            with self.subTest(event=name):
                self.assertGreater(seen[name], SEEDS / 50 if name in self.RARE else SEEDS / 5)

    def test_files(self):
        self.check(map(file_history, made(random_file)))

    def test_sessions(self):
        self.check(list_history(*session_calls(data)) for data in made(random_session))

    def test_marks_that_are_tried_while_one_waits(self):
        tried = 0
        for data in made(random_session):
            opening, calls = session_calls(data)
            dispatcher = Dispatcher.open(opening)
            for call in calls:
                tried += call[0] == MARK and call[1] in dispatcher.waiting or call[0] == MARKS and any(call[1] >> task & 1 for task in dispatcher.waiting)
                answer_of(dispatcher, call)
        self.assertGreater(tried, SEEDS / 4)

    def test_records_of_the_rule_before(self):
        refused = [read_lines(data) == ["R 18 0"] for data in made(made_by_the_earlier_rule)]
        self.assertGreater(sum(refused), SEEDS / 2)
        self.assertGreater(refused.count(False), SEEDS / 20)


SOME = SEEDS // 2  # enough where each is run by every wrong dispatcher


def files_told(kinds):
    """By the kind of wrong dispatcher, how many of some files run otherwise by it."""
    inputs = [read_file(data) for data in made(random_file)[:SOME]]
    right = [list(run(*each)) for each in inputs]
    return {kind: sum(list(run(*each, kind)) != answers for each, answers in zip(inputs, right)) for kind in kinds}


def sessions_told(kinds):
    """By the kind of wrong dispatcher, how many of some sessions it answers otherwise."""
    inputs = made(random_session)[:SOME]
    parts = [parts_of(data) for data in inputs]
    right = [session_lines(data)[1:] for data in inputs]
    return {kind: sum(calls_lines(kind.open(opening), calls) != lines for (opening, calls), lines in zip(parts, right)) for kind in kinds}


class Equals(unittest.TestCase):
    """6/13: tasks share priorities in most inputs, and each wrong order among them shows in so many that it is found."""

    RARE = {other_orders.PromotedByNumber}

    def check(self, told):
        for kind, count in told.items():
            with self.subTest(kind=kind.__name__):
                self.assertGreater(count, SOME / 100 if kind in self.RARE else SOME / 10)

    def test_files(self):
        self.check(files_told(other_orders.ALL))

    def test_sessions(self):
        self.check(sessions_told(other_orders.ALL))

    def test_tables(self):
        tables = [list(read_file(data)[0].values()) for data in made(random_file)]
        shared = [len({task.priority for task in tasks}) < len(tasks) for tasks in tables]
        self.assertGreater(sum(shared), SEEDS / 2)
        self.assertGreater(sum(len(tasks) > 2 for tasks, equal in zip(tables, shared) if not equal), SEEDS / 20, "some have none")
        ends = {task.priority for tasks in tables for task in tasks} & {0, 255}
        self.assertEqual(ends, {0, 255})

    def test_records_of_another_order(self):
        refused = [read_lines(data) == ["R 18 0"] for data in made(made_by_another_order)]
        self.assertGreater(sum(refused), SEEDS / 4)
        self.assertGreater(refused.count(False), SEEDS / 20)


class Spacings(unittest.TestCase):
    """8/13: half of the inputs have spacings, their releases come at the edge of them, and each wrong reading shows in so many that it is found."""

    def check(self, told):
        for kind, count in told.items():
            with self.subTest(kind=kind.__name__):
                self.assertGreater(count, SOME / 10)

    def test_files(self):
        self.check(files_told(other_spacings.ALL))

    def test_sessions(self):
        self.check(sessions_told(other_spacings.ALL))

    def test_tables(self):
        tables = [list(read_file(data)[0].values()) for data in made(random_file)]
        spaced = [sum(task.spacing is not None for task in tasks) for tasks in tables]
        self.assertGreater(spaced.count(0), SEEDS / 3, "many have none")
        self.assertGreater(sum(count == len(tasks) > 1 for tasks, count in zip(tables, spaced)), SEEDS / 20, "some have one on every task")
        self.assertGreater(sum(0 < count < len(tasks) for tasks, count in zip(tables, spaced)), SEEDS / 10, "some have one on a few")
        self.assertIn(32, spaced)
        self.assertTrue({1, 2, LONGEST_SPACING} <= {task.spacing for tasks in tables for task in tasks})

    def check_edges(self, histories):
        """Of the releases of spaced tasks many come at the edge: a tick sooner, exactly one spacing later, and a tick behind."""
        seen = collections.Counter()
        for history in histories:
            last = {}
            passed = {(job.task.number, job.release) for job in history.jobs}
            for time, number in sorted((time, number) for number, time in passed | set(history.skips)):
                spacing = history.table[number].spacing
                if spacing is not None and number in last:
                    seen[time - last[number] - spacing] += 1
                if (number, time) in passed:
                    last[number] = time
        for beside in (-1, 0, 1):
            self.assertGreater(seen[beside], SEEDS / 2)

    def test_edges_of_files(self):
        self.check_edges(map(file_history, made(random_file)))

    def test_edges_of_sessions(self):
        self.check_edges(list_history(*session_calls(data)) for data in made(random_session))

    def test_records_of_another_reading(self):
        refused = [read_lines(data) == ["R 18 0"] for data in made(made_by_another_spacing)]
        self.assertGreater(sum(refused), SEEDS / 8)
        self.assertGreater(refused.count(False), SEEDS / 20)


class Tickets(unittest.TestCase):
    """9/13: instants are looked at and committed, with tickets of every kind, and each wrong way of counting or looking at them shows."""

    def test_sessions(self):
        for kind, count in sessions_told(other_tickets.ALL).items():
            with self.subTest(kind=kind.__name__):
                self.assertGreater(count, SOME / 10)

    def test_tickets(self):
        seen = collections.Counter()
        for data in made(random_session):
            opening, calls = session_calls(data)
            dispatcher, shown = Dispatcher.open(opening), None
            for call in calls:
                if call[0] == COMMIT:
                    ticket, present = call[1], dispatcher.ticket
                    seen.update({"right": ticket == present, "old": ticket < present, "future": ticket > present, "first": ticket == 0 < present,
                                 "last": ticket == TICKETS - 1, "shown": ticket == present and shown == call[2:]})
                    seen["refused and another"] += ticket != present and refuses(dispatcher, call[2:])
                answer = answer_of(dispatcher, call)
                shown = call[1:] if isinstance(answer, Enquiry) else shown
        for name in ("right", "old", "future", "first", "last", "shown", "refused and another"):
            with self.subTest(ticket=name):
                self.assertGreater(seen[name], SEEDS / 4)

    def test_some_sessions_have_none(self):
        kinds = [{call[0] for call in session_calls(data)[1]} for data in made(random_session)]
        self.assertGreater(sum(not kind & {ENQUIRY, COMMIT} for kind in kinds), SEEDS / 4)
        self.assertGreater(sum({ENQUIRY, COMMIT} <= kind for kind in kinds), SEEDS / 4)


class Desks(unittest.TestCase):
    """10/13: marks for sets of tasks, of which each wrong way shows: where only the marks are wrong it takes a run that goes by them."""

    RARE = {other_marks.RefusedChangesFreeOnes, other_marks.OnlyTheLowest, other_marks.OthersLoseTheirs}

    def test_sessions(self):
        for kind, count in sessions_told(other_marks.ALL).items():
            with self.subTest(kind=kind.__name__):
                self.assertGreater(count, 0 if kind in self.RARE else SOME / 10)

    def test_sets(self):
        seen = collections.Counter()
        for data in made(random_session):
            opening, calls = session_calls(data)
            dispatcher = Dispatcher.open(opening)
            for call in calls:
                answer = answer_of(dispatcher, call)
                if call[0] == MARKS:
                    size = min(call[1].bit_count(), 2)
                    seen[answer.number if isinstance(answer, Refused) else ("none", "one", "several")[size]] += 1
        for name in ("none", "one", "several", 6, 16, 17):
            with self.subTest(marks=name):
                self.assertGreater(seen[name], SEEDS / 8)


def refuses(dispatcher, instant):
    """Whether a dispatcher refuses an instant."""
    return isinstance(answer_of(dispatcher, (ENQUIRY, *instant)), Refused)


class FileCoverage(unittest.TestCase):
    def test_random_files_are_served(self):
        for data in made(random_file):
            read_file(data)

    def test_every_refusal_of_a_file(self):
        seen = collections.Counter()
        for data in made(damaged_file):
            lines = file_lines(data)
            if lines and lines[0].startswith("R"):
                seen[refusal(lines[0])] += 1
        self.assertEqual(sorted(seen), [1, 2, 3, 4, 6, 7, 8, 9, 10, 11, 12, 19])

    def test_every_event(self):
        closings, fates, works, blocked, promotions, skip_first = set(), set(), set(), set(), 0, 0
        releases, lengths = set(), set()
        for data in made(random_file):
            table, listed = read_file(data)
            releases.add(len(listed))
            lengths.update(task.copy_in for task in table.values())
            for time, answer in run(table, listed):
                closings.add(answer.closed_at)
                if answer.interval is not None:
                    fates.add(answer.interval.fate)
                    works.add(answer.interval.work)
                    promotions += answer.interval.promoted is not None
                if answer.job_done is not None:
                    blocked.add(answer.job_done.blocked)
                letters = [line[0] for line in record_lines(b"".join(instant_entries(time, answer)))]
                skip_first += letters[-2:] == ["S", "I"]
        self.assertEqual(closings, {None, "b", "f"})
        self.assertEqual(fates, {0, 1, 2, 3})
        self.assertEqual(works, {0, 1, 2})
        self.assertEqual(blocked, {0, 1, 2})
        self.assertGreater(promotions, 100)
        self.assertGreater(skip_first, 20)
        self.assertIn(0, releases)
        self.assertTrue({1, 5, 1_000_000} <= lengths)

    def test_long_inputs_with_refusals_before_and_at_the_end_of_the_buffer(self):
        places = []
        for data in made(damaged_file):
            if len(data) > LONGEST_CHECKED:
                with self.assertRaises(Refused) as caught:
                    read_file(data)
                places.append(caught.exception.place)
                self.assertEqual(file_lines(data[:LONGEST_CHECKED]), file_lines(data))
        self.assertGreater(len(places), 5)
        self.assertLess(min(places), 5_000)
        self.assertGreater(max(places), 40_960)
        self.assertLess(max(places), LONGEST_CHECKED)


class SessionCoverage(unittest.TestCase):
    def test_openings_are_served(self):
        for data in made(random_session):
            lines = session_lines(data)
            self.assertEqual(lines[0], "O")
            self.assertNotIn("X", lines)

    def test_every_refusal_of_a_call_and_every_kind_of_line(self):
        seen, letters = collections.Counter(), collections.Counter()
        for data in made(random_session):
            for line in session_lines(data):
                letters[line[0]] += 1
                if line[0] == "R":
                    seen[refusal(line)] += 1
        self.assertEqual(sorted(seen), [6, 10, 14, 15, 16, 17, 20])
        self.assertGreater(min(seen.values()), 50)
        self.assertEqual(sorted(letters), ["A", "E", "I", "J", "M", "O", "R"])
        self.assertGreater(letters["A"], 2 * letters["R"], "most calls are served")

    def test_every_refusal_of_an_opening_and_cut_entries(self):
        openings, stops = set(), set()
        for data in made(damaged_session):
            lines = session_lines(data)
            if lines[0].startswith("R"):
                openings.add(refusal(lines[0]))
            if lines[-1] == "X":
                stops.add(lines[0])
        self.assertEqual(openings, {1, 2, 3, 4, 6, 7, 8, 12, 19})
        self.assertEqual(stops, {"O", "X"})

    def test_far_ahead_in_idle_time(self):
        far = 0
        for data in made(random_session):
            _, calls = session_calls(data)
            answers = [line for line in session_lines(data) if line[0] in "AERM"]
            for call, line in zip(calls, answers, strict=True):
                far += instant_of(call) is not None and instant_of(call)[0] > 2**40 and line == "A 0 -"
        self.assertGreater(far, 5)


class StoredCoverage(unittest.TestCase):
    def test_random_records_are_read(self):
        read = [read_lines(data) for data in made(random_stored)]
        self.assertTrue(all(line.startswith("L") for lines in read for line in lines))
        self.assertIn([], read)
        self.assertGreater(max(map(len, read)), 4_000)

    def test_every_refusal_of_the_reader(self):
        seen = collections.Counter()
        for data in made(damaged_stored):
            lines = read_lines(data)
            seen[lines[0][:lines[0].rindex(" ")] if lines and lines[0][0] == "R" else lines[0][0] if lines else ""] += 1
        self.assertEqual(set(seen), {"", "L", "X"} | {f"R {number}" for number in (1, 2, 3, 4, 6, 7, 8, 12, 18, 19)})
        self.assertGreater(seen["R 18"], SEEDS / 2, "most of them only a run can refuse")
        self.assertGreater(seen["L"], SEEDS / 20, "some are the record of another list")

    def test_refusals_around_the_end_of_what_is_kept(self):
        places = set()
        for seed in range(12):
            line = read_lines(longer_than_kept(random.Random(seed)))[0]
            places.add(int(line.split()[2]))
        self.assertIn(0, places)
        self.assertTrue(any(abs(place - LONGEST_KEPT) < 100 for place in places))
        self.assertGreater(max(places), LONGEST_KEPT + 1_000)


if __name__ == "__main__":
    unittest.main()
