"""The inputs with releases that wait show each wrong way of waiting, those with tasks of one priority each wrong order among them, those with
spacings each wrong reading of them, those with enquiries and commits each wrong way with tickets, and those with marks for sets each wrong way of these."""

import unittest

from sim import other_marks, other_orders, other_spacings, other_tickets
from sim.dispatcher import Dispatcher, members
from sim.earlier import NothingWaits
from sim.entries import Refused, parts_of, release_entry, two_parts
from sim.files import instant_entries, read_file, run
from sim.generate import LONGEST_CHECKED
from sim.lines import file_lines
from sim.other_orders import EqualBlocks, HighestNumberFirst, LatestFirst, PromotedByNumber
from sim.reading import read_lines
from sim.sessions import calls_lines, session_bytes, session_lines
from tools import limits


class OwnFirst(Dispatcher):
    """What waits is taken behind the releases of the instant: one of its own task takes its place."""

    def _step_c(self, now, released, answer):
        completed = answer.job_done.task if answer.job_done is not None else None
        if completed in self.waiting and released >> completed & 1:
            waited = self.waiting.pop(completed)
            taken = super()._step_c(now, released, answer)
            self.waiting[completed] = waited
            return taken
        return super()._step_c(now, released, answer)


class ShowsTheTaking(Dispatcher):
    """The entry of a job that waited has the time of its taking."""

    def _step_c(self, now, released, answer):
        taken = super()._step_c(now, released, answer)
        for job in taken:
            job.release = now
        return taken


class LosesAtAnEnd(Dispatcher):
    """What waits is forgotten where an interval ends."""

    def _end_interval(self, now):
        self.waiting = {}
        return super()._end_interval(now)


class Replaces(Dispatcher):
    """A later release takes the place of the one that waits."""

    def _step_c(self, now, released, answer):
        taken = super()._step_c(now, released, answer)
        for number in members(answer.skipped):
            self.waiting[number] = now
        return taken


class SkipsAtTheTaking(Dispatcher):
    """A release at the instant of a taking is skipped."""

    def _step_c(self, now, released, answer):
        completed = answer.job_done.task if answer.job_done is not None else None
        both = released & 1 << completed if completed in self.waiting else 0
        taken = super()._step_c(now, released & ~both, answer)
        answer.skipped |= both
        return taken


class OtherCompletion(Dispatcher):
    """What waits of another task is lost at a completion."""

    def _step_c(self, now, released, answer):
        if answer.job_done is not None and self.waiting and answer.job_done.task not in self.waiting:
            self.waiting.pop(min(self.waiting))
        return super()._step_c(now, released, answer)


class BlockedSinceTheRelease(Dispatcher):
    """Intervals are counted from the release on, also while it waits."""

    def _count_blocked(self, interval):
        super()._count_blocked(interval)
        counts = self.__dict__.setdefault("counts", {})
        for number in self.waiting:
            lower = interval.executed is not None and self.table[number].priority < interval.executed.task.priority
            counts[number] = counts.get(number, 0) + lower

    def _take(self, number, release):
        job = super()._take(number, release)
        job.blocked = self.__dict__.setdefault("counts", {}).pop(number, 0)
        return job


class CountsOn(Dispatcher):
    """The count of the job before is not cleared."""

    def _complete(self, job, now):
        self.__dict__.setdefault("before", {})[job.task.number] = job.blocked
        return super()._complete(job, now)

    def _take(self, number, release):
        job = super()._take(number, release)
        if release != self.last:
            job.blocked = self.before[number]
        return job


class MarksWhileWaiting(Dispatcher):
    """A mark may change where a release waits."""

    def _check_marks(self, numbers, mark):
        super()._check_marks([number for number in numbers if number not in self.waiting], mark)


class TakesNoneTooLate(Dispatcher):
    """What waits is not taken past the last time at which a task may be released."""

    def _step_c(self, now, released, answer):
        if now > 1_000_000_000:
            self.waiting = {}
        return super()._step_c(now, released, answer)


WRONG = (NothingWaits, OwnFirst, ShowsTheTaking, LosesAtAnEnd, Replaces, SkipsAtTheTaking, OtherCompletion, BlockedSinceTheRelease, CountsOn,
         TakesNoneTooLate)


def record_by(kind, data):
    """A file's record, by a kind of dispatcher; None where its run is refused."""
    try:
        return b"".join(entry for time, answer in run(*read_file(data), kind) for entry in instant_entries(time, answer))
    except Refused:
        return None


def lines_by(kind, data):
    """The lines of a session's calls."""
    opening, calls = parts_of(data)
    return calls_lines(kind.open(opening), calls)


class Waiting(unittest.TestCase):
    def test_files_show_each_wrong_way(self):
        for wrong in WRONG:
            with self.subTest(wrong=wrong.__name__):
                self.assertTrue(any(record_by(wrong, data) != record_by(Dispatcher, data) for data in limits.waiting_files()))

    def test_sessions_show_each_wrong_way(self):
        for wrong in (NothingWaits, OwnFirst, ShowsTheTaking, LosesAtAnEnd, SkipsAtTheTaking, MarksWhileWaiting, TakesNoneTooLate):
            with self.subTest(wrong=wrong.__name__):
                self.assertTrue(any(lines_by(wrong, data) != lines_by(Dispatcher, data) for data in limits.waiting_sessions()))

    def test_they_are_among_the_limits(self):
        self.assertLessEqual(set(limits.waiting_files()), set(limits.files()))
        self.assertLessEqual(set(limits.waiting_sessions()), set(limits.sessions()))
        self.assertLessEqual({two_parts(limits.TABLE, stored) for stored in limits.waiting_records()}, set(limits.stored_records()))


class Equals(unittest.TestCase):
    def test_files_show_each_wrong_order(self):
        for wrong in other_orders.ALL:
            with self.subTest(wrong=wrong.__name__):
                self.assertTrue(any(record_by(wrong, data) != record_by(Dispatcher, data) for data in limits.equal_files()))

    def test_sessions_show_wrong_promotions(self):
        for wrong in (PromotedByNumber, LatestFirst):
            with self.subTest(wrong=wrong.__name__):
                self.assertTrue(any(lines_by(wrong, data) != lines_by(Dispatcher, data) for data in limits.equal_sessions()))

    def test_a_whole_table_shows_numbers_and_blocking(self):
        for wrong in (HighestNumberFirst, LatestFirst, EqualBlocks):
            self.assertNotEqual(record_by(wrong, limits.whole_table(255)), record_by(Dispatcher, limits.whole_table(255)))

    def test_they_are_among_the_limits(self):
        self.assertLessEqual(set(limits.equal_files()), set(limits.files()))
        self.assertLessEqual(set(limits.equal_sessions()), set(limits.sessions()))
        self.assertLessEqual(set(limits.equal_records()), set(limits.stored_records()))


class Spacings(unittest.TestCase):
    def test_files_show_each_wrong_reading(self):
        for wrong in other_spacings.ALL:
            with self.subTest(wrong=wrong.__name__):
                self.assertTrue(any(record_by(wrong, data) != record_by(Dispatcher, data) for data in limits.spaced_files()))

    def test_sessions_show_each_wrong_reading(self):
        for wrong in other_spacings.ALL:
            with self.subTest(wrong=wrong.__name__):
                self.assertTrue(any(lines_by(wrong, data) != lines_by(Dispatcher, data) for data in limits.spaced_sessions()))

    def test_a_full_table_shows_the_edge_of_each_spacing(self):
        head, pairs = b"".join(limits.full_head()), limits.full_releases()
        data = head + b"".join(release_entry(*pair) for pair in pairs)
        skipped = sorted(tuple(map(int, line.split()[:0:-1])) for line in file_lines(data) if line.startswith("S"))
        self.assertEqual(skipped, sorted((time, number) for number in range(32) for time in (199 + number, 201 + number)))

    def test_each_refusal_of_a_spacing(self):
        lines = {line.split()[1] for data in limits.spaced_files() for line in file_lines(data)[:1] if line.startswith("R")}
        self.assertLessEqual({"1", "2", "3", "8", "11", "19"}, lines)

    def test_the_longest_files(self):
        most, more = (limits.crowded_full(count) for count in (4096, 4097))
        self.assertEqual(len(most), LONGEST_CHECKED - 16)
        self.assertFalse(file_lines(most)[0].startswith("R"))
        self.assertEqual(file_lines(more), [f"R 11 {len(most)}"])

    def test_records_of_wrong_readings_are_refused_and_those_of_the_rule_read(self):
        told = [read_lines(data)[:1] for data in limits.spaced_records()]
        self.assertGreater(told.count(["R 18 0"]), 30)
        self.assertGreater(sum(line[0].startswith("L") for line in told), len(limits.SPACED))
        self.assertIn(["R 19 704"], told)

    def test_they_are_among_the_limits(self):
        self.assertLessEqual(set(limits.spaced_files()), set(limits.files()))
        self.assertLessEqual(set(limits.spaced_sessions()), set(limits.sessions()))
        self.assertLessEqual(set(limits.spaced_records()), set(limits.stored_records()))


class FourBytes(Dispatcher):
    """Only the lower half of a ticket is looked at."""

    def _check_ticket(self, ticket):
        super()._check_ticket(ticket if ticket % 2**32 != self.ticket else self.ticket)


class OneByte(Dispatcher):
    """The ticket is counted in one byte."""

    def _count_ticket(self):
        self.ticket = (self.ticket + 1) % 256


class Tickets(unittest.TestCase):
    def test_sessions_show_each_wrong_way(self):
        for wrong in (*other_tickets.ALL, FourBytes, OneByte):
            with self.subTest(wrong=wrong.__name__):
                self.assertTrue(any(lines_by(wrong, data) != lines_by(Dispatcher, data) for data in limits.ticket_sessions()))

    def test_what_is_said_of_one_that_looks_first(self):
        lines = session_lines(session_bytes(limits.TABLE, limits.LOOKED_AT))
        self.assertEqual({line for line in lines if line[0] == "R"}, {f"R {number}" for number in (6, 10, 14, 15, 16, 17, 20)})
        self.assertEqual([line.split()[-1] for line in lines if line[0] == "E"], ["0", "1", "3", "4", "5", "6", "7", "7"])

    def test_they_are_among_the_limits(self):
        self.assertLessEqual(set(limits.ticket_sessions()), set(limits.sessions()))


class HighestLeftOut(Dispatcher):
    """Of several tasks the one with the highest number is left out."""

    def mark_all(self, tasks, mark):
        self._check_marks(members(tasks), mark)
        super().mark_all(tasks & ~(1 << tasks.bit_length() - 1) if tasks.bit_count() > 1 else tasks, mark)


class Desks(unittest.TestCase):
    def test_sessions_show_each_wrong_way(self):
        for wrong in (*other_marks.ALL, HighestLeftOut, MarksWhileWaiting):
            with self.subTest(wrong=wrong.__name__):
                self.assertTrue(any(lines_by(wrong, data) != lines_by(Dispatcher, data) for data in limits.desk_sessions()))

    def test_each_refusal_and_the_marks_that_are_served(self):
        lines = [line for data in limits.desk_sessions() for line in session_lines(data)]
        self.assertLessEqual({"M", "R 6", "R 16", "R 17", "X"}, set(lines))

    def test_they_are_among_the_limits(self):
        self.assertLessEqual(set(limits.desk_sessions()), set(limits.sessions()))


if __name__ == "__main__":
    unittest.main()
