"""Look first, then act (9/13): enquiries, commits and the ticket."""

import pickle
import random
import unittest

from sim.dispatcher import TICKETS, Dispatcher
from sim.entries import Refused
from sim.generate import random_calls
from sim.generate_tables import random_table
from sim.sessions import COMMIT, ENQUIRY, INSTANT, MARK, call_entry, make_call, session_bytes, session_lines
from sim.tests.plans import TASKS, task_set

LIMIT = 1_000_000_000


def lines(*calls, opening=TASKS):
    return session_lines(session_bytes(opening, calls))


def number(call, *arguments):
    """The number of a refusal, or None of a served call."""
    try:
        call(*arguments)
    except Refused as refused:
        return refused.number
    return None


def state(dispatcher):
    return pickle.dumps(dispatcher)


class Tickets(unittest.TestCase):
    def setUp(self):
        self.dispatcher = Dispatcher.open(TASKS)

    def raised(self, count, call, *arguments):
        """The call is served, and the ticket rises by so many."""
        before = self.dispatcher.ticket
        self.assertIsNone(number(call, *arguments))
        self.assertEqual(self.dispatcher.ticket, (before + count) % TICKETS)

    def refused(self, refusal, call, *arguments):
        before = state(self.dispatcher)
        self.assertEqual(number(call, *arguments), refusal)
        self.assertEqual(state(self.dispatcher), before)

    def test_0_at_opening(self):
        self.assertEqual(self.dispatcher.ticket, 0)
        self.assertEqual(self.dispatcher.enquire(0, 0).ticket, 0)

    def test_served_commits_and_mark_calls_count_and_nothing_else(self):
        d = self.dispatcher
        self.raised(1, d.commit, 0, 0, task_set(1))
        self.raised(1, d.instant, 2, 0)
        self.raised(1, d.mark, 2, 1)
        self.raised(1, d.mark, 2, 1)
        self.raised(0, d.enquire, 5, 0)
        self.refused(17, d.mark, 1, 0)
        self.refused(6, d.mark, 2, 2)
        self.refused(15, d.instant, 9, 0)
        self.refused(15, d.commit, 4, 9, 0)
        self.refused(20, d.commit, 3, 5, 0)
        self.refused(14, d.enquire, 2, 0)
        self.raised(1, d.commit, 4, 5, 0)

    def test_it_begins_again_behind_the_last(self):
        self.dispatcher.ticket = TICKETS - 1
        self.refused(20, self.dispatcher.commit, 0, 0, 0)
        self.raised(1, self.dispatcher.commit, TICKETS - 1, 0, 0)
        self.assertEqual(self.dispatcher.ticket, 0)
        self.refused(20, self.dispatcher.commit, TICKETS - 1, 1, 0)
        self.raised(1, self.dispatcher.commit, 0, 1, 0)
        self.dispatcher.ticket = TICKETS - 1
        self.raised(1, self.dispatcher.mark, 1, 0)
        self.assertEqual(self.dispatcher.ticket, 0)

    def test_another_ticket_is_20(self):
        self.dispatcher.instant(0, 0)
        for ticket in (0, 2, 3, 2**32 + 1, 2**63, TICKETS - 1):
            self.refused(20, self.dispatcher.commit, ticket, 1, task_set(1))
        self.raised(1, self.dispatcher.commit, 1, 1, task_set(1))

    def test_20_comes_before_all_that_refuses_an_instant(self):
        d = self.dispatcher
        d.instant(0, task_set(1))
        for refusal, time, released in ((16, 1, task_set(9)), (10, LIMIT + 1, task_set(1)), (14, 0, 0), (15, 3, 0)):
            self.refused(20, d.commit, 0, time, released)
            self.refused(refusal, d.commit, 1, time, released)
            self.refused(refusal, d.enquire, time, released)
            self.refused(refusal, d.instant, time, released)

    def test_an_enquiry_has_the_refusals_of_an_instant_in_their_order(self):
        d = self.dispatcher
        d.instant(LIMIT + 5, 0)
        self.refused(16, d.enquire, LIMIT + 5, task_set(9))
        self.refused(10, d.enquire, LIMIT + 5, task_set(1))
        self.refused(14, d.enquire, LIMIT + 5, 0)
        self.assertIsNone(number(d.enquire, LIMIT + 6, 0))


class Enquiries(unittest.TestCase):
    """What an enquiry shows is what its commit does."""

    def follow(self, seed):
        """A list of calls, with an enquiry before each: the dispatcher after each call, and the enquiry or its refusal."""
        rng = random.Random(f"tickets {seed}")
        table = random_table(rng)
        dispatcher = Dispatcher.open(b"".join(table))
        for call in random_calls(rng, table, 40, drained=True):
            if call[0] == INSTANT:
                yield dispatcher, call[1:]
            try:
                make_call(dispatcher, call)
            except Refused:
                pass

    def test_a_commit_does_what_its_enquiry_showed(self):
        for seed in range(60):
            for dispatcher, (time, released) in self.follow(seed):
                before = state(dispatcher)
                try:
                    shown = dispatcher.enquire(time, released)
                except Refused as refused:
                    self.assertEqual(number(pickle.loads(before).instant, time, released), refused.number)
                    self.assertEqual(state(dispatcher), before)
                    continue
                self.assertEqual(state(dispatcher), before)
                for call in (lambda d, time=time, released=released, ticket=shown.ticket: d.commit(ticket, time, released),
                             lambda d, time=time, released=released: d.instant(time, released)):
                    other = pickle.loads(before)
                    self.assertEqual(call(other), shown.answer)
                    self.assertEqual((other.ticket, other.due(), other.last), (shown.ticket + 1, shown.after.due(), time))
                    self.assertEqual(sorted(other.pending), sorted(shown.after.pending))

    def test_with_another_time_or_set_it_does_what_that_instant_would(self):
        for time, released in ((1, 0), (2, 0), (2, task_set(3)), (1, task_set(1, 2, 3))):
            one, other = Dispatcher.open(TASKS), Dispatcher.open(TASKS)
            for dispatcher in (one, other):
                dispatcher.instant(0, task_set(1))
            shown = one.enquire(2, task_set(2))
            self.assertEqual(one.commit(shown.ticket, time, released), other.instant(time, released))

    def test_a_served_call_in_between_makes_the_ticket_old(self):
        for call in ((INSTANT, 1, 0), (MARK, 2, 0), (COMMIT, 1, 1, 0)):
            dispatcher = Dispatcher.open(TASKS)
            dispatcher.instant(0, task_set(1))
            ticket = dispatcher.enquire(2, 0).ticket
            make_call(dispatcher, call)
            self.assertEqual(number(dispatcher.commit, ticket, 2, 0), 20)

    def test_refused_calls_and_enquiries_in_between_do_not(self):
        dispatcher = Dispatcher.open(TASKS)
        dispatcher.instant(0, task_set(1))
        ticket = dispatcher.enquire(2, 0).ticket
        for call in ((INSTANT, 0, 0), (MARK, 1, 0), (COMMIT, 0, 1, 0), (ENQUIRY, 1, 0), (ENQUIRY, 3, 0)):
            number(make_call, dispatcher, call)
        self.assertEqual(dispatcher.commit(ticket, 2, 0).due, 5)

    def test_notes_are_not_taken(self):
        dispatcher = Dispatcher.open(TASKS)
        dispatcher.notes = []
        dispatcher.enquire(0, task_set(1))
        self.assertEqual(dispatcher.notes, [])
        dispatcher.commit(0, 0, task_set(1))
        self.assertNotEqual(dispatcher.notes, [])


class Sessions(unittest.TestCase):
    def test_plan_a_looked_at_and_committed(self):
        calls = [(ENQUIRY, 0, 8), (COMMIT, 0, 0, 8), (ENQUIRY, 2, 4), (COMMIT, 1, 2, 4), (ENQUIRY, 3, 2), (ENQUIRY, 3, 0), (COMMIT, 2, 3, 2), (ENQUIRY, 7, 0)]
        self.assertEqual(lines(*calls), ["O", "E 0 2 0", "A 0 2", "I 0 2 0 - 0 - 3 1 -", "E 0 4 1", "I 0 2 0 - 0 - 3 1 -", "A 0 4", "E 0 7 2", "E 0 4 2",
                                         "A 0 7", "I 2 7 1 3 1 - 2 2 1", "E 0 9 3"])

    def test_refusals_and_the_last_tick(self):
        calls = [(ENQUIRY, 0, 1), (COMMIT, 1, 0, 2), (COMMIT, TICKETS - 1, 0, 1), (COMMIT, 0, 0, 1), (MARK, 2, 1), (COMMIT, 0, 0, 2), (COMMIT, 1, 0, 2),
                 (ENQUIRY, 3, 0), (ENQUIRY, 0, 0), (ENQUIRY, LIMIT + 1, 2), (ENQUIRY, 2**64 - 1, 0)]
        self.assertEqual(lines(*calls), ["O", "R 16", "R 20", "R 20", "R 16", "M", "R 20", "A 0 2", "R 15", "R 14", "R 10", "R 15"])

    def test_what_is_skipped_would_be(self):
        calls = [(INSTANT, 0, 2), (COMMIT, 1, 1, 2), (ENQUIRY, 2, 2), (COMMIT, 2, 2, 2)]
        self.assertEqual(lines(*calls)[3:], ["I 0 2 0 - 0 - 1 1 -", "E 2 5 2", "I 0 2 0 - 0 - 1 1 -", "A 2 5"])

    def test_nothing_due(self):
        self.assertEqual(lines((ENQUIRY, 7, 0), (COMMIT, 0, 7, 0)), ["O", "E 0 - 0", "A 0 -"])

    def test_sessions_of_commits_print_what_those_of_instants_do(self):
        for seed in range(100):
            rng = random.Random(f"by commits {seed}")
            table = random_table(rng)
            calls, by_commits = random_calls(rng, table, 40, drained=True), []
            dispatcher = Dispatcher.open(b"".join(table))
            for call in calls:
                by_commits.append((COMMIT, dispatcher.ticket, *call[1:]) if call[0] == INSTANT else call)
                number(make_call, dispatcher, call)
            self.assertEqual(lines(*by_commits, opening=b"".join(table)), lines(*calls, opening=b"".join(table)))

    def test_bytes_of_the_calls(self):
        self.assertEqual(call_entry(ENQUIRY, 258, 3).hex(), "42" "0201000000000000" "03000000")
        self.assertEqual(call_entry(COMMIT, 1, 258, 3).hex(), "43" "0100000000000000" "0201000000000000" "03000000")

    def test_cut_short(self):
        start = session_bytes(TASKS, [(INSTANT, 0, 2)])
        for call in ((ENQUIRY, 2, 0), (COMMIT, 1, 2, 0)):
            whole = call_entry(*call)
            for length in range(1, len(whole)):
                self.assertEqual(session_lines(start + whole[:length]), ["O", "A 0 2", "X"])


if __name__ == "__main__":
    unittest.main()
