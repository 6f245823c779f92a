"""Marks for a whole desk (10/13): one call for a set of tasks."""

import itertools
import pickle
import random
import unittest

from sim.dispatcher import TICKETS, Dispatcher, members
from sim.entries import Refused
from sim.generate import random_calls
from sim.generate_tables import random_table
from sim.sessions import COMMIT, ENQUIRY, INSTANT, MARK, MARKS, call_entry, make_call, session_bytes, session_lines
from sim.tests.plans import TASKS, task_set


def number(call, *arguments):
    """The number of a refusal, or None of a served call."""
    try:
        call(*arguments)
    except Refused as refused:
        return refused.number
    return None


def states(seeds):
    """Dispatchers in states that calls made."""
    for seed in range(seeds):
        rng = random.Random(f"desk marks {seed}")
        table = random_table(rng)
        if len(table) <= 12:
            dispatcher = Dispatcher.open(b"".join(table))
            for call in random_calls(rng, table, rng.choice((0, 5, 20)), looks=0.3, desks=0.5):
                number(make_call, dispatcher, call)
            yield rng, dispatcher


class Calls(unittest.TestCase):
    def setUp(self):
        self.dispatcher = Dispatcher.open(TASKS)

    def marks(self):
        return sum(1 << number for number, task in self.dispatcher.table.items() if task.mark)

    def served(self, tasks, mark, expected):
        ticket = self.dispatcher.ticket
        self.dispatcher.mark_all(tasks, mark)
        self.assertEqual((self.marks(), self.dispatcher.ticket), (expected, ticket + 1))

    def refused(self, refusal, tasks, mark):
        before = pickle.dumps(self.dispatcher)
        self.assertEqual(number(self.dispatcher.mark_all, tasks, mark), refusal)
        self.assertEqual(pickle.dumps(self.dispatcher), before)

    def test_a_set_changes_together_and_counts_once(self):
        self.served(task_set(2, 3), 1, task_set(1, 2, 3))
        self.served(task_set(1, 3), 0, task_set(2))
        self.served(task_set(2), 1, task_set(2))
        self.served(task_set(1, 2, 3), 1, task_set(1, 2, 3))

    def test_the_empty_set_is_served_and_counts(self):
        self.served(0, 0, task_set(1))
        self.served(0, 1, task_set(1))
        self.refused(6, 0, 2)
        self.dispatcher.instant(0, task_set(1, 2, 3))
        self.served(0, 0, task_set(1))

    def test_one_that_is_unknown(self):
        for tasks in (task_set(0), task_set(4), task_set(31), task_set(1, 31), 2**32 - 1):
            self.refused(16, tasks, 0)
            self.refused(16, tasks, 2)

    def test_a_bad_mark(self):
        for mark in (2, 3, 255):
            self.refused(6, task_set(1), mark)
            self.refused(6, task_set(1, 2, 3), mark)

    def test_one_that_is_busy(self):
        self.dispatcher.instant(0, task_set(2))
        for tasks in (task_set(2), task_set(1, 2), task_set(2, 3), task_set(1, 2, 3)):
            self.refused(17, tasks, 0)
            self.refused(17, tasks, 1)
            self.refused(6, tasks, 2)
            self.refused(16, tasks | 1, 2)
        self.served(task_set(1, 3), 0, 0)

    def test_one_of_which_a_release_waits(self):
        self.dispatcher.waiting[3] = 0  # no calls make such a state alone
        self.refused(17, task_set(1, 3), 1)
        self.served(task_set(1, 2), 1, task_set(1, 2))

    def test_the_last_ticket(self):
        self.dispatcher.ticket = TICKETS - 1
        self.dispatcher.mark_all(task_set(1, 2), 0)
        self.assertEqual(self.dispatcher.ticket, 0)


class AsSingleCalls(unittest.TestCase):
    def test_in_every_order_the_state_is_that_of_the_single_calls_but_for_the_ticket(self):
        seen = 0
        for rng, dispatcher in states(200):
            free = [number for number in dispatcher.table if number not in dispatcher.pending]
            chosen, mark = rng.sample(free, min(len(free), rng.randint(0, 3))), rng.randint(0, 1)
            together = pickle.loads(pickle.dumps(dispatcher))
            together.mark_all(task_set(*chosen), mark)
            for order in itertools.permutations(chosen):
                single = pickle.loads(pickle.dumps(dispatcher))
                for task in order:
                    single.mark(task, mark)
                self.assertEqual((single.table, single.ticket), (together.table, dispatcher.ticket + len(chosen)))
                seen += len(chosen) > 1
            self.assertEqual(together.ticket, dispatcher.ticket + 1)
        self.assertGreater(seen, 100)

    def test_it_is_refused_by_a_number_if_and_only_if_the_request_says_so(self):
        seen = set()
        for rng, dispatcher in states(300):
            tasks = rng.choice((rng.getrandbits(32), sum(1 << number for number in dispatcher.table if rng.random() < 0.4)))
            mark = rng.choice((0, 1, 1, 2))
            unknown = any(task not in dispatcher.table for task in members(tasks))
            busy = any(task in dispatcher.pending or task in dispatcher.waiting for task in members(tasks))
            expected = 16 if unknown else 6 if mark > 1 else 17 if busy else None
            self.assertEqual(number(dispatcher.mark_all, tasks, mark), expected)
            seen.add(expected)
        self.assertEqual(seen, {16, 6, 17, None})

    def test_a_single_call_is_that_of_one_task(self):
        for rng, dispatcher in states(120):
            task, mark = rng.randrange(32), rng.choice((0, 1, 2))
            one, other = (pickle.loads(pickle.dumps(dispatcher)) for _ in range(2))
            self.assertEqual(number(one.mark, task, mark), number(other.mark_all, 1 << task, mark))
            self.assertEqual((one.table, one.ticket), (other.table, other.ticket))


class Sessions(unittest.TestCase):
    def lines(self, *calls):
        return session_lines(session_bytes(TASKS, calls))

    def test_lines(self):
        calls = [(MARKS, 6, 1), (MARKS, 0, 0), (ENQUIRY, 0, 8), (MARKS, 1, 0), (MARKS, 6, 2), (COMMIT, 2, 0, 8), (MARKS, 12, 1), (MARKS, 4, 0), (ENQUIRY, 1, 0)]
        self.assertEqual(self.lines(*calls), ["O", "M", "M", "E 0 2 2", "R 16", "R 6", "A 0 2", "R 17", "M", "E 0 2 4"])

    def test_a_ticket_is_old_behind_it(self):
        self.assertEqual(self.lines((ENQUIRY, 0, 2), (MARKS, 0, 0), (COMMIT, 0, 0, 2), (COMMIT, 1, 0, 2)), ["O", "E 0 2 0", "M", "R 20", "A 0 2"])

    def test_a_desk_that_is_marked_at_the_open(self):
        """Task 2 cancels the copy-in of 3 where the call marked it."""
        calls = [(INSTANT, 0, 8), (INSTANT, 1, 4)]
        self.assertEqual(self.lines((MARKS, 12, 1), *calls), self.lines((MARK, 3, 1), (MARK, 2, 1), *calls)[:1] + self.lines((MARK, 2, 1), *calls)[1:])
        self.assertNotEqual(self.lines((MARKS, 12, 1), *calls), self.lines((MARKS, 8, 1), *calls))

    def test_bytes_and_cuts(self):
        whole = call_entry(MARKS, 258, 1)
        self.assertEqual(whole.hex(), "44" "02010000" "01")
        for length in range(1, len(whole)):
            self.assertEqual(session_lines(session_bytes(TASKS, []) + whole[:length]), ["O", "X"])


if __name__ == "__main__":
    unittest.main()
