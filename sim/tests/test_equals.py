"""6/13: tasks of one priority. Each run is worked out by hand from the request's sentences, and each wrong order is told from the rule by some row.

Three desks share priority 5, task 3 is lower. Where tasks 1 and 2 differ in their mark, a row says so.
"""

import unittest

from sim.dispatcher import Dispatcher
from sim.entries import task_entry
from sim.files import instant_entries, read_file, run
from sim.lines import file_lines, record_lines
from sim.other_orders import ALL
from sim.tests.plans import plan_file, task_set

LOW = task_entry(3, 9, 0, 2, 5, 2)


def desks(first=0, second=0):
    """Tasks 1 and 2 of priority 5 with these marks, and the lower task 3."""
    return task_entry(1, 5, first, 2, 3, 1) + task_entry(2, 5, second, 2, 4, 1) + LOW


# Each row: its input, and the lines of its run.
ROWS = {
    # Both are ready at 0 with one release time: the lower number is copied in first. In 2-5 the processor runs 1 while 2 is there, which is an
    # equal: 2 is not blocked.
    "at one tick the lower number goes first": (plan_file((0, 1), (0, 2), tasks=desks()), [
        "I 0 2 0 - 0 - 1 1 -",
        "I 2 5 1 1 1 - 2 1 -",
        "J 1 0 2 6 0",
        "I 5 9 0 2 1 1 - 0 -",
        "J 2 0 5 10 0",
        "I 9 10 1 - 0 2 - 0 -",
    ]),
    # In 2-7 task 3 runs, and nobody was ready at its choice. 2 comes at 3 and 1 at 4; at 9, behind the copy-out of 3, the engine chooses 2, which
    # was released earlier. Both are blocked in 2-7 by the lower 3; 1 is not by 2, which runs in 11-15.
    "in turn the earlier one goes first": (plan_file((0, 3), (3, 2), (4, 1), tasks=desks()), [
        "I 0 2 0 - 0 - 3 1 -",
        "I 2 7 1 3 1 - - 0 -",
        "J 3 0 2 9 0",
        "I 7 11 0 - 0 3 2 1 -",
        "I 11 15 1 2 1 - 1 1 -",
        "J 2 3 11 16 1",
        "I 15 18 0 1 1 2 - 0 -",
        "J 1 4 15 19 1",
        "I 18 19 1 - 0 1 - 0 -",
    ]),
    # The second release of 2 waits from 1 on. 1 comes at 3 and is taken at once. At 7 job 2 is done and what waited is taken; the engine chooses at
    # that instant, and 1, not 3, is the original time that counts for 2.
    "a waiting release goes by its original time": (plan_file((0, 2), (1, 2), (3, 1), tasks=desks()), [
        "I 0 2 0 - 0 - 2 1 -",
        "I 2 6 1 2 1 - - 0 -",
        "J 2 0 2 7 0",
        "I 6 9 0 - 0 2 2 1 -",
        "I 9 13 1 2 1 - 1 1 -",
        "J 2 1 9 14 0",
        "I 13 16 0 1 1 2 - 0 -",
        "J 1 3 13 17 0",
        "I 16 17 1 - 0 1 - 0 -",
    ]),
    # As plan D, but for the priorities: marked 1 comes at 1, while 2 is copied in, and 2 is not lower. The copy-in goes on, and 1 is not promoted.
    "a marked equal cancels nothing": (plan_file((0, 2), (1, 1), tasks=desks(first=1)), [
        "I 0 2 0 - 0 - 2 1 -",
        "I 2 6 1 2 1 - 1 1 -",
        "J 2 0 2 7 0",
        "I 6 9 0 1 1 2 - 0 -",
        "J 1 1 6 10 0",
        "I 9 10 1 - 0 1 - 0 -",
    ]),
    # As plan B: the copy of 2 was done at 4, and marked 1, which comes at 5, is no higher. It stays, and 2 runs before 1. Both are blocked by 3 alone.
    "a marked equal throws out nothing": (plan_file((0, 3), (2, 2), (5, 1), tasks=desks(first=1)), [
        "I 0 2 0 - 0 - 3 1 -",
        "I 2 7 1 3 1 - 2 1 -",
        "J 3 0 2 9 0",
        "I 7 11 0 2 1 3 1 1 -",
        "J 2 2 7 12 1",
        "I 11 14 1 1 1 2 - 0 -",
        "J 1 5 11 15 1",
        "I 14 15 0 - 0 1 - 0 -",
    ]),
    # Nobody was chosen in 2-7, and both marked ones come in it: 2 at 3, 1 at 4. The earlier one is promoted, and 1 is copied in behind the copy-out of 3.
    "of two marked ones the earlier is promoted": (plan_file((0, 3), (3, 2), (4, 1), tasks=desks(1, 1)), [
        "I 0 2 0 - 0 - 3 1 -",
        "I 2 7 1 3 1 - - 0 2",
        "J 3 0 2 9 0",
        "I 7 13 0 2 2 3 1 1 -",
        "J 2 3 9 14 1",
        "I 13 16 1 1 1 2 - 0 -",
        "J 1 4 13 17 1",
        "I 16 17 0 - 0 1 - 0 -",
    ]),
    # The same with both at 3: the lower number.
    "of two marked ones of one tick the lower number is promoted": (plan_file((0, 3), (3, 1), (3, 2), tasks=desks(1, 1)), [
        "I 0 2 0 - 0 - 3 1 -",
        "I 2 7 1 3 1 - - 0 1",
        "J 3 0 2 9 0",
        "I 7 12 0 1 2 3 2 1 -",
        "J 1 3 9 13 1",
        "I 12 16 1 2 1 1 - 0 -",
        "J 2 3 12 17 1",
        "I 16 17 0 - 0 2 - 0 -",
    ]),
    # 2, not marked, came at 3, and marked 1 of the same priority at 4, where nobody was chosen: 1 is promoted and runs first. 2 is not blocked by it.
    "a promoted one passes an unmarked equal that came earlier": (plan_file((0, 3), (3, 2), (4, 1), tasks=desks(first=1)), [
        "I 0 2 0 - 0 - 3 1 -",
        "I 2 7 1 3 1 - - 0 1",
        "J 3 0 2 9 0",
        "I 7 12 0 1 2 3 2 1 -",
        "J 1 4 9 13 1",
        "I 12 16 1 2 1 1 - 0 -",
        "J 2 3 12 17 1",
        "I 16 17 0 - 0 2 - 0 -",
    ]),
}


def lines_by(kind, data):
    """The lines of an input's run by another kind of dispatcher."""
    return record_lines(b"".join(entry for time, answer in run(*read_file(data), kind) for entry in instant_entries(time, answer)))


class Rows(unittest.TestCase):
    def test_rows(self):
        for name, (data, lines) in ROWS.items():
            with self.subTest(row=name):
                self.assertEqual(file_lines(data), lines)

    def test_each_wrong_order_is_told_by_a_row(self):
        for kind in ALL:
            with self.subTest(kind=kind.__name__):
                self.assertTrue(any(lines_by(kind, data) != lines for data, lines in ROWS.values()))

    def test_what_another_order_would_do(self):
        """Each of them goes wrong where its name says."""
        wrong = {kind.__name__: {name for name, (data, lines) in ROWS.items() if lines_by(kind, data) != lines} for kind in ALL}
        self.assertEqual(wrong["ByTaking"], {"a waiting release goes by its original time"})
        self.assertEqual(wrong["PromotedByNumber"], {"of two marked ones the earlier is promoted"})
        self.assertEqual(wrong["EqualGivesWay"], {"a marked equal cancels nothing", "a marked equal throws out nothing"})
        self.assertIn("in turn the earlier one goes first", wrong["ByNumber"] & wrong["LatestFirst"])
        self.assertIn("at one tick the lower number goes first", wrong["HighestNumberFirst"] & wrong["EqualBlocks"])


class Order(unittest.TestCase):
    def executed(self, data):
        """The tasks in the order in which they run."""
        return [int(line.split()[4]) for line in file_lines(data) if line.startswith("I") and line.split()[4] != "-"]

    def test_all_tasks_at_one_tick(self):
        tasks = [task_entry(number, 7, 0, 1, 1, 1) for number in range(32)]
        for order in (tasks, tasks[::-1], tasks[16:] + tasks[:16]):  # the order of the entries does not matter
            data = plan_file(*((0, number) for number in range(32)), tasks=b"".join(order))
            self.assertEqual(self.executed(data), list(range(32)))

    def test_all_tasks_in_falling_order(self):
        tasks = b"".join(task_entry(number, 7, 0, 40, 1, 1) for number in range(32))
        self.assertEqual(self.executed(plan_file(*((31 - number, number) for number in reversed(range(32))), tasks=tasks)), list(range(31, -1, -1)))

    def test_priority_comes_before_time_and_time_before_number(self):
        # Ready at 9, when 3 has been copied out: 0 of priority 6, released at 3; 1 and 2 of priority 5, released at 5 and 4.
        tasks = desks() + task_entry(0, 6, 0, 1, 1, 1)
        self.assertEqual(self.executed(plan_file((0, 3), (3, 0), (4, 2), (5, 1), tasks=tasks)), [3, 2, 1, 0])

    def test_at_the_ends_of_the_priorities(self):
        for priority in (0, 255):
            tasks = task_entry(1, priority, 0, 2, 3, 1) + task_entry(2, priority, 0, 2, 4, 1) + task_entry(3, priority, 0, 2, 5, 2)
            self.assertEqual(self.executed(plan_file((0, 3), (1, 2), (2, 1), tasks=tasks)), [3, 2, 1])

    def test_who_gave_way_keeps_its_original_time(self):
        # The copy-in of 2 is cancelled at 1 by task 4, which is higher; 1, of the priority of 2, comes on that tick. 2 is chosen again before it.
        tasks = desks() + task_entry(4, 1, 1, 2, 3, 1)
        lines = file_lines(plan_file((0, 2), (1, 1), (1, 4), tasks=tasks))
        self.assertEqual(lines[:2], ["I 0 1 0 - 0 - 2 2 4", "I 1 6 1 4 2 - 2 1 -"])

    def test_of_two_that_waited_the_later_taken_may_come_first(self):
        # Second releases of 2 and 1 wait from 1 and 2 on. That of 1 is taken at 6, where 0, which is higher, is chosen; that of 2 at 10, where both are
        # ready: 2, released at 1, is chosen before 1, released at 2.
        tasks = desks() + task_entry(0, 1, 0, 1, 1, 1)
        self.assertEqual(file_lines(plan_file((0, 1), (0, 2), (1, 2), (2, 1), (6, 0), tasks=tasks)), [
            "I 0 2 0 - 0 - 1 1 -",
            "I 2 5 1 1 1 - 2 1 -",
            "J 1 0 2 6 0",
            "I 5 9 0 2 1 1 0 1 -",
            "J 2 0 5 10 0",
            "I 9 12 1 0 1 2 2 1 -",
            "J 0 6 9 13 1",
            "I 12 16 0 2 1 0 1 1 -",
            "J 2 1 12 17 0",
            "I 16 19 1 1 1 2 - 0 -",
            "J 1 2 16 20 0",
            "I 19 20 0 - 0 1 - 0 -",
        ])


class Promotion(unittest.TestCase):
    TABLE = desks(1, 1) + task_entry(4, 9, 0, 9, 9, 2)

    def second_interval(self, *pairs):
        """The choice, its fate and who is promoted in the interval 2-7, which runs 3 and copies in 4 from 2 on."""
        lines = [line.split()[1:] for line in file_lines(plan_file((0, 3), (2, 4), *pairs, tasks=self.TABLE)) if line.startswith("I")]
        return lines[1][6:]

    def test_behind_a_cancelling_too(self):
        self.assertEqual(self.second_interval((3, 2), (4, 1)), ["4", "2", "2"])
        self.assertEqual(self.second_interval((3, 1), (4, 2)), ["4", "2", "1"])
        self.assertEqual(self.second_interval((3, 1), (3, 2)), ["4", "2", "1"])

    def test_a_higher_one_that_comes_later_is_promoted_all_the_same(self):
        tasks = self.TABLE + task_entry(0, 4, 1, 1, 1, 1)
        lines = [line.split()[1:] for line in file_lines(plan_file((0, 3), (2, 4), (3, 2), (4, 1), (5, 0), tasks=tasks)) if line.startswith("I")]
        self.assertEqual(lines[1][6:], ["4", "2", "0"])

    def test_the_priority_of_the_copy_itself_does_not_give_way(self):
        # 4 and 3 are of priority 9; a marked task of that priority leaves the copy of 4 alone, and is not promoted.
        tasks = desks() + task_entry(4, 9, 0, 9, 9, 2) + task_entry(5, 9, 1, 1, 1, 1)
        lines = [line.split()[1:] for line in file_lines(plan_file((0, 3), (2, 4), (3, 5), tasks=tasks)) if line.startswith("I")]
        self.assertEqual(lines[1][6:], ["4", "1", "-"])


class ByInstants(unittest.TestCase):
    def test_the_mark_decides_who_passes(self):
        """A mark call makes 2 latency-sensitive too: then the earlier of the two is promoted, and not 1."""
        for mark, promoted in ((0, 1), (1, 2)):
            dispatcher = Dispatcher.open(desks(first=1))
            dispatcher.mark(2, mark)
            for time, numbers in ((0, [3]), (2, []), (3, [2]), (4, [1])):
                dispatcher.instant(time, task_set(*numbers))
            self.assertEqual(dispatcher.instant(7, 0).interval.promoted, promoted)


if __name__ == "__main__":
    unittest.main()
