"""figure: its words for the plans, and its numbers against the simulator's histories over random plans."""

import csv
import io
import json
import random
import unittest
from unittest import mock

from sim.entries import release_entry
from sim.files import MOST_RELEASES, read_file, record
from sim.generate import crowded_releases
from sim.generate_tables import small_length, some_tasks
from sim.tests import figure as own
from sim.tests.histories import file_history
from sim.tests.test_figure import ROWS
from tools import bounds
from tools.lives import lives
from tools.output import Trouble
from tools.tests.captured import gateway, simulated
from tools.tests.test_why import A, ROOT, TASKS, command, plan_text, random_runs

DESKS = str(ROOT / "plans/desks.plan")


def told(*words, **files):
    """What the command tells, as JSON."""
    status, printed, said = command("figure", "--json", *words, **files)
    if status != 0:
        raise AssertionError(said)
    return json.loads(printed)


class Plans(unittest.TestCase):
    def test_plan_a(self):
        status, printed, said = command("figure", A)
        self.assertEqual((status, said), (0, ""))
        first, second, blank, heads, *rows = printed.splitlines()
        self.assertEqual(first, "M is 7 ticks, the larger of 7 (L + C of task 3) and 2 + 2 (L of task 1, U of task 3): no interval is longer.")
        self.assertEqual(second, "From its taking a job is done within (h + 3) x M + U ticks, of a latency-sensitive task within (h + 2) x M + U.")
        self.assertEqual((blank, heads.split()[-4:]), ("", "left least left released".split()))
        self.assertEqual([row.split() for row in rows], [
            "1 1 1 1 10 3 10 3 0 2 15 5 5 3".split(), "2 2 0 1 15 2 15 2 1 3 29 14 14 2".split(), "3 3 0 1 9 0 9 0 0 2 23 14 14 0".split()])

    def test_from_the_release_and_from_the_taking(self):
        """Of task 2 the worst response is that of the release at 9, which waited from 9 to 14; from the taking it is the first one's."""
        [row] = [row for row in told(DESKS)["tasks"] if row["task"] == 2]
        self.assertEqual([row[name] for name in ("worst_response", "worst_release", "worst_from_taking", "taking_release")], [15, 9, 10, 4])
        self.assertEqual([row[name] for name in ("ahead", "intervals", "bound", "left")], [0, 2, 15, 5])

    def test_the_least_that_is_left_may_be_another_job_s(self):
        """Task 2 is done 11 ticks after 0, with 11 of 22 left, and the second time 13 ticks after 23, of which 9 are left."""
        plan = TASKS + "release 0 3\nrelease 1 2\nrelease 20 3\nrelease 23 2\n"
        [row] = [row for row in told("PLAN", plan=plan)["tasks"] if row["task"] == 2]
        names = ("jobs", "worst_from_taking", "taking_release", "left", "least_left", "least_left_release")
        self.assertEqual([row[name] for name in names], [2, 13, 23, 9, 9, 23])
        plan = TASKS + "release 0 3\nrelease 3 2\nrelease 20 1\nrelease 20 2\nrelease 20 3\n"
        [row] = [row for row in told("PLAN", plan=plan)["tasks"] if row["task"] == 3]
        self.assertLess(row["least_left"], row["left"])

    def test_csv_and_json_say_the_same(self):
        rows = told(A)
        read = list(csv.DictReader(io.StringIO(command("figure", "--csv", A)[1])))
        self.assertEqual((rows["longest_interval"], [row["task"] for row in rows["tasks"]]), (7, [1, 2, 3]))
        numbers = [{name: int(value) for name, value in row.items()} for row in read]
        self.assertEqual([{**row, "longest_interval": 7} for row in rows["tasks"]], numbers)

    def test_no_release_at_all(self):
        found = told("PLAN", plan=TASKS)
        self.assertEqual((found["longest_interval"], [(row["jobs"], row["bound"]) for row in found["tasks"]]), (7, [(0, None)] * 3))
        self.assertEqual(command("figure", "PLAN", plan=TASKS)[1].splitlines()[-1].split(), "3 3 0 0 - - - - - - - - - -".split())

    def test_a_record(self):
        """What is told of a stored record is what is told of its plan; the releases of the plan are passed over."""
        stored = record(gateway("input", A)[1])
        status, printed, _ = command("figure", "PLAN", "--record", "RECORD", plan=TASKS, stored=stored)
        self.assertEqual((status, printed), command("figure", A)[:2])

    def test_statuses(self):
        self.assertEqual(command("figure", "PLAN", plan=TASKS + "release 0 9\n")[:2], (1, ""))
        self.assertEqual(command("figure", "PLAN", plan="tusk\n")[:2], (1, ""))
        self.assertEqual(command("figure", "PLAN", "--record", "RECORD", plan=TASKS, stored=b"\x10")[:2], (1, ""))
        self.assertEqual(command("figure", "no.plan")[:2], (2, ""))

    def test_rows_that_meet_it(self):
        """The rows of the simulator's tests, which were worked out by hand."""
        for name, row in ROWS.items():
            with self.subTest(name):
                table, releases = read_file(row.data)
                run = lives(table, releases)
                task, release, *figures = row.job
                job = bounds.measured(run, run.lives[release, task], bounds.longest_interval(table))
                self.assertEqual([job.ahead, job.intervals, job.left], figures)


class Held(unittest.TestCase):
    def test_against_histories(self):
        """Each figure, computed of a run's answers by the simulator's tests."""
        jobs = 0
        for data, run, _ in random_runs(120, seed=31):
            history = file_history(data)
            longest = own.longest_interval(history.table)
            measured = own.measured(history)
            jobs += len(measured)
            self.assertEqual(bounds.longest_interval(run.table), longest)
            for row in bounds.figure(run):
                each = [one for one in measured if one.job.task.number == row["task"]]
                self.assertEqual(row["jobs"], len(each))
                if each:
                    self.check_row(row, each, longest)
        self.assertGreater(jobs, 2_000)

    def check_row(self, row, each, longest):
        self.assertEqual(row["worst_response"], max(one.job.done.completion - one.job.release for one in each))
        self.assertEqual(row["worst_from_taking"], max(one.response for one in each))
        [slowest] = [one for one in each if one.job.release == row["taking_release"]]
        self.assertEqual([row[name] for name in ("worst_from_taking", "ahead", "intervals", "bound", "left")],
                         [slowest.response, slowest.ahead[own.BETWEEN], slowest.intervals, slowest.bound(longest), slowest.left(longest)])
        [nearest] = [one for one in each if one.job.release == row["least_left_release"]]
        self.assertEqual(row["least_left"], nearest.left(longest))
        self.assertEqual(row["least_left"], min(one.left(longest) for one in each))

    def test_another_run_is_not_told(self):
        def other(name, pieces):
            yield b"".join(simulated(name, pieces)).replace(b"J 3 0 2 9 0", b"J 3 0 2 9 1")
        status, printed, said = gateway("figure", A, programs=other)
        self.assertEqual((status, printed), (2, b""))
        self.assertIn("another run than the proved one, from its line 3 on", said)

    def test_a_run_that_breaks_it_is_not_told(self):
        """There is none; so M is made smaller here, or the first interval of a job an earlier one."""
        with mock.patch("tools.bounds.longest_interval", lambda _: 4):
            self.assertEqual(command("figure", A), (2, "", "gateway: the interval from 2 to 7 is longer than 4 ticks; nothing is told\n"))
        table, releases = read_file(gateway("input", A)[1])
        run = lives(table, releases)
        run.lives[3, 1].first = run.spells[0]
        with self.assertRaisesRegex(Trouble, "the job of task 1 released at 3 took longer than is promised"):
            bounds.figure(run)

    def test_as_many_releases_as_there_may_be(self):
        rng = random.Random(33)
        tasks = some_tasks(rng, 32, small_length)
        data = b"".join([*tasks, *(release_entry(*release) for release in crowded_releases(rng, tasks, MOST_RELEASES))])
        self.assertEqual(sum(row["jobs"] for row in told("PLAN", plan=plan_text(data))["tasks"]), len(file_history(data).jobs))


if __name__ == "__main__":
    unittest.main()
