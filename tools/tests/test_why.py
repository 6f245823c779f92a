"""why, summary and compare: their words for the plans, and their numbers against the record over random plans."""

import csv
import io
import json
import os
import pathlib
import random
import re
import tempfile
import unittest
from unittest import mock

from sim import generate
from sim.dispatcher import COPY_IN_CANCELLED, COPY_IN_THROWN_OUT
from sim.entries import INTERVAL, JOB_DONE, SKIPPED, entries
from sim.files import read_file, record
from tools.lives import hold, lives
from tools.output import Trouble
from tools.tests.captured import gateway, simulated
from tools.words import told

ROOT = pathlib.Path(__file__).resolve().parents[2]
A, B, F = (str(ROOT / f"plans/{name}.plan") for name in "abf")
TASKS = "task 1 1 1 2 3 1\ntask 2 2 0 2 4 1\ntask 3 3 0 2 5 2\n"


def command(*words, plan=None, stored=None):
    """The status, what is printed and what is said, with a plan and a record in files."""
    with tempfile.TemporaryDirectory() as folder:
        paths = {"PLAN": os.path.join(folder, "plan"), "RECORD": os.path.join(folder, "record")}
        for name, data in (("PLAN", plan), ("RECORD", stored)):
            if data is not None:
                pathlib.Path(paths[name]).write_bytes(data if isinstance(data, bytes) else data.encode())
        status, printed, said = gateway(*(paths.get(word, word) for word in words))
        return status, printed.decode(), said.replace(f"{folder}{os.sep}", "")


def random_runs(count, seed=11):
    """Random inputs with their runs and the entries of their records."""
    rng = random.Random(seed)
    for _ in range(count):
        data = generate.random_file(rng)
        table, releases = read_file(data)
        yield data, lives(table, releases), [(kind, fields) for _, kind, fields in entries(record(data), kinds=(JOB_DONE, INTERVAL, SKIPPED))]


class PlanA(unittest.TestCase):
    def test_task_1_in_words(self):
        self.assertEqual(command("why", A, "1", "3"), (0, """\
The release of task 1 at 3 was done at 13: response 10 ticks.
task 1: priority 1, latency-sensitive; copy-in L 2, execution C 3, copy-out U 1

the release
  3         released, and taken at once: no job of task 1 is pending (step c)
            it belongs to interval 2, which is open

interval 2, 2 to 7: the processor executes task 3 (priority 3, lower): this job is blocked in it
  3         the engine's choice of this interval was made at 2, and is made once (R2): task 2 (priority 2, lower)
  3         this release, latency-sensitive and higher, cancels the copy-in of task 2, which is under way (R3)
  7         the interval ends. Its copy-in gave way, and this is the highest latency-sensitive job released in it: promoted (R4)

interval 3, 7 to 12: the processor copies in and executes this job (R5)
  7 to 9    copy-in by the processor
  9 to 12   execution

interval 4, 12 to 16: the engine copies this job out, first of all
  12 to 13  copy-out; then the job is done

response 10 = 4 ready + 2 copy-in by the processor + 3 execution + 1 copy-out
blocked in 1 interval: interval 2 (2 to 7) by task 3
""", ""))

    def test_task_2_whose_copy_in_is_cancelled(self):
        _, printed, _ = command("why", A, "2", "2")
        for line in ("  2 to 3    copy-in by the engine, which is lost",
                     "  3         the release of task 1 (priority 1, higher), latency-sensitive, cancels the copy-in of this job (R3); this job is ready again",
                     "  7 to 9    the engine first copies out task 3, executed in the interval before (step g)",
                     "  9         the engine chooses this job, the highest that is ready (R2)",
                     "response 15 = 6 ready + 1 in copy-ins that were cancelled + 2 copy-in + 1 copied in, until the interval's end + 4 execution + 1 copy-out",
                     "executed before it, not lower: task 1 (9)"):
            self.assertIn(line, printed.splitlines())

    def test_a_finished_copy_thrown_out(self):
        _, printed, _ = command("why", B, "2", "2")
        self.assertIn("throws out the finished copy of this job (R3); this job is ready again", printed)
        _, printed, _ = command("why", B, "1", "4")
        self.assertIn("this release, latency-sensitive and higher, throws out the finished copy of task 2 (R3)", printed)

    def test_a_release_that_waits(self):
        _, printed, _ = command("why", F, "1", "5")
        self.assertIn("released. The job of task 1 released at 0 is pending, so that this release waits (step c)", printed)
        self.assertIn("response 7 = 1 waiting for the job before + 2 copy-in + 3 execution + 1 copy-out", printed)

    def test_a_skipped_release(self):
        status, printed, _ = command("why", "PLAN", "1", "4", plan=TASKS + "release 0 1\nrelease 3 1\nrelease 4 1\n")
        self.assertEqual(status, 0)
        self.assertIn("The release of task 1 at 4 was skipped.", printed)
        self.assertIn("Only one release of a task can wait, and the one at 3 did (step c)", printed)
        self.assertIn("the next release of task 1: it waited for that, until 6", printed)

    def test_a_release_that_came_too_soon(self):
        plan = TASKS + "spacing 1 6\nrelease 0 1\nrelease 5 1\n"
        self.assertEqual(command("why", "PLAN", "1", "5", plan=plan)[:2], (0, """\
The release of task 1 at 5 was skipped.
task 1: priority 1, latency-sensitive; copy-in L 2, execution C 3, copy-out U 1; spacing 6

The spacing of task 1 is 6 ticks, and this release came 5 ticks after the one at 0 (step c):
  0  the last release of task 1 that was not skipped: taken at once
  5  this release: 1 tick too soon, and skipped. It has no job and changes nothing else
  6  from here on a release is not too soon
"""))

    def test_too_soon_after_one_that_waited(self):
        """9 is three ticks after 6, where 5 was taken, and four after 5, which counts."""
        plan = TASKS + "spacing 1 5\nrelease 0 1\nrelease 5 1\nrelease 9 1\n"
        _, printed, _ = command("why", "PLAN", "1", "9", plan=plan)
        self.assertIn("this release came 4 ticks after the one at 5 (step c)", printed)
        self.assertIn("  5   the last release of task 1 that was not skipped: it waited until 6, and its original time counts", printed)
        self.assertIn("  9   this release: 1 tick too soon, and skipped", printed)
        self.assertIn("  10  from here on a release is not too soon", printed)

    def test_a_job_that_meets_a_higher_choice(self):
        plan = TASKS + "release 0 1\nrelease 0 2\nrelease 0 3\n"
        _, printed, _ = command("why", "PLAN", "3", "0", plan=plan)
        self.assertIn("the engine chooses task 1 (priority 1, higher), which is ready too (R2)", printed)
        self.assertIn("executed before it, not lower: task 1 (2), task 2 (5)", printed)

    def test_what_there_is_not(self):
        self.assertEqual(command("why", A, "9", "3")[::2], (1, f"{A}: there is no task 9; the tasks are 1, 2, 3\n"))
        self.assertEqual(command("why", F, "1", "3")[::2], (1, f"{F}: there is no release of task 1 at 3; the nearest: 0 and 5\n"))
        self.assertEqual(command("why", "PLAN", "1", "3", plan=TASKS)[::2], (1, "plan: there is no release of task 1 at all\n"))

    def test_of_a_record(self):
        stored = record(gateway("input", A)[1])
        status, printed, said = command("why", "PLAN", "1", "3", "--record", "RECORD", plan=TASKS + "release 9 9\n", stored=stored)
        self.assertEqual((status, printed), (0, command("why", A, "1", "3")[1]))
        self.assertEqual(said, "plan: its releases, 1 from line 4 on, are passed over: those of the record count\n")
        status, printed, said = command("why", "PLAN", "1", "3", "--record", "RECORD", plan=TASKS, stored=stored[24:])
        self.assertEqual((status, printed), (1, ""))
        self.assertIn("the record has 'I 2 7 1 3 1 - 2 2 1'", said)


class Equals(unittest.TestCase):
    """Jobs of one priority: who went first, and by what."""

    def told(self, releases, task, time, first=0, second=0):
        plan = f"task 1 5 {first} 2 3 1\ntask 2 5 {second} 2 4 1\ntask 3 9 0 2 5 2\n" + "".join(f"release {at} {number}\n" for at, number in releases)
        status, printed, said = command("why", "PLAN", str(task), str(time), plan=plan)
        self.assertEqual((status, said), (0, ""))
        return printed.splitlines()

    def test_released_earlier(self):
        releases = [(0, 3), (3, 2), (4, 1)]
        found = self.told(releases, 1, 4)
        self.assertIn("  9         the engine chooses task 2 (priority 5, equal), which is ready too (R2): it has the same priority and was released "
                      "earlier, at 3", found)
        self.assertIn("interval 4, 11 to 15: the processor executes task 2 (priority 5, equal)", found)
        self.assertIn("blocked in 1 interval: interval 2 (2 to 7) by task 3", found)
        self.assertIn("executed before it, not lower: task 2 (11)", found)
        self.assertIn("  9         the engine chooses this job, the highest that is ready (R2); behind it, of the same priority: task 1 (released at 4)",
                      self.told(releases, 2, 3))

    def test_at_one_tick(self):
        found = self.told([(0, 1), (0, 2)], 2, 0)
        self.assertIn("  0        the engine chooses task 1 (priority 5, equal), which is ready too (R2): it has the same priority, was released at 0 too, "
                      "and has the lower number", found)
        self.assertIn("blocked in no interval: from its taking to its execution the processor never executed a lower-priority job", found)

    def test_one_that_waited(self):
        found = self.told([(0, 2), (1, 2), (3, 1)], 1, 3)
        self.assertIn("  7         the engine chooses task 2 (priority 5, equal), which is ready too (R2): it has the same priority and was released "
                      "earlier, at 1 (it waited until 7, and its original time counts)", found)

    def test_an_equal_copy_stays(self):
        found = self.told([(0, 2), (1, 1)], 1, 1, first=1)
        self.assertIn("  1        the engine's choice of this interval was made at 0, and is made once (R2): task 2 (priority 5, equal). That copy stays: "
                      "it is not lower (R3)", found)

    def test_promoted_before_an_equal(self):
        releases = [(0, 3), (3, 2), (4, 1)]
        self.assertIn("  7         the interval ends; task 2 (priority 5, equal), latency-sensitive and released in it, is promoted: it has the same "
                      "priority and was released earlier, at 3 (R4)", self.told(releases, 1, 4, 1, 1))
        self.assertIn("  7         the interval ends. Nobody was chosen in it, and this is the highest latency-sensitive job released in it: promoted (R4); "
                      "behind it, of the same priority: task 1 (released at 4)", self.told(releases, 2, 3, 1, 1))

    def test_passed_by_a_promoted_one(self):
        self.assertIn("  7         the interval ends; task 1 (priority 5, equal), latency-sensitive and released in it, is promoted: this job, though "
                      "released earlier, is not latency-sensitive (R4)", self.told([(0, 3), (3, 2), (4, 1)], 2, 3, first=1))

    def test_what_is_said_of_equals_holds(self):
        """Of random runs: who is said to go first has the same priority, and the earlier release or the lower number."""
        said = {"earlier": 0, "lower number": 0}
        for _, run, _ in random_runs(80, seed=21):
            for life in run.done():
                for line in told(run, life).splitlines():
                    other = re.search(r"task (\d+) \(priority (\d+), equal\).*it has the same priority", line)
                    if other is None:
                        continue
                    number, priority = map(int, other.groups())
                    self.assertEqual((priority, run.table[number].priority), (life.task.priority,) * 2)
                    if earlier := re.search(r"released earlier, at (\d+)", line):
                        self.assertLess(int(earlier.group(1)), life.release)
                        self.assertIn((int(earlier.group(1)), number), run.lives)
                        said["earlier"] += 1
                    else:
                        self.assertIn(f"was released at {life.release} too, and has the lower number", line)
                        self.assertLess(number, life.task.number)
                        said["lower number"] += 1
        self.assertGreater(min(said.values()), 50, said)


class Held(unittest.TestCase):
    """Against the record, whose numbers are the proved program's."""

    def test_every_response_adds_up(self):
        jobs = 0
        for _, run, found in random_runs(300):
            for kind, fields in found:
                if kind == JOB_DONE:
                    task, release, start, completion, blocked = fields
                    life = run.lives[release, task]
                    text = told(run, life)
                    parts = [int(number) for number in re.findall(r"(?:= |\+ )(\d+) ", text.split("\nresponse ")[1].splitlines()[0])]
                    self.assertEqual(sum(parts), completion - release)
                    self.assertEqual((life.start, life.completion), (start, completion))
                    self.assertEqual(len(re.findall(r"interval \d+ \(", text.split("\nblocked in ")[1])), blocked)
                    self.assertEqual(text.count("this job is blocked in it"), blocked)
                    jobs += 1
        self.assertGreater(jobs, 5_000)

    def test_what_is_said_of_each_interval_is_what_its_line_has(self):
        """Begin, end, who was executed, chosen and promoted, how the copy-in went; of the interval lines, by their number."""
        said = {"executes": 0, "chooses": 0, "promoted": 0, "cancels": 0, "throws out": 0}
        for _, run, found in random_runs(120, seed=12):
            intervals = [fields for kind, fields in found if kind == INTERVAL]
            for life in run.done():
                for head, *lines in (block.splitlines() for block in told(run, life).split("\n\n") if block.startswith("interval ")):
                    number, begin, end = map(int, re.match(r"interval (\d+), (\d+) to (\d+): ", head).groups())
                    line, own = intervals[number - 1], life.task.number
                    self.assertEqual((begin, end), line[:2])
                    if "the processor" in head:
                        executed = 255 if "idles" in head else own if "this job (R5)" in head else int(re.search(r"executes task (\d+)", head).group(1))
                        self.assertEqual((executed, "copies in and" in head), (line[3], line[4] == 2))
                        said["executes"] += 1
                    for text in lines:
                        self.check_line(text, line, own, said)
        self.assertGreater(min(said.values()), 30, said)

    def check_line(self, text, line, own, said):
        """One sentence about an interval."""
        if chooses := re.search(r"the engine chooses (?:this job|task (\d+))", text):
            self.assertEqual(int(chooses.group(1) or own), line[6])
            said["chooses"] += 1
        if "promoted" in text and "nobody" not in text:
            promoted = re.search(r"ends; task (\d+) .*is promoted", text)
            self.assertEqual(int(promoted.group(1)) if promoted else own, line[8])
            said["promoted"] += 1
        for verb, fate in (("cancels", COPY_IN_CANCELLED), ("throws out", COPY_IN_THROWN_OUT)):
            if gave_way := re.search(rf"{verb} the (?:copy-in|finished copy) of (?:this job|task (\d+))", text):
                self.assertEqual((int(gave_way.group(1) or own), fate), (line[6], line[7]))
                said[verb] += 1

    def test_phases_follow_each_other_from_the_release_to_the_completion(self):
        for _, run, _ in random_runs(60, seed=3):
            for life in run.done():
                edges = [life.release, *(phase.end for phase in life.phases)]
                self.assertEqual([phase.begin for phase in life.phases], edges[:-1])
                lengths = {kind: number for kind, number in life.parts().items() if kind in ("execution", "copy-out")}
                self.assertEqual(lengths, {"execution": life.task.execution, "copy-out": life.task.copy_out})

    def test_every_release_is_told_of(self):
        waited = soon = 0
        for _, run, found in random_runs(80, seed=4):
            for kind, fields in found:
                if kind == SKIPPED:
                    task, time = fields
                    text = told(run, run.lives[time, task])
                    self.assertIn("was skipped", text)
                    waited += "Only one release of a task can wait" in text
                    soon += "too soon, and skipped" in text
            self.assertEqual(len(run.lives), sum(kind != INTERVAL for kind, _ in found))
        self.assertGreater(min(waited, soon), 50)

    def test_why_each_was_skipped_is_what_its_spacing_says(self):
        """Found of the releases alone: one is too soon if it comes within the spacing of the last that has a job."""
        for _, run, found in random_runs(80, seed=4):
            jobs = sorted((fields[1], fields[0]) for kind, fields in found if kind == JOB_DONE)
            for (time, task), life in run.lives.items():
                spacing = run.table[task].spacing
                soon = spacing is not None and any(number == task and time - spacing < before < time for before, number in jobs)
                self.assertEqual(life.too_soon, soon)

    def test_another_run_is_not_told(self):
        """A line of the proved program that differs, whichever, is noticed."""
        for _, run, _ in random_runs(5, seed=6):
            for at, line in enumerate(run.lines):
                words = line.split()
                words[-1] += "9"
                with self.assertRaises(Trouble):
                    hold(run, run.lines[:at] + [" ".join(words)] + run.lines[at + 1:])

    def test_a_wrong_explanation_is_not_told(self):
        """The lines agree, and yet a life that is made wrong is noticed."""
        table, releases = read_file(gateway("input", A)[1])
        for change in (lambda run: run.lives[3, 1].phases.pop(0), lambda run: setattr(run.lives[3, 1], "first", run.spells[2]),
                       lambda run: setattr(run.lives[3, 1].job, "start", 8)):
            run = lives(table, releases)
            change(run)
            with self.assertRaises(Trouble):
                hold(run, run.lines)

    def test_the_command_holds_it_too(self):
        def other(name, pieces):
            yield b"".join(simulated(name, pieces)).replace(b"J 3 0 2 9 0", b"J 3 0 2 9 1")
        with mock.patch("tools.tests.captured.simulated", other):
            status, printed, said = gateway("why", A, "1", "3", programs=other)
        self.assertEqual((status, printed), (2, b""))
        self.assertIn("another run than the proved one, from its line 3 on", said)


class Summary(unittest.TestCase):
    def test_plan_a(self):
        status, printed, _ = command("summary", A)
        self.assertEqual(status, 0)
        self.assertEqual([line.split() for line in printed.splitlines()[1:]],
                         ["1 1 1 1 1 0 0 0 10 3 10 3 1 3 3 0 0 1".split(), "2 2 0 1 1 0 0 0 15 2 15 2 1 2 3 1 0 0".split(),
                          "3 3 0 1 1 0 0 0 9 0 9 0 0 - - 0 0 0".split()])

    def test_csv_and_json_say_the_same(self):
        rows = json.loads(command("summary", "--json", A)[1])
        read = list(csv.DictReader(io.StringIO(command("summary", "--csv", A)[1])))
        self.assertEqual([row["task"] for row in rows], [1, 2, 3])
        for row, other in zip(rows, read):
            self.assertEqual(list(row), list(other))
            self.assertEqual((str(row["worst_response"]), str(row["promoted"])), (other["worst_response"], other["promoted"]))
        self.assertEqual(rows[1]["blocked_by"], [3])

    def test_equals_stand_by_their_numbers(self):
        plan = "task 4 7 0 1 1 1\ntask 2 7 0 1 1 1\ntask 3 1 0 1 1 1\nrelease 0 2\nrelease 0 4\n"
        self.assertEqual([row["task"] for row in json.loads(command("summary", "--json", "PLAN", plan=plan)[1])], [3, 2, 4])
        self.assertEqual([row["task"] for row in json.loads(command("compare", "--json", "PLAN", "PLAN", plan=plan)[1])["tasks"]], [3, 2, 4])

    def test_no_release_at_all(self):
        rows = json.loads(command("summary", "--json", "PLAN", plan=TASKS)[1])
        self.assertEqual([(row["releases"], row["worst_response"]) for row in rows], [(0, None)] * 3)

    def test_against_the_record(self):
        """Each figure, counted from the record's entries."""
        for data, _, found in random_runs(60, seed=9):
            with tempfile.NamedTemporaryFile() as file:
                file.write(plan_text(data).encode())
                file.flush()
                rows = json.loads(gateway("summary", "--json", file.name)[1])
            jobs = [fields for kind, fields in found if kind == JOB_DONE]
            intervals = [fields for kind, fields in found if kind == INTERVAL]
            for row in rows:
                own = [fields for fields in jobs if fields[0] == row["task"]]
                self.assertEqual(row["done"], len(own))
                self.assertEqual(row["skipped"], sum(kind == SKIPPED and fields[0] == row["task"] for kind, fields in found))
                self.assertEqual(row["worst_response"], max((job[3] - job[1] for job in own), default=None))
                self.assertEqual(row["worst_blocked"], max((job[4] for job in own), default=None))
                self.assertEqual(row["cancelled"], sum(fields[6] == row["task"] and fields[7] == COPY_IN_CANCELLED for fields in intervals))
                self.assertEqual(row["thrown_out"], sum(fields[6] == row["task"] and fields[7] == COPY_IN_THROWN_OUT for fields in intervals))
                self.assertEqual(row["promoted"], sum(fields[8] == row["task"] for fields in intervals))


def plan_text(data):
    table, releases = read_file(data)
    lines = [f"task {task.number} {task.priority} {task.mark} {task.copy_in} {task.execution} {task.copy_out}" for task in table.values()]
    lines += [f"spacing {task.number} {task.spacing}" for task in table.values() if task.spacing is not None]
    return "".join(f"{line}\n" for line in lines + [f"release {time} {task}" for time, task in releases])


class Compare(unittest.TestCase):
    def test_another_mark(self):
        status, printed, _ = command("compare", A, "--mark", "1=0")
        self.assertEqual(status, 0)
        self.assertIn("task 2 released at 2: response 15 > 10 (-5), start 12 > 7, done 17 > 12, blocked 1\n", printed)
        self.assertIn("task 1 released at 3: response 10 > 12 (+2), start 9 > 11, done 13 > 15, blocked 1 > 2\n", printed)
        self.assertNotIn("task 3 released", printed)
        self.assertIn("1  1 > 0     1       0        0         0  10 > 12", printed)

    def test_two_plans(self):
        printed = command("compare", A, B)[1]
        self.assertIn("task 1 released at 3: only in the first run\ntask 1 released at 4: only in the second run\n", printed)
        self.assertTrue(command("compare", A, A)[1].endswith("no job moved\n"))

    def test_skipped_in_one(self):
        plan = TASKS + "release 0 2\nrelease 1 2\nrelease 2 2\nrelease 3 1\n"
        changed = json.loads(command("compare", "--json", "PLAN", "PLAN", "--mark", "1=0", plan=plan)[1])
        self.assertEqual([row["mark"] for row in changed["tasks"]], [[1, 0], [0, 0], [0, 0]])
        other = plan.replace("release 1 2\n", "")
        with tempfile.NamedTemporaryFile(mode="w") as file:
            file.write(other)
            file.flush()
            printed = command("compare", "PLAN", file.name, plan=plan)[1]
        self.assertIn("task 2 released at 2: skipped, since one waited, then done at ", printed)

    def test_a_spacing_in_one(self):
        plan = TASKS + "release 0 1\nrelease 5 1\nrelease 6 1\n"
        spaced = plan.replace("release 0", "spacing 1 6\nrelease 0")
        with tempfile.NamedTemporaryFile(mode="w") as file:
            file.write(spaced)
            file.flush()
            printed = command("compare", "PLAN", file.name, plan=plan)[1]
            changed = json.loads(command("compare", "--json", "PLAN", file.name, plan=plan)[1])
        self.assertIn("task 1 released at 5: done at 12, then skipped, since it came too soon\n", printed)
        self.assertIn("task 1 released at 6: response 12 > 6 (-6), start 14 > 8, done 18 > 12, blocked 0\n", printed)
        self.assertEqual(changed["tasks"][0]["too_soon"], [0, 1])
        self.assertEqual(changed["jobs"][0]["after"], {"skipped": True, "too_soon": True})

    def test_a_mark_of_no_task(self):
        self.assertEqual(command("compare", A, "--mark", "9=1")[::2], (1, f"{A}: there is no task 9 to mark\n"))


if __name__ == "__main__":
    unittest.main()
