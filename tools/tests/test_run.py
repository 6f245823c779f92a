"""./gateway as a program, mostly by its command run, with a toolchain that proves nothing."""

import json
import os
import shutil
import signal
import subprocess
import tempfile
import time
import unittest

from tools.programs import crates_of
from tools.tests.house import ROOT, House

TASK = "task 1 1 1 2 3 1\n"
LINES_C = "I 0 2 0 - 0 - 1 1 -\nI 2 5 1 1 1 - - 0 -\nJ 1 0 2 6 0\nI 5 6 0 - 0 1 - 0 -\n"


def built(case):
    """A house in which the first run, of which a test of its own speaks, is over; and its folder, to be removed behind the case."""
    folder = tempfile.TemporaryDirectory()
    case(folder.cleanup)
    house = House(folder.name)
    house.run("run")
    return house


class Housed(unittest.TestCase):
    """Tests that leave the house as it was share one."""

    @classmethod
    def setUpClass(cls):
        cls.house = built(cls.addClassCleanup)

    def run_plan(self, *words, **how):
        return self.house.run("run", *words, **how)


class Changed(Housed):
    """Tests that change it have one each."""

    def setUp(self):
        self.house = built(self.addCleanup)


class Run(Housed):
    def test_a_record(self):
        plan = self.house.plan(TASK + "release 0 1\n")
        self.assertEqual(self.run_plan(plan), (0, LINES_C, ""))

    def test_plan_a_if_none_is_named(self):
        status, printed, said = self.run_plan()
        self.assertEqual((status, len(printed.splitlines()), said), (0, 8, ""))

    def test_a_refused_plan(self):
        """In words, with the plan's line and values."""
        for text, printed, words in (
                ("# a table\n" + TASK + "task 2 1 2 1 1 1\n", "R 6 16\n", "line 3: mark is 2, over 1 (refusal 6)"),
                ("release 0 1\n", "R 8 0\n", "line 1: a release of task 1, which is not in the table (refusal 8)"),
                (TASK + "".join(f"release {tick} 1\n" for tick in range(4097)), "R 11 40976\n",
                 "line 4098: a 4097th release; nothing behind it is read (refusal 11)"),
                ("# nothing\n", "R 12 0\n", "the plan has no entry (refusal 12)")):
            plan = self.house.plan(text)
            self.assertEqual(self.run_plan(plan), (1, printed, f"{plan}: {words}\n"))

    def test_a_plan_without_end(self):
        """No more of it is read than the release too many."""
        words = f"{{ echo {TASK.strip()}; seq -f 'release %.0f 1' 0 999999999999; }} | '{self.house.folder}/gateway' run -"
        done = subprocess.run(["bash", "-c", words], capture_output=True, env=self.house.environment, timeout=20, check=False)
        self.assertEqual((done.returncode, done.stdout), (1, b"R 11 40976\n"))

    def test_a_line_that_is_no_entry(self):
        plan = self.house.plan(TASK + "tusk\n")
        self.assertEqual(self.run_plan(plan), (1, "", f"{plan}: line 2: 'tusk' is none of 'task', 'spacing' and 'release'\n"))

    def test_json(self):
        status, printed, _ = self.run_plan("--json")
        events = [json.loads(line) for line in printed.splitlines()]
        self.assertEqual((status, len(events)), (0, 8))
        self.assertEqual(events[1], {"event": "interval ended", "begin": 2, "end": 7, "half": 1, "executed": 3, "work": "execute", "copied_out": None,
                                     "chosen": 2, "fate": "cancelled", "promoted": 1})
        self.assertEqual(events[2], {"event": "job done", "task": 3, "release": 0, "start": 2, "completion": 9, "blocked": 0})
        plan = self.house.plan("release 0 1\n")
        status, printed, _ = self.run_plan("--json", plan)
        self.assertEqual((status, json.loads(printed)), (1, {"event": "refused", "number": 8, "place": 0}))

    def test_standard_input_and_pipes(self):
        text = TASK + "release 0 1\n"
        self.assertEqual(self.run_plan("-", text=text), (0, LINES_C, ""))
        self.assertEqual(self.run_plan("/dev/stdin", text=text), (0, LINES_C, ""))
        done = subprocess.run(["bash", "-c", f"'{self.house.folder}/gateway' run <(printf '{TASK}release 0 1\n')"], capture_output=True,
                              env=self.house.environment, check=False)
        self.assertEqual((done.returncode, done.stdout.decode(), done.stderr), (0, LINES_C, b""))

    def test_a_plan_and_a_command_behind_symlinks(self):
        plan = self.house.plan(TASK + "release 0 1\n")
        link, command = self.house.folder.parent / "link.plan", self.house.folder.parent / "command"
        link.symlink_to(plan)
        command.symlink_to(self.house.folder / "gateway")
        self.assertEqual(self.run_plan("link.plan", command=str(command)), (0, LINES_C, ""))

    def test_cdpath(self):
        """A folder of the same name elsewhere does not lead the command astray, and nothing is printed of it."""
        elsewhere = self.house.folder.parent / "elsewhere"
        (elsewhere / "a house").mkdir(parents=True)
        plan = self.house.plan(TASK + "release 0 1\n")
        self.assertEqual(self.run_plan(plan, command="a house/gateway", more={"CDPATH": str(elsewhere)}), (0, LINES_C, ""))

    def test_a_plan_by_a_path_from_where_one_stands(self):
        self.house.plan(TASK + "release 0 1\n")
        self.assertEqual(self.run_plan("x.plan"), (0, LINES_C, ""))

    def test_trouble_with_files(self):
        self.assertEqual(self.run_plan("no.plan"), (2, "", "no.plan: No such file or directory\n"))
        self.assertEqual(self.run_plan("/"), (2, "", "/: Is a directory\n"))
        with open("/dev/full", "wb") as full:
            self.assertEqual(self.run_plan(stdout=full), (2, "", "standard output: No space left on device\n"))
        reader, writer = os.pipe()
        os.close(reader)
        self.assertEqual(self.run_plan(stdout=writer), (2, "", ""))
        os.close(writer)

    def test_what_the_program_says_of_trouble(self):
        says = self.house.folder / "says"
        says.touch()
        self.addCleanup(says.unlink)
        self.assertEqual(self.run_plan(), (2, "", "gateway: standard input: it fails\n"))


class Words(Housed):
    def test_help_lists_every_command(self):
        status, printed, said = self.house.run("--help")
        self.assertEqual((status, said), (0, ""))
        for name in ("run", "record", "read", "show", "why", "summary", "figure", "compare", "picture", "page", "merge", "input", "build"):
            self.assertRegex(printed, rf"(?m)^  {name} +\S")
            status, more, said = self.house.run(name, "--help")
            self.assertEqual((status, said), (0, ""), name)
            self.assertIn("status: 0", more)

    def test_usage(self):
        for words, about in (((), "no command is named"), (("fly",), "there is no command 'fly'"), (("\x1b[2J" * 40,), r"there is no command '\x1b[2J")):
            status, printed, said = self.house.run(*words)
            self.assertEqual((status, printed), (2, ""))
            self.assertIn(about, said)
            self.assertNotIn("\x1b", said)

    def test_words_too_many_or_too_few(self):
        for words in (("run", "a.plan", "b.plan"), ("record",), ("read", "a.plan"), ("why", "a.plan", "1"), ("summary",), ("compare", "a.plan"),
                      ("compare", "a.plan", "--mark", "1=2"), ("merge",), ("show",), ("summary", "--csv", "--json", "a.plan"), ("read", "-", "-"),
                      ("figure",), ("figure", "--csv", "--json", "a.plan"), ("figure", "-", "--record", "-")):
            status, printed, said = self.house.run(*words)
            self.assertEqual((status, printed), (2, ""), words)
            self.assertIn("usage: gateway", said)


class Gate(unittest.TestCase):
    def test_its_help(self):
        """It runs nothing; nor does a word that it does not know."""
        for words, status in ((("--help",), 0), (("-h",), 0), (("--fly",), 2)):
            done = subprocess.run([str(ROOT / "test"), *words], capture_output=True, timeout=20, check=False)
            self.assertEqual(done.returncode, status)
            self.assertIn(b"COUNT=N ./test", done.stdout if status == 0 else done.stderr)
            self.assertNotIn(b"== ", done.stdout)


class Record(Housed):
    def test_bytes_and_statuses(self):
        process = self.house.start("record", str(self.house.folder / "plans/a.plan"))
        printed, _ = process.communicate()
        self.assertEqual((process.returncode, len(printed), printed[:1]), (0, 201, b"\x11"))

    def test_a_refused_plan_writes_nothing_and_says_so(self):
        plan = self.house.plan(TASK + TASK)
        self.house.run("build")
        self.assertEqual(self.house.run("record", plan), (1, "", f"{plan}: line 2: task number 1 is given before, in line 1 (refusal 4)\n"))

    def test_input(self):
        plan = self.house.plan(TASK)
        process = self.house.start("input", plan)
        self.assertEqual(process.communicate()[0], bytes([1, 1, 1, 1, 2, 0, 0, 0, 3, 0, 0, 0, 1, 0, 0, 0]))


class Builds(Changed):
    def test_a_program_that_is_not_proved_is_not_run(self):
        (self.house.folder / "fails").touch()
        (self.house.folder / "crates/words/src/lib.rt").write_text("// words, changed\n", encoding="utf-8")
        status, printed, said = self.run_plan()
        self.assertEqual((status, printed), (2, ""))
        self.assertIn("words: not proved", said)
        self.assertIn("gateway: gateway is not proved, so that it is not run", said)

    def test_no_toolchain(self):
        """It is asked for nothing where all is as it was proved; where it is needed, that is said."""
        few = self.house.folder.parent / "few"
        few.mkdir()
        for name in ("bash", "dirname", "readlink", "python3", "env"):
            (few / name).symlink_to(shutil.which(name))
        self.assertEqual(self.run_plan(more={"PATH": str(few)})[0], 0)
        (self.house.folder / "target/bin/gateway").unlink()
        status, printed, said = self.run_plan(more={"PATH": str(few)})
        self.assertEqual((status, printed), (2, ""))
        self.assertIn("is the Rattle toolchain installed?", said)

    def test_nothing_is_asked_of_the_toolchain_twice(self):
        self.run_plan()
        self.assertEqual(self.house.builds(), ["gateway"])

    def test_a_changed_source_is_proved_again(self):
        (self.house.folder / "crates/words/src/lib.rt").write_text("// words, changed\n", encoding="utf-8")
        self.assertEqual(self.run_plan()[0], 0)
        self.assertEqual(self.house.builds(), ["gateway", "gateway"])

    def test_a_deleted_program_is_built_again(self):
        (self.house.folder / "target/bin/gateway").unlink()
        status, printed, said = self.run_plan()
        self.assertEqual((status, len(printed.splitlines())), (0, 8))
        self.assertIn("gateway is proved before it is run", said)

    def test_a_changed_program_is_not_run(self):
        program = self.house.folder / "target/bin/gateway"
        program.write_text("#!/usr/bin/env bash\necho J 1 2 3\n", encoding="utf-8")
        self.assertEqual(self.run_plan()[1].splitlines()[0], "I 0 2 0 - 0 - 3 1 -")

    def test_build(self):
        self.assertEqual(self.house.run("build")[:2], (0, "gateway, recorder, reader, waveform: proved and built\n"))
        self.assertEqual(self.house.builds(), ["gateway", "recorder", "reader", "waveform"])

    def test_a_build_holds_the_lock_when_the_command_is_killed(self):
        (self.house.folder / "slow").touch()
        (self.house.folder / "target/bin/gateway").unlink()
        first = self.house.start("run")
        while len(self.house.builds()) < 2:
            time.sleep(0.02)
        first.send_signal(signal.SIGKILL)
        first.communicate()
        status, printed, said = self.run_plan()
        self.assertEqual((status, len(printed.splitlines())), (0, 8))
        self.assertIn("waiting for another build", said)
        self.assertFalse((self.house.folder / "target/trouble").exists())

    def test_a_checkout_that_cannot_be_written(self):
        """As another user, who may write nothing there."""
        if os.getuid() != 0:
            self.skipTest("only root can become another user")
        os.chmod(self.house.folder.parent, 0o755)
        before = sorted(str(path) for path in self.house.folder.rglob("*"))
        status, printed, said = self.run_plan(user=65534, group=65534, extra_groups=[])
        self.assertEqual((status, len(printed.splitlines()), said), (0, 8, ""))
        self.assertEqual(sorted(str(path) for path in self.house.folder.rglob("*")), before)
        (self.house.folder / "target/bin/gateway").unlink()
        status, printed, said = self.run_plan(user=65534, group=65534, extra_groups=[])
        self.assertEqual((status, printed), (2, ""))
        self.assertIn("is not built here yet: ./gateway build does it", said)


class Interrupted(Changed):
    def test_no_traceback_and_no_folder(self):
        with tempfile.TemporaryDirectory() as room:
            (self.house.folder / "slow").touch()
            for words, gone in ((("run", "-"), False), (("run",), True)):
                if gone:
                    (self.house.folder / "target/bin/gateway").unlink()
                process = self.house.start(*words, more={"TMPDIR": room}, start_new_session=True)
                time.sleep(0.7)
                os.killpg(process.pid, signal.SIGINT)
                _, said = process.communicate()
                self.assertEqual(process.returncode, -2)
                self.assertNotIn(b"Traceback", said)
                self.assertEqual(os.listdir(room), [])


class StandardError(Housed):
    def test_full_or_closed_it_changes_no_status(self):
        good, bad = self.house.plan(TASK + "release 0 1\n"), self.house.plan("tusk\n", "bad.plan")
        for words, expected in ((("run", good), 0), (("run", bad), 1), (("run", "no.plan"), 2), (("run", "--fly"), 2), ((), 2), (("why", good, "1", "5"), 1)):
            with open("/dev/full", "wb") as full:
                self.assertEqual(self.house.run(*words, stderr=full)[0], expected, words)
            command = " ".join(f"'{word}'" for word in words)
            done = subprocess.run(["bash", "-c", f"'{self.house.folder}/gateway' {command} 2>&-"], stdout=subprocess.PIPE, env=self.house.environment,
                                  cwd=self.house.folder.parent, check=False)
            self.assertEqual(done.returncode, expected, words)
            self.assertEqual(done.stdout.decode(), LINES_C if expected == 0 else "")

    def test_a_first_run_without_it(self):
        (self.house.folder / "target/bin/gateway").unlink()  # it is built again
        done = subprocess.run(["bash", "-c", f"'{self.house.folder}/gateway' run 2>&- <&-"], stdout=subprocess.PIPE, env=self.house.environment, check=False)
        self.assertEqual((done.returncode, len(done.stdout.splitlines())), (0, 8))


class Memory(Housed):
    def limited(self, megabytes, words):
        return subprocess.run(["bash", "-c", f"ulimit -v {megabytes * 1024}; exec {words}"], capture_output=True, env=self.house.environment, check=False,
                              timeout=60)

    def test_too_little_is_trouble_and_no_traceback(self):
        """Whatever the limit is, as far as Python itself starts with it."""
        tasks = "".join(f"task {number} {number} 0 1 1 1\n" for number in range(32))
        plan = self.house.plan(tasks + "".join(f"release {time} {time % 32}\n" for time in range(4096)))
        seen = set()
        for megabytes in (*range(14, 100, 7), 2048):
            if self.limited(megabytes, "python3 -c pass").returncode == 0:
                done = self.limited(megabytes, f"'{self.house.folder}/gateway' why '{plan}' 1 1")
                self.assertNotIn(b"Traceback", done.stderr, megabytes)
                seen.add((done.returncode, b"out of memory" in done.stderr))
        self.assertLessEqual(seen, {(0, False), (2, True), (2, False)})
        self.assertGreaterEqual(seen, {(0, False), (2, True)})


class FirstRuns(unittest.TestCase):
    def test_the_gateway_stands_on_no_more_than_it_needs(self):
        """What it prints is tied to the record in a crate above it: a first run waits neither for that nor for demand 3."""
        self.assertEqual(set(crates_of("gateway")) & {"record", "guarantees", "file_lines"}, set())
        self.assertIn("record_lines", crates_of("gateway"))

    def test_what_is_proved_is_said(self):
        with tempfile.TemporaryDirectory() as folder:
            house = House(folder)
            status, printed, said = house.run("run", house.plan(TASK + "release 0 1\n"))
            self.assertEqual((status, printed), (0, LINES_C))
            self.assertEqual(said, "gateway: gateway is proved before it is run, which takes a few minutes\nrt: chose --jobs 2 for words\n")
            self.assertEqual(house.run("run", house.plan(TASK))[2], "")

    def test_two_at_once(self):
        """No build runs while another does, and both runs are printed."""
        with tempfile.TemporaryDirectory() as folder:
            house = House(folder)
            plan = house.plan(TASK + "release 0 1\n")
            runs = [house.start("run", plan) for _ in range(4)]
            printed = [run.communicate()[0].decode() for run in runs]
            self.assertEqual(printed, [LINES_C] * 4)
            self.assertEqual([run.returncode for run in runs], [0] * 4)
            self.assertFalse((house.folder / "target/trouble").exists())


if __name__ == "__main__":
    unittest.main()
