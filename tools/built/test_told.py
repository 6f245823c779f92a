"""What ./gateway tells of random plans, by the programs that were built: each run and each record is held against the proved lines as it is told,
and here once more, figure by figure."""

import json
import os
import pathlib
import random
import re
import subprocess
import tempfile
import unittest

from sim import generate
from tools.tests.test_why import plan_text

ROOT = pathlib.Path(__file__).resolve().parents[2]
PLANS = 12


def gateway(*words):
    """What the command writes; it has to end well."""
    done = subprocess.run([str(ROOT / "gateway"), *words], capture_output=True, check=False)
    if done.returncode != 0:
        raise AssertionError(f"{words}: status {done.returncode}, {done.stderr.decode()}")
    return done.stdout


class Told(unittest.TestCase):
    def setUp(self):
        folder = tempfile.TemporaryDirectory()
        self.addCleanup(folder.cleanup)
        self.plan, self.record = (os.path.join(folder.name, name) for name in ("x.plan", "record"))

    def random_plan(self, rng):
        data = generate.random_file(rng)
        pathlib.Path(self.plan).write_text(plan_text(data), encoding="utf-8")
        return gateway("run", self.plan).decode().splitlines()

    def test_why_summary_and_figure(self):
        rng = random.Random(21)
        for _ in range(PLANS):
            lines = self.random_plan(rng)
            jobs, skips = ([tuple(map(int, line.split()[1:])) for line in lines if line.startswith(letter)] for letter in "JS")
            for task, release, start, completion, blocked in rng.sample(jobs, min(3, len(jobs))):
                text = gateway("why", self.plan, str(task), str(release)).decode()
                sums = text.split("\nresponse ")[1].splitlines()[0]
                self.assertEqual(sum(map(int, re.findall(r"(?:= |\+ )(\d+) ", sums))), completion - release)
                self.assertRegex(text, rf"(?m)^  {start} to \d+ +execution$")
                self.assertEqual(text.count("this job is blocked in it"), blocked)
            for task, release in rng.sample(skips, min(2, len(skips))):
                text = gateway("why", self.plan, str(task), str(release)).decode()
                self.assertRegex(text, r"Only one release of a task can wait|tick.* too soon, and skipped")
            rows = json.loads(gateway("summary", "--json", self.plan))
            self.assertEqual(sum(row["skipped"] for row in rows), len(skips))
            self.assertEqual(sum(row["done"] for row in rows), len(jobs))
            self.assertEqual(max((row["worst_response"] for row in rows if row["done"]), default=0), max((job[3] - job[1] for job in jobs), default=0))
            self.check_figure(jobs)

    def check_figure(self, jobs):
        told = json.loads(gateway("figure", "--json", self.plan))
        self.assertEqual(sum(row["jobs"] for row in told["tasks"]), len(jobs))
        for row in told["tasks"]:
            responses = [job[3] - job[1] for job in jobs if job[0] == row["task"]]
            self.assertEqual(row["worst_response"], max(responses, default=None))
            if responses:
                self.assertEqual(row["left"], row["bound"] - row["worst_from_taking"])
                self.assertGreaterEqual(row["least_left"], 0)

    def test_a_small_stack(self):
        """A soft limit below what a program takes is raised for it; where the hard one is too, that is trouble and is said."""
        self.random_plan(random.Random(23))
        pathlib.Path(self.record).write_bytes(gateway("record", self.plan))
        read = f"'{ROOT}/gateway' read '{self.plan}' '{self.record}'"
        soft, hard = (subprocess.run(["bash", "-c", f"ulimit {which} -s 256 && exec {read}"], capture_output=True, check=False) for which in ("-S", ""))
        self.assertEqual((soft.returncode, soft.stdout), (0, gateway("read", self.plan, self.record)))
        if hard.returncode != 0:
            self.assertEqual(hard.returncode, 2)
            self.assertIn(b"reader was ended for want of stack", hard.stderr)

    def test_records(self):
        rng = random.Random(22)
        for turn in range(PLANS):
            lines = self.random_plan(rng)
            stored = gateway("record", self.plan)
            pathlib.Path(self.record).write_bytes(stored)
            self.assertEqual(gateway("show", self.record).decode().splitlines(), lines)
            name = ("summary", "figure")[turn % 2]
            self.assertEqual(gateway(name, self.plan), gateway(name, self.plan, "--record", self.record))
            again = gateway("read", self.plan, self.record)
            pathlib.Path(self.plan).write_bytes(again)
            self.assertEqual(gateway("record", self.plan), stored)


if __name__ == "__main__":
    unittest.main()
