"""The page: one file that needs nothing else, with the run that the record has. How it looks and moves is tried by tools/browser.py."""

import json
import os
import pathlib
import random
import re
import tempfile
import unittest

from sim import generate
from sim.entries import JOB_DONE, entries
from sim.files import read_file, record
from tools.lives import lives
from tools.page import KINDS, page
from tools.tests.captured import gateway

ROOT = pathlib.Path(__file__).resolve().parents[2]
A = str(ROOT / "plans/a.plan")


def data_in(text):
    return json.loads(re.search(r'<script type="application/json" id="data">(.*?)</script>', text, re.S).group(1))


class Page(unittest.TestCase):
    def test_one_file_that_fetches_nothing(self):
        status, printed, said = gateway("page", A)
        text = printed.decode()
        self.assertEqual((status, said), (0, ""))
        self.assertIn("default-src 'none'", text)
        self.assertNotRegex(text, r"(?i)https?:|src=|<link|@import|url\(|fetch\(|XMLHttp|import\(")
        self.assertNotRegex(text, "@[A-Z]+@")
        self.assertEqual(text.count("</script>"), 2)

    def test_plan_a(self):
        data = data_in(gateway("page", A)[1].decode())
        self.assertEqual([task["number"] for task in data["tasks"]], [1, 2, 3])
        self.assertEqual(data["intervals"], [[0, 2, 0], [2, 7, 1], [7, 12, 0], [12, 16, 1], [16, 17, 0]])
        task, release, end, phases, why = data["lives"][2]
        self.assertEqual((task, release, end), (1, 3, 13))
        self.assertEqual([[KINDS[kind], begin, end] for kind, begin, end in phases],
                         [["ready", 3, 7], ["copy-in by the processor", 7, 9], ["execution", 9, 12], ["copy-out", 12, 13]])
        self.assertEqual(why, gateway("why", A, "1", "3")[1].decode())

    def test_of_a_record(self):
        with tempfile.TemporaryDirectory() as folder:
            path = pathlib.Path(folder, "record")
            path.write_bytes(gateway("record", A)[1])
            self.assertEqual(data_in(gateway("page", A, "--record", str(path))[1].decode()), data_in(gateway("page", A)[1].decode()))

    def test_every_job_of_random_runs(self):
        rng = random.Random(8)
        for _ in range(40):
            data = generate.random_file(rng)
            shown = data_in(page(lives(*read_file(data)), "x"))
            done = {(fields[0], fields[1]): fields for _, kind, fields in entries(record(data), kinds=(16, 17, 18)) if kind == JOB_DONE}
            for task, release, end, phases, _ in shown["lives"]:
                self.assertEqual(end, done[task, release][3] if (task, release) in done else -1)
                if end != -1:
                    self.assertEqual((phases[0][1], phases[-1][2]), (release, end))
                    self.assertIn([KINDS.index("execution"), done[task, release][2]], [phase[:2] for phase in phases])
            self.assertEqual(len(shown["lives"]), len(read_file(data)[1]))
            self.assertEqual({task["number"]: task["spacing"] for task in shown["tasks"]},
                             {number: task.spacing for number, task in read_file(data)[0].items()})

    def test_a_name_that_would_end_the_page(self):
        with tempfile.TemporaryDirectory() as folder:
            name = "<script>&\x01.plan"
            pathlib.Path(folder, name).write_text("task 1 1 1 2 3 1\n", encoding="utf-8")
            text = gateway("page", os.path.join(folder, name))[1].decode()
        self.assertEqual(text.count("<script>"), 1)
        self.assertIn(r"Run of &lt;script&gt;&amp;\x01.plan", text)

    def test_kinds_as_the_script_numbers_them(self):
        script = (ROOT / "tools/page/page.js").read_text(encoding="utf-8")
        listed = re.search(r"const PHASES = (\[.*?\]);", script).group(1)
        self.assertEqual(tuple(json.loads(listed)), KINDS)


if __name__ == "__main__":
    unittest.main()
