"""The command lines: the simulator as a program, and the comparison with another program."""

import contextlib
import io
import pathlib
import subprocess
import sys
import tempfile
import unittest

from sim import compare
from sim.entries import encode, two_parts
from sim.files import record
from sim.lines import file_lines, text
from sim.sessions import session_bytes
from sim.tests.plans import TASKS, THIRD_RELEASE, plan, plan_file

ROOT = pathlib.Path(__file__).resolve().parents[2]


def run_sim(what, data):
    done = subprocess.run([sys.executable, "-m", "sim", what], input=data, capture_output=True, cwd=ROOT, check=False)
    return done.returncode, done.stdout, done.stderr


class Simulator(unittest.TestCase):
    def test_file(self):
        self.assertEqual(run_sim("file", plan("A")), (0, text(file_lines(plan("A"))).encode(), b""))
        self.assertEqual(run_sim("file", plan_file((5, 2), (5, 2))), (0, b"R 9 58\n", b""))
        self.assertEqual(run_sim("file", b""), (0, b"R 12 0\n", b""))
        self.assertEqual(run_sim("file", plan("G")), (0, b"", b""))

    def test_record(self):
        self.assertEqual(run_sim("record", plan("A")), (0, record(plan("A")), b""))
        self.assertEqual(run_sim("record", b"\x07"), (1, b"", b"R 2 0\n"))

    def test_session(self):
        data = session_bytes(TASKS, [(64, 0, 2)])
        self.assertEqual(run_sim("session", data), (0, b"O\nA 0 2\n", b""))

    def test_read(self):
        self.assertEqual(run_sim("read", two_parts(TASKS, record(plan("A")))), (0, b"L 3 0\nL 2 2\nL 1 3\n", b""))
        self.assertEqual(run_sim("read", two_parts(TASKS, record(plan("A"))[24:])), (0, b"R 18 0\n", b""))
        self.assertEqual(run_sim("read", TASKS[:3]), (0, b"X\n", b""))

    def test_usage(self):
        self.assertEqual(run_sim("waveforms", b"")[0], 2)


# Programs to compare with: the simulator itself, and ones that are wrong.
HEAD = "import sys; sys.path.insert(0, sys.argv[1]); data = sys.stdin.buffer.read(); "
RIGHT = HEAD + "from sim.lines import *; sys.stdout.write(text(file_lines(data)))"
NO_SKIPS = HEAD + ("from sim.lines import *; "
                   "sys.stdout.write(text(l for l in file_lines(data) if l[0] != 'S'))")
CRASHES = RIGHT + "; sys.stdout.flush(); import os; os.abort()"


def compared(program, *more):
    """The comparison's status, its lines, and the inputs that it kept."""
    command = f"{sys.executable} -c \"{program}\" {ROOT}"
    printed = io.StringIO()
    with tempfile.TemporaryDirectory() as folder, contextlib.redirect_stdout(printed):
        status = compare.main(["file", "--program", command, "--keep", folder, *more])
        kept = [path.read_bytes() for path in sorted(pathlib.Path(folder).iterdir())]
    return status, printed.getvalue().splitlines(), kept


class Comparison(unittest.TestCase):
    def test_agreement(self):
        status, lines, kept = compared(RIGHT, "--seed", "7", "--count", "6", "--damaged", "4")
        self.assertEqual((status, lines[-1], kept), (0, "10 compared, 0 differ", []))
        self.assertIn("seed 7", lines[0])

    def test_difference(self):
        status, lines, kept = compared(NO_SKIPS, "--seed", "7", "--count", "20")
        self.assertEqual(status, 1)
        self.assertRegex(lines[-1], r"^\d+ compared, [1-9]\d* differ$")
        self.assertGreater(len(kept), 0)
        for data in kept:
            self.assertTrue(any(line.startswith("S") for line in file_lines(data)))
        self.assertTrue(any(line.startswith("  line ") and "simulator: b'S " in line for line in lines))

    def test_crash_after_the_right_output(self):
        status, lines, _ = compared(CRASHES, "--count", "1")
        self.assertEqual((status, lines[-1]), (1, "1 compared, 1 differ"))

    def test_first_difference(self):
        self.assertEqual(compare.first_difference(b"a\nb\n", b"a\nc\n"), (2, b"b", b"c"))
        self.assertEqual(compare.first_difference(b"a\nb\n", b"a\n"), (2, b"b", b""))
        self.assertIsNone(compare.first_difference(b"a\n", b"a\n"))

    def test_refused_record_is_empty(self):
        self.assertEqual(compare.expected_record(b"\x07"), b"")
        self.assertEqual(compare.expected_record(THIRD_RELEASE)[24:34], encode(18, 1, 4))


if __name__ == "__main__":
    unittest.main()
