"""The built programs used like Unix filters: a read that fails is no input, and at the first write that fails the program stops. Each says
one line on standard error."""

import fcntl
import itertools
import os
import pathlib
import random
import resource
import subprocess
import tempfile
import threading
import time
import unittest

from sim.entries import release_entry, two_parts
from sim.files import record
from sim.generate_tables import small_length, some_tasks
from sim.lines import record_lines, text
from sim.reading import read_lines
from sim.waveform import dump
from tools.plan import sound_plan

ROOT = pathlib.Path(__file__).resolve().parents[2]
PLAN = sound_plan(str(ROOT / "plans/a.plan")).data
TASKS = PLAN[:48]
CALLS = bytes([64]) + (0).to_bytes(8, "little") + (2).to_bytes(4, "little") + bytes([64]) + (2).to_bytes(8, "little") + bytes(4)
SESSION = len(TASKS).to_bytes(4, "little") + TASKS + CALLS
STORED = two_parts(TASKS, record(PLAN))
INPUTS = {"gateway": PLAN, "recorder": PLAN, "waveform": PLAN, "session": SESSION, "reader": STORED}


def run(program, **streams):
    """What a program printed and said."""
    streams = {"stdin": subprocess.DEVNULL, "stdout": subprocess.PIPE, **streams}
    process = subprocess.run([str(ROOT / "target/bin" / program)], stderr=subprocess.PIPE, check=False, timeout=20, **streams)
    return process.stdout, process.stderr.decode()


def long_run(most=4000):
    """An input whose lines and record are longer than what a program keeps. Its tasks have no spacing, so that where they end is known."""
    rng = random.Random(1)
    tasks = some_tasks(rng, 8, small_length)
    releases = sorted({(rng.randrange(40_000), rng.choice(tasks)[1]) for _ in range(most + most // 16)})[:most]
    return b"".join(tasks + [release_entry(*release) for release in releases])


class Reads(unittest.TestCase):
    def test_a_directory_is_no_input(self):
        for program in INPUTS:
            with self.subTest(program):
                folder = os.open("/", os.O_RDONLY)
                self.assertEqual(run(program, stdin=folder), (b"", f"{program}: standard input: Is a directory\n"))
                os.close(folder)

    def test_a_closed_input(self):
        for program in INPUTS:
            with self.subTest(program):
                done = subprocess.run(["bash", "-c", f"exec '{ROOT}/target/bin/{program}' <&-"], capture_output=True, check=False)
                self.assertEqual((done.stdout, done.stderr.decode()), (b"", f"{program}: standard input: Bad file descriptor\n"))

    def test_an_input_that_stops_in_the_middle(self):
        """A file that is cut off there would be a shorter input, whose run is not printed. A session has answered what came before."""
        for program, printed in (("gateway", b""), ("recorder", b""), ("waveform", b""), ("reader", b""), ("session", b"O\nA 0 2\n")):
            with self.subTest(program):
                reader, writer = os.pipe()
                os.set_blocking(reader, False)
                os.write(writer, INPUTS[program][:-10])
                self.assertEqual(run(program, stdin=reader), (printed, f"{program}: standard input: Resource temporarily unavailable\n"))
                os.close(reader)
                os.close(writer)

    def test_task_entries_that_stop_in_the_middle(self):
        for program, size in itertools.product(("session", "reader"), (2, 30)):
            reader, writer = os.pipe()
            os.set_blocking(reader, False)
            os.write(writer, INPUTS[program][:size])
            self.assertEqual(run(program, stdin=reader), (b"", f"{program}: standard input: Resource temporarily unavailable\n"))
            os.close(reader)
            os.close(writer)

    def test_the_end_of_an_input_is_no_failure(self):
        self.assertEqual(run("gateway"), (b"R 12 0\n", ""))
        for program in ("session", "reader"):
            self.assertEqual(run(program), (b"X\n", ""))


class Writes(unittest.TestCase):
    def test_a_full_disk(self):
        for program, data in {**INPUTS, "gateway": long_run()}.items():
            with self.subTest(program), open("/dev/full", "wb") as full:
                process = subprocess.run([str(ROOT / "target/bin" / program)], input=data, stdout=full, stderr=subprocess.PIPE, check=False)
                self.assertEqual(process.stderr.decode(), f"{program}: standard output: No space left on device\n")

    def test_no_piece_goes_missing_in_the_middle(self):
        """Into a pipe that does not wait, with a reader who is slower: what arrives is the front of what is printed, and no more comes."""
        data = long_run()
        stored = two_parts(data[:8 * len(TASKS) // 3], record(data))
        for program, given, whole in (("gateway", data, text(record_lines(record(data))).encode()), ("recorder", data, record(data)), ("waveform", data, dump(data)),
                                      ("reader", stored, text(read_lines(stored)).encode())):
            with self.subTest(program):
                reader, writer = os.pipe()
                fcntl.fcntl(writer, 1031, 4096)  # F_SETPIPE_SZ
                os.set_blocking(writer, False)
                pieces = []

                def drain():
                    while piece := os.read(reader, 512):
                        pieces.append(piece)
                        time.sleep(0.0002)

                process = subprocess.Popen([str(ROOT / "target/bin" / program)], stdin=subprocess.PIPE, stdout=writer, stderr=subprocess.PIPE)
                os.close(writer)
                thread = threading.Thread(target=drain)
                thread.start()
                _, said = process.communicate(given)
                thread.join()
                os.close(reader)
                arrived = b"".join(pieces)
                self.assertEqual(said.decode(), f"{program}: standard output: Resource temporarily unavailable\n")
                self.assertLess(len(arrived), len(whole))
                self.assertEqual(arrived, whole[:len(arrived)])


class Twice(unittest.TestCase):
    """The reader goes through its record twice, a piece at a time: through a file where it stands, and through a temporary one if it comes by a pipe."""

    STACK = 128 * 1024

    def limit(self, which, size):
        return lambda: resource.setrlimit(which, (size, size))

    def read(self, data, stream):
        """What the reader prints with little stack: by a pipe, or in a file behind bytes that were read already."""
        limit = self.limit(resource.RLIMIT_STACK, self.STACK)
        if stream == "pipe":
            done = subprocess.run([str(ROOT / "target/bin/reader")], input=data, capture_output=True, check=False, timeout=20, preexec_fn=limit)
        else:
            with tempfile.TemporaryFile() as file:
                file.write(b"before" + data)
                file.flush()
                os.lseek(file.fileno(), len(b"before"), os.SEEK_SET)
                done = subprocess.run([str(ROOT / "target/bin/reader")], stdin=file, capture_output=True, check=False, timeout=20, preexec_fn=limit)
        return done.returncode, done.stdout.decode(), done.stderr

    def records(self):
        """Of as many releases as there may be: as it was written, changed at the end, cut short, too long, and longer than any; and hostile ones."""
        data = long_run(4096)
        tasks, stored = data[:8 * len(TASKS) // 3], record(data)
        interval = next(stored[at:at + 24] for at in range(len(stored)) if stored[at] == 17)
        many = interval * 30_000
        for bytes_of in (stored, stored[:-1] + bytes([stored[-1] ^ 1]), stored[:-1], stored + interval, stored + many, b"", many, many[:-1], many + b"\7"):
            yield two_parts(tasks, bytes_of)
        yield two_parts(tasks + tasks, stored)
        yield two_parts(tasks, stored)[:40]

    def test_little_stack(self):
        for data in self.records():
            expected = text(read_lines(data))
            for stream in ("pipe", "file"):
                with self.subTest(stream=stream, length=len(data), expected=expected[:20]):
                    self.assertEqual(self.read(data, stream), (0, expected, b""))

    def test_a_temporary_file_that_is_full(self):
        done = subprocess.run([str(ROOT / "target/bin/reader")], input=STORED, capture_output=True, check=False, timeout=20,
                              preexec_fn=self.limit(resource.RLIMIT_FSIZE, 0), restore_signals=False)
        self.assertEqual((done.stdout, done.stderr.decode()), (b"", "reader: temporary file: File too large\n"))

    def test_the_temporary_file_has_no_name(self):
        with subprocess.Popen([str(ROOT / "target/bin/reader")], stdin=subprocess.PIPE, stdout=subprocess.PIPE) as process:
            process.stdin.write(two_parts(TASKS, record(long_run(4096)))[:100_000])
            process.stdin.flush()
            time.sleep(0.3)
            files = [os.readlink(name) for name in pathlib.Path(f"/proc/{process.pid}/fd").iterdir()]
            self.assertTrue(any(name.endswith(" (deleted)") for name in files), files)
            process.communicate()


class Refusals(unittest.TestCase):
    def test_those_that_write_bytes_say_why_they_wrote_none(self):
        for program, (data, line) in itertools.product(("recorder", "waveform"), ((b"", "R 12 0"), (b"\7", "R 2 0"), (TASKS + TASKS, "R 4 48"))):
            process = subprocess.run([str(ROOT / "target/bin" / program)], input=data, capture_output=True, check=False)
            self.assertEqual((process.stdout, process.stderr.decode()), (b"", f"{program}: the input is refused: {line}\n"))

    def test_what_is_written_says_nothing(self):
        for program, written in (("recorder", record(PLAN)), ("waveform", dump(PLAN))):
            process = subprocess.run([str(ROOT / "target/bin" / program)], input=PLAN, capture_output=True, check=False)
            self.assertEqual((process.stdout, process.stderr), (written, b""))


if __name__ == "__main__":
    unittest.main()
