"""The commands used like Unix filters: a full disk, a reader that went away, a closed output, an input that fails in the middle."""

import os
import pathlib
import subprocess
import tempfile
import unittest

from tools.tests.house import House

COMMANDS = (("input",), ("record",), ("run",), ("picture",), ("summary",), ("figure",), ("why", "1", "3"))


class Filters(unittest.TestCase):
    @classmethod
    def setUpClass(cls):
        folder = tempfile.TemporaryDirectory()
        cls.addClassCleanup(folder.cleanup)
        cls.house = House(folder.name)
        cls.house.run("build")
        cls.plan = str(cls.house.folder / "plans/a.plan")

    def run_each(self, plan, **streams):
        """The status and what was said, of each command."""
        for name, *more in COMMANDS:
            streams = {"stdin": subprocess.DEVNULL, "stdout": subprocess.PIPE, **streams}
            status, _, said = self.house.run(name, plan, *more, **streams)
            yield name, (status, said)

    def test_a_full_disk(self):
        with open("/dev/full", "wb") as full:
            for name, outcome in self.run_each(self.plan, stdout=full):
                self.assertEqual(outcome, (2, "standard output: No space left on device\n"), name)

    def test_a_reader_that_went_away(self):
        reader, writer = os.pipe()
        os.close(reader)
        for name, outcome in self.run_each(self.plan, stdout=writer):
            self.assertEqual(outcome, (2, ""), name)
        os.close(writer)

    def test_a_closed_output(self):
        for name, *more in COMMANDS:
            command = f"exec '{self.house.folder}/gateway' {name} '{self.plan}' {' '.join(more)} >&-"
            done = subprocess.run(["bash", "-c", command], stderr=subprocess.PIPE, env=self.house.environment, check=False)
            self.assertEqual((done.returncode, done.stderr), (2, b"standard output: it is closed\n"), name)

    def test_a_directory(self):
        for name, outcome in self.run_each("/"):
            self.assertEqual(outcome, (2, "/: Is a directory\n"), name)

    def test_an_input_that_stops_in_the_middle(self):
        """What came before a read that fails is no plan."""
        for name, *more in COMMANDS:
            reader, writer = os.pipe()
            os.set_blocking(reader, False)
            os.write(writer, b"task 1 1 1 2 3 1\n")
            status, printed, said = self.house.run(name, "-", *more, stdin=reader)
            self.assertEqual((status, printed, said), (2, "", "standard input: Resource temporarily unavailable\n"), name)
            os.close(reader)
            os.close(writer)

    def test_a_closed_input(self):
        for name, *more in COMMANDS:
            command = f"exec '{self.house.folder}/gateway' {name} - {' '.join(more)} <&-"
            done = subprocess.run(["bash", "-c", command], capture_output=True, env=self.house.environment, check=False)
            self.assertEqual((done.returncode, done.stdout, done.stderr), (2, b"", b"standard input: Bad file descriptor\n"), name)

    def test_standard_input(self):
        for name, *more in COMMANDS:
            text = pathlib.Path(self.plan).read_text(encoding="utf-8")
            piped, named = (self.house.start(name, plan, *more) for plan in ("-", self.plan))
            printed = piped.communicate(text.encode())[0]
            self.assertEqual((piped.returncode, printed.replace(b"Run of -", b"Run of a.plan")), (0, named.communicate()[0]), name)


if __name__ == "__main__":
    unittest.main()
