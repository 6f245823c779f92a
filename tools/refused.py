"""Whether the prover refuses the wrong programs of the must-fail edits, and whether it does so at a fact.

    python3 -m tools.refused [NAME..]        NAME is a crate, or an edit as CRATE/LABEL

It works in copies of the crates, one for each processor. A crate is checked once as it stands, and then with each of its edits over what
that check has left, so that an edit costs what it changes. A refusal is one all the same: what the edit reaches is checked again. One that
comes only from a proof that no longer fits the code's shape shows little, and is counted apart: of all that the check says, where `rt must-fail`
goes by the first words of it.
"""

import argparse
import os
import pathlib
import queue
import re
import shutil
import subprocess
import sys
import tempfile
import threading
import time

from tools import edits

ROOT = pathlib.Path(__file__).resolve().parents[1]

# What is copied of a crate.
PARTS = ("src", "specs", "proofs")

ERROR = re.compile(r"^(?:note: )?(\S+?:\d+:\d+): (error|it is not proved that)")

# Errors that follow from others, and those by which a proof does not fit the code: a name, a field or a place that is not there.
FOLLOWS = re.compile(r"which was (?:rejected|not admitted)|was not admitted|could not be checked")
SHAPE = re.compile(r"has no field|not in scope|that can be named from here|not as a tuple|projects from a")


def verdict(status, said):
    """What became of an edit, by the check's exit status and what it said: 'taken', 'unread', 'fact' or 'shape'."""
    if status == 0:
        return "taken"
    if status != 1 or "\nlogic=not-proved" not in f"\n{said}":
        return "unread"
    found = [text for text in messages(said) if not FOLLOWS.search(text)]
    return "shape" if found and all(SHAPE.search(text) for text in found) else "fact"


def messages(said):
    """Each error, with the line behind it where that goes on with it."""
    lines = said.splitlines()
    return [f"{line} {more.strip()}" if more.startswith(" ") else line for line, more in zip(lines, lines[1:] + [""]) if ERROR.match(line)]


def first_place(said):
    """Where the first error stands."""
    for line in said.splitlines():
        found = ERROR.match(line)
        if found:
            return found.group(1).removeprefix("./")
    return "no place"


class Copy:
    """A copy of the crates in a folder: `rt` takes up there what it has kept of them."""

    def __init__(self, folder, crates):
        self.folder = folder
        for crate in (path for path in crates.iterdir() if path.is_dir()):
            for part in PARTS:
                if (crate / part).is_dir():
                    shutil.copytree(crate / part, folder / "crates" / crate.name / part)
        for name in ("crates.txt", "HANDLES"):
            if crates.with_name(name).exists():
                shutil.copy(crates.with_name(name), folder)

    def rt(self, word, crate):
        """A command of `rt` for a crate: its exit status and what it says."""
        done = subprocess.run(["rt", word], cwd=self.folder / "crates" / crate, stdout=subprocess.PIPE, stderr=subprocess.STDOUT, check=False)
        return done.returncode, done.stdout.decode(errors="replace")

    def tried(self, edit):
        """The verdict on an edit, and what the check said."""
        crate = self.folder / "crates" / edit.crate
        before = {change.file: (crate / change.file).read_text(encoding="utf-8") for change in edit.changes}
        try:
            for file, text in edits.edited_files(edit, lambda file: before[file]).items():
                (crate / file).write_text(text, encoding="utf-8")
            status, said = self.rt("check", edit.crate)
        finally:
            for file, text in before.items():
                (crate / file).write_text(text, encoding="utf-8")
        return verdict(status, said), said


class Tally:
    """What became of all edits, told one by one."""

    WORDS = {"taken": "TAKEN: the crate is proved with it", "unread": "NOT READ by the prover", "fact": "refused", "shape": "refused at the proof's shape"}

    def __init__(self):
        self.counts = dict.fromkeys(self.WORDS, 0)
        self.lock = threading.Lock()

    def add(self, name, found, place, seconds):
        with self.lock:
            self.counts[found] += 1
            print(f"{name:58} {self.WORDS[found]} ({place}; {seconds:.0f} s)", flush=True)

    def last_line(self):
        refused = self.counts["fact"] + self.counts["shape"]
        return f"{refused} refused, {self.counts['shape']} of them at the proof's shape; {self.counts['taken']} taken, {self.counts['unread']} not read"


def by_crate(crates, names):
    """The edits of each crate, the crates with most of them first."""
    found = {}
    for crate, label, text in edits.find(crates, names):
        found.setdefault(crate, []).append(edits.parse(crate, label, text))
    return sorted(found.items(), key=lambda pair: -len(pair[1]))


def work(copy, crates, tally):
    """Try the edits of crate after crate, as long as there are some."""
    while True:
        try:
            crate, of_crate = crates.get_nowait()
        except queue.Empty:
            return
        status, said = copy.rt("check", crate)
        if status != 0:
            tally.add(crate, "unread", f"it is not proved as it stands: {first_place(said)}", 0)
            continue
        for edit in of_crate:
            began = time.monotonic()
            found, said = copy.tried(edit)
            tally.add(edit.name, found, first_place(said), time.monotonic() - began)


def main():
    parser = argparse.ArgumentParser(prog="python3 -m tools.refused")
    parser.add_argument("names", nargs="*", metavar="NAME")
    found = by_crate(ROOT / "crates", parser.parse_args().names)
    crates, tally = queue.SimpleQueue(), Tally()
    for pair in found:
        crates.put(pair)
    with tempfile.TemporaryDirectory() as folder:
        copies = [Copy(pathlib.Path(folder, str(number)), ROOT / "crates") for number in range(os.cpu_count() or 1)]
        threads = [threading.Thread(target=work, args=(copy, crates, tally)) for copy in copies]
        for thread in threads:
            thread.start()
        for thread in threads:
            thread.join()
    print(tally.last_line())
    return 1 if tally.counts["taken"] or tally.counts["unread"] else 0


if __name__ == "__main__":
    sys.exit(main())
