"""Measure whether the wrong programs of the must-fail edits are wrong.

    python3 -m tools.measure [NAME..]        NAME is a crate, or an edit as CRATE/LABEL
    python3 -m tools.measure --gate          those that the gate tries

Each edit of code is made to a copy of the sources, and the programs are run with no proof (tools/unproved.py): what those that reach the edit's crate
write is compared with the simulator: on random and damaged inputs, on inputs at the limits, and for some functions in direct calls. An
edit with no result that differs needs a line `why:` in its file, which says why the promise that it breaks is for other states than
those that inputs and calls make. An edit of a statement changes no program: the statement is tried on the simulator's histories, and one
that no run breaks needs such a line too (tools/statements.py).
"""

import argparse
import functools
import os
import pathlib
import queue
import random
import sys
import tempfile
import threading
from concurrent.futures import ThreadPoolExecutor
from typing import NamedTuple

from sim.compare import EXPECTED, inputs
from sim.entries import Refused, parts_of, release_entry
from sim.files import record
from sim.lines import refusal_line
from sim.reading import read
from sim.waveform import dump
from tools import direct, edits, limits, statements
from tools.harness import BEHIND
from tools.unproved import RUNS, NotBuilt, Workshop

ROOT = pathlib.Path(__file__).resolve().parents[1]

SEED = 1

# What is laid into the lent slice.
FILL = b"\xa5"

# By how many bytes the lent slices are longer than the record that is to go into them.
SPARE = (-1, 0, 1, 400)


# What is compared: pairs of an input and what the simulator writes for it.

def record_of(data):
    """The record function on an input: what it writes, or the refusal, with the length of a lent slice."""
    return lambda lent=None: record(data, lent)


def list_of(tasks, stored):
    """The function that reads a record, in the same way."""
    return lambda lent=None: b"".join(release_entry(*release) for release in read(tasks, stored, lent))


def dump_of(data):
    """The function of waveforms, in the same way."""
    return lambda lent=None: dump(data, lent)


def told(write, room):
    """What is written for a function for C: its number, the value that it tells, and the lent bytes."""
    memory = FILL * (room + BEHIND)
    try:
        written = write(room)
    except Refused as refused:
        return bytes([refused.number]) + (refused.place or 0).to_bytes(8, "little") + memory
    return bytes([0]) + len(written).to_bytes(8, "little") + written + memory[len(written):]


def lent(write, spare):
    """A slice about as long as what a function writes, and what is written for it."""
    try:
        room = max(0, len(write()) + spare)
    except Refused:
        room = spare % 50
    return room.to_bytes(8, "little"), told(write, room)


def exported(files, stored):
    """The inputs of the functions for C."""
    calls = [(bytes([0]), data, record_of(data)) for data in files]
    calls += [(bytes([1]), data, list_of(*parts_of(data))) for data in stored if parts_of(data) is not None]
    calls += [(bytes([2]), data, dump_of(data)) for data in files]
    for index, (which, data, write) in enumerate(calls):
        room, expected = lent(write, SPARE[index % len(SPARE)])
        yield which + room + data, expected


def waveform(data):
    """What the program of waveforms writes, and where the input is refused what it says."""
    try:
        return dump(data)
    except Refused as refused:
        return f"waveform: the input is refused: {refusal_line(refused)}\n".encode()


# The kind of input that a program has, and its inputs at the limits.
KINDS = {
    "gateway": ("file", limits.files), "session": ("session", limits.sessions), "instants": ("session", limits.sessions),
    "reader": ("read", limits.stored_records), "waveform": ("waveform", limits.files)}

# What a program writes for an input of its kind, where that is more than a comparison with the simulator looks at.
WRITES = {**EXPECTED, "waveform": waveform}


@functools.cache
def given(program, count):
    """The inputs of a program that has them."""
    kind, more = KINDS[program]
    return [data for _, data in inputs(kind, SEED, count, count)] + more()


def cases(program, count):
    """The inputs of one program, with what is expected."""
    if program == "direct":
        return direct.cases(SEED)
    if program == "exports":
        return list(exported(given("gateway", count), given("reader", count)))
    kind, _ = KINDS[program]
    return [(data, WRITES[kind](data)) for data in given(program, count)]


class Results(NamedTuple):
    """Of a program's runs: how many were made, how many are not as expected, and how many of those crashed or were late."""

    program: str
    made: int
    differ: int
    crashed: int
    late: int


def tally(runs):
    """The results of each program, of runs as (program, number, how it went)."""
    counts = {}
    for program, _, how in runs:
        made, differ, crashed, late = counts.get(program, (0, 0, 0, 0))
        counts[program] = (made + 1, differ + (how != "expected"), crashed + (how == "crashed"), late + (how == "late"))
    return [Results(program, *counts[program]) for program in RUNS if program in counts]


class Bench:
    """The programs' inputs in a folder, with what is expected for each, in an order in which those of all programs are mixed."""

    def __init__(self, folder, count):
        self.folder, self.made, self.lock = folder, set(), threading.Lock()
        found = [(program, number, *case) for program in RUNS for number, case in enumerate(cases(program, count))]
        random.Random(SEED).shuffle(found)
        self.names = {program: [] for program in RUNS}
        (folder / "all").mkdir()
        for rank, (program, number, data, expected) in enumerate(found):
            path = folder / "all" / f"{rank:06}-{program}-{number}"
            for ending, text in (("", data), (".args", f"{program}\n".encode()), (".stdout", expected)):
                path.with_name(path.name + ending).write_bytes(text)
                self.names[program].append(path.name + ending)

    def cases(self, programs, part=0, parts=1):
        """A folder with the cases of some programs, or with one part of them."""
        with self.lock:
            folder = self.folder / f"{'-'.join(programs)} {part} of {parts}"
            if folder not in self.made:
                folder.mkdir()
                for name in (name for program in programs for name in self.names[program]):
                    if int(name.split("-")[0]) % parts == part:
                        os.link(self.folder / "all" / name, folder / name)
                self.made.add(folder)
            return folder


# What is said of each edit.

def summed(all_results):
    """Of how many runs how many differ, and in which programs."""
    made, differ = (sum(getattr(results, name) for results in all_results) for name in ("made", "differ"))
    parts = [f"{results.program} {results.differ}" for results in all_results if results.differ]
    for word in ("crashed", "late"):
        number = sum(getattr(results, word) for results in all_results)
        parts += [f"{number} {word}"] if number else []
    return f"{differ:5} of {made:5} differ" + (f": {', '.join(parts)}" if parts else "")


def judged(all_results, why):
    """The kind of an edit ('differs', 'reason' or 'error') and what is said of it."""
    said = summed(all_results)
    if any(results.differ for results in all_results):
        return ("error", f"{said}; and yet it has a line 'why:'") if why else ("differs", said)
    return ("reason", f"{said}: {why}") if why else ("error", f"{said}: NOT SEEN TO BE WRONG, and it has no line 'why:'")


def measured(edit, workshop, bench, briefly=False):
    """Run what an edit makes of the programs that it may change, or only as many runs as it takes to see that it is wrong."""
    files = edits.edited_files(edit, lambda file: workshop.original(edit.crate, file))
    programs = workshop.reached(edit.crate)
    if not programs:
        return []
    workshop.put(edit.crate, files)
    try:
        return tally(workshop.run(bench.cases(programs), briefly))
    finally:
        workshop.put(edit.crate, {file: workshop.original(edit.crate, file) for file in files})


def of_program(edit, workshops, bench, briefly):
    """The kind of an edit of code and what is said of it. One workshop is taken for it, and put back."""
    workshop = workshops.get()
    try:
        return judged(measured(edit, workshop, bench, briefly), edit.why)
    except edits.BadEdit as bad:
        return "error", f"BAD EDIT: {bad}"
    except NotBuilt as bad:
        return "error", f"DOES NOT BUILD: {bad}"
    finally:
        workshops.put(workshop)


def of_statement(edit, original):
    """The kind of an edit of a statement and what is said of it."""
    return statements.judged(edit, edits.edited_files(edit, lambda file: original(edit.crate, file)), original)


def of_edits(found, workshops, bench, briefly, original):
    """The name of each edit, its kind and what is said of it. Those of code are run beside each other."""
    with ThreadPoolExecutor(workshops.qsize()) as pool:
        waiting = []
        for crate, label, text in found:
            try:
                edit = edits.parse(crate, label, text)
                is_statement = edits.is_statement(edit, lambda file, crate=crate: original(crate, file))
                made = functools.partial(of_statement, edit, original) if is_statement else pool.submit(of_program, edit, workshops, bench, briefly).result
            except edits.BadEdit as bad:
                made = functools.partial(lambda bad: ("error", f"BAD EDIT: {bad}"), bad)
            waiting.append((f"{crate}/{label}", made))
        for name, made in waiting:
            yield name, *made()


def as_they_stand(made, bench):
    """Hold the programs and the claim as they stand to the simulator: what differs there is no edit's doing. Each workshop makes a part of the runs."""
    with ThreadPoolExecutor(len(made)) as pool:
        parts = [pool.submit(lambda part: list(made[part].run(bench.cases(RUNS, part, len(made)))), part) for part in range(len(made))]
        all_results = tally(run for part in parts for run in part.result())
    print(f"the programs as they stand: {summed(all_results).strip()}", flush=True)
    good = sum(results.made for results in all_results) == sum(map(len, bench.names.values())) // 3 and not any(results.differ for results in all_results)
    return statements.as_they_stand(made[0].original) and good


def chosen_edits(names):
    """The edits that names choose; a name that chooses none is a mistake."""
    unknown = [name for name in names if not any(edits.find(ROOT / "crates", [name]))]
    if unknown:
        sys.exit(f"no crate or edit has the name {unknown[0]}, or it has no edit")
    return list(edits.find(ROOT / "crates", names))


def measure_all(found, workshops, bench, briefly, original):
    """Print a line for each edit and a summary, and answer whether all is as it should be."""
    width = max((len(f"{crate}/{label}") for crate, label, _ in found), default=0)
    kinds = []
    for name, kind, said in of_edits(found, workshops, bench, briefly, original):
        kinds.append(kind)
        print(f"{name:{width}}  {said}", flush=True)
    counts = {kind: kinds.count(kind) for kind in ("differs", "reason", "statement", "error")}
    print(f"{counts['differs']} wrong programs differ, {counts['reason']} with a reason why none does, "
          f"{counts['statement']} statements broken, {counts['error']} errors")
    return not counts["error"]


def main(arguments=None):
    parser = argparse.ArgumentParser(description="Measure whether the wrong programs of the must-fail edits are wrong.")
    parser.add_argument("names", nargs="*", metavar="NAME", help="a crate, or an edit as CRATE/LABEL; all if there is none")
    parser.add_argument("--gate", action="store_true", help="those that the gate tries, each until a program shows that it is wrong")
    parser.add_argument("--briefly", action="store_true", help="each until a program shows that it is wrong")
    parser.add_argument("--count", type=int, default=300, help="how many random and how many damaged inputs each program gets")
    chosen = parser.parse_args(arguments)
    found = list(edits.find(ROOT / "crates", folders=("must-fail",))) if chosen.gate else chosen_edits(chosen.names)
    with tempfile.TemporaryDirectory() as folder:
        (pathlib.Path(folder) / "runs").mkdir()
        try:
            workshops = queue.SimpleQueue()
            made = [Workshop(ROOT, pathlib.Path(folder) / f"sources{number}") for number in range(os.cpu_count() or 1)]
            for workshop in made:
                workshops.put(workshop)
            bench = Bench(pathlib.Path(folder) / "runs", chosen.count)
            good = as_they_stand(made, bench) and measure_all(found, workshops, bench, chosen.gate or chosen.briefly, made[0].original)
        except NotBuilt as bad:
            sys.exit(f"the programs cannot be built: {bad}")
    return 0 if good else 1


if __name__ == "__main__":
    sys.exit(main())
