"""Compare a program with the simulator, byte for byte, on random inputs.

    python3 -m sim.compare session --program PATH --seed 1 --count 2000 --damaged 500
    python3 -m sim.compare file    --program PATH --seed 1 --count 2000 --damaged 2000
    python3 -m sim.compare record  --program PATH ...   (a program that writes the record's raw bytes)
    python3 -m sim.compare read    --program PATH ...   (a program that reads a stored record)
    python3 -m sim.compare waveform --program PATH ...  (a program that writes a value change dump)

An input is fixed by what is compared, the seed and its index, so a longer comparison begins with the
inputs of a shorter one.
"""

import argparse
import pathlib
import random
import shlex
import subprocess
import sys
import tempfile

from sim import generate, generate_records
from sim.entries import Refused
from sim.files import record
from sim.lines import file_lines, text
from sim.reading import read_lines
from sim.sessions import session_lines
from sim.waveform import dump

SECONDS_EACH = 20

# After this many differences more of them tell nothing new.
MOST_DIFFERENCES = 5

# A status above this is a panic or a signal, and not an answer.
LAST_ORDERLY_STATUS = 100


def expected_file(data):
    return text(file_lines(data)).encode()


def expected_session(data):
    return text(session_lines(data)).encode()


def expected_read(data):
    return text(read_lines(data)).encode()


def expected_record(data):
    try:
        return record(data)
    except Refused:
        return b""


def expected_waveform(data):
    try:
        return dump(data)
    except Refused:
        return b""


EXPECTED = {"file": expected_file, "session": expected_session, "record": expected_record, "read": expected_read,
            "waveform": expected_waveform}

GOOD = {"file": generate.random_file, "session": generate.random_session, "record": generate.random_file,
        "read": generate_records.random_stored, "waveform": generate.random_file}

DAMAGED = {"file": generate.damaged_file, "session": generate.damaged_session, "record": generate.damaged_file,
           "read": generate_records.damaged_stored, "waveform": generate.damaged_file}


def inputs(what, seed, count, damaged):
    """Yield (name, input bytes)."""
    for label, make, number in (("good", GOOD[what], count), ("damaged", DAMAGED[what], damaged)):
        for index in range(number):
            name = f"{what}-{seed}-{label}-{index}"
            yield name, make(random.Random(name))


def run_program(command, data):
    """The program's output, and what went wrong with its run or None."""
    try:
        done = subprocess.run(command, input=data, stdout=subprocess.PIPE, stderr=subprocess.PIPE,
                              timeout=SECONDS_EACH, check=False)
    except subprocess.TimeoutExpired as expired:
        return expired.stdout or b"", f"no end within {SECONDS_EACH} s"
    orderly = 0 <= done.returncode <= LAST_ORDERLY_STATUS
    return done.stdout, None if orderly else f"status {done.returncode}: {done.stderr[-300:].decode(errors='replace')}"


def first_difference(expected, printed):
    """The first line in which the outputs differ, as (line number, simulator's, program's)."""
    ours, theirs = expected.split(b"\n"), printed.split(b"\n")
    for index in range(max(len(ours), len(theirs))):
        one = ours[index] if index < len(ours) else None
        other = theirs[index] if index < len(theirs) else None
        if one != other:
            return index + 1, one, other
    return None


def shown(line):
    return "(none)" if line is None else repr(line[:120])


def report(what, name, data, expected, printed, trouble, folder):
    path = folder / f"{name}.bin"
    path.write_bytes(data)
    print(f"DIFFERS {name}: input of {len(data)} bytes in {path}")
    if trouble:
        print(f"  the program: {trouble}")
    if what == "record":
        same = next((at for at, (one, other) in enumerate(zip(expected, printed)) if one != other),
                    min(len(expected), len(printed)))
        print(f"  lengths {len(expected)} and {len(printed)}, alike up to byte {same}")
        return
    difference = first_difference(expected, printed)
    if difference:
        number, ours, theirs = difference
        print(f"  line {number}, simulator: {shown(ours)}")
        print(f"  line {number}, program:   {shown(theirs)}")


def compare(what, command, seed, count, damaged, folder):
    """Return (how many were compared, how many differ)."""
    compared = differ = 0
    for name, data in inputs(what, seed, count, damaged):
        expected = EXPECTED[what](data)
        printed, trouble = run_program(command, data)
        compared += 1
        if trouble or printed != expected:
            differ += 1
            report(what, name, data, expected, printed, trouble, folder)
            if differ == MOST_DIFFERENCES:
                print("stopped: enough differences")
                break
    return compared, differ


def main(arguments=None):
    parser = argparse.ArgumentParser(description="Compare a program with the simulator on random inputs.")
    parser.add_argument("what", choices=sorted(EXPECTED))
    parser.add_argument("--program", required=True, help="the program's command line")
    parser.add_argument("--seed", default="1")
    parser.add_argument("--count", type=int, default=2000, help="how many inputs that are in order")
    parser.add_argument("--damaged", type=int, default=0, help="how many damaged inputs")
    parser.add_argument("--keep", type=pathlib.Path, default=pathlib.Path(tempfile.gettempdir()),
                        help="the folder for inputs that differ")
    chosen = parser.parse_args(arguments)
    print(f"{chosen.what}: seed {chosen.seed}, {chosen.count} good and {chosen.damaged} damaged inputs")
    compared, differ = compare(chosen.what, shlex.split(chosen.program), chosen.seed, chosen.count,
                               chosen.damaged, chosen.keep)
    print(f"{compared} compared, {differ} differ")
    return 1 if differ else 0


if __name__ == "__main__":
    sys.exit(main())
