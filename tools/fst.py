"""Dumps turned into GTKWave's own format and back, and what is shown held to what was shown before, tick by tick. It is not part of the gate: it
needs `vcd2fst` and `fst2vcd`, which Debian's package gtkwave has, and the built program.

    python3 -m tools.fst [COUNT]    with so many random inputs, 200 if none is named
"""

import pathlib
import random
import re
import shutil
import subprocess
import sys
import tempfile

from sim import generate
from sim.entries import Refused
from sim.files import read_file

PROGRAM = pathlib.Path(__file__).resolve().parents[1] / "target/bin/waveform"
VARIABLE = re.compile(r"\$var\s+\S+\s+(\d+)\s+(\S+)\s+(\S+).*?\$end", re.DOTALL)


def changes(text):
    """The values of a dump by name, each where it changes: {name: {time: value}}."""
    head, body = re.split(r"\$enddefinitions\s+\$end", text, maxsplit=1)
    names = {code: name for _, code, name in VARIABLE.findall(head)}
    seen, time, words = {name: {} for name in names.values()}, 0, iter(body.split())
    for word in words:
        if word[0] == "#":
            time = int(word[1:])
        elif word[0] == "b":
            seen[names[next(words)]][time] = int(word[1:], 2)
        elif word[0] in "01":
            seen[names[word[1:]]][time] = int(word[0])
    return seen


def shown(seen, ticks):
    """The values at some ticks, rising."""
    found = []
    for tick in ticks:
        found.append({name: next((value for time, value in sorted(values.items(), reverse=True) if time <= tick), None)
                      for name, values in seen.items()})
    return found


def there_and_back(dump, folder):
    """A dump, through the other format."""
    before, packed, after = (folder / name for name in ("before.vcd", "packed.fst", "after.vcd"))
    before.write_bytes(dump)
    subprocess.run(["vcd2fst", str(before), str(packed)], check=True, capture_output=True)
    return subprocess.run(["fst2vcd", str(packed)], check=True, capture_output=True).stdout.decode()


def main(words):
    if shutil.which("vcd2fst") is None or not PROGRAM.exists():
        print("tools.fst: it needs vcd2fst, of Debian's package gtkwave, and target/bin/waveform", file=sys.stderr)
        return 2
    count, tried, differ = int(words[0]) if words else 200, 0, 0
    with tempfile.TemporaryDirectory() as folder:
        for index in range(count):
            data = generate.random_file(random.Random(f"fst-{index}"))
            try:
                read_file(data)
            except Refused:
                continue
            dump = subprocess.run([str(PROGRAM)], input=data, check=True, capture_output=True).stdout
            ours, theirs = changes(dump.decode()), changes(there_and_back(dump, pathlib.Path(folder)))
            ticks = sorted({tick for values in ours.values() for time in values for tick in (time - 1, time, time + 1) if tick >= 0})
            tried += 1
            if shown(ours, ticks) != shown(theirs, ticks):
                differ += 1
                print(f"fst-{index}: another value is shown")
    print(f"{tried} compared, {differ} differ")
    return 1 if differ or not tried else 0


if __name__ == "__main__":
    sys.exit(main(sys.argv[1:]))
