"""The simulator as a program: input on standard input.

    python3 -m sim file     prints the lines of an input file
    python3 -m sim record   writes the record's bytes; a refused input writes none and ends with status 1
    python3 -m sim session  prints the lines of a session
    python3 -m sim read     prints the releases that made a stored record
    python3 -m sim waveform writes the value change dump; a refused input writes none and ends with status 1
"""

import sys

from sim.entries import Refused
from sim.files import record
from sim.lines import file_lines, refusal_line, text
from sim.reading import read_lines
from sim.sessions import session_lines
from sim.waveform import dump

WRITTEN = {"record": record, "waveform": dump}
PRINTED = {"file": file_lines, "session": session_lines, "read": read_lines}


def main(arguments):
    if len(arguments) != 1 or arguments[0] not in (*WRITTEN, *PRINTED):
        sys.stderr.write(__doc__)
        return 2
    data = sys.stdin.buffer.read()
    if arguments[0] in WRITTEN:
        try:
            sys.stdout.buffer.write(WRITTEN[arguments[0]](data))
        except Refused as refused:
            sys.stderr.write(refusal_line(refused) + "\n")
            return 1
        return 0
    sys.stdout.write(text(PRINTED[arguments[0]](data)))
    return 0


if __name__ == "__main__":
    sys.exit(main(sys.argv[1:]))
