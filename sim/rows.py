"""Small random cases with their outcomes, for a comparison by computation: runs are short on purpose.

    python3 -m sim.rows                prints rows: the input's entries, then the record's or the refusal
    python3 -m sim.rows --check FILE   tells whether FILE is what would be printed
"""

import random
import sys
import textwrap

from sim.dispatcher import Dispatcher
from sim.entries import FIELDS, INTERVAL, JOB_DONE, NO_TASK, RELEASE, SKIPPED, SPACING, TASK, Refused, decode, entry_length, release_entry
from sim.files import instant_entries, record
from sim.generate import damage_entries, random_calls
from sim.generate_tables import small_length, some_tasks, task_numbers, with_spacings
from sim.lines import OPTIONAL_TASKS
from sim.sessions import INSTANT, MARK, MARKS, make_call

MOST_TASKS = 4
MOST_RELEASES = 8
MOST_CALLS = 12

# One row in this many has damaged entries.
DAMAGED_EVERY = 5


def _small_table(rng):
    return with_spacings(rng, some_tasks(rng, rng.randint(1, MOST_TASKS), small_length))


def _small_file(rng):
    table = _small_table(rng)
    numbers = task_numbers(table)
    count = rng.randint(0, MOST_RELEASES)
    releases = sorted({(rng.randint(0, 2 * count), rng.choice(numbers)) for _ in range(count)})
    return table + [release_entry(*release) for release in releases]


def outcome(data):
    """('record', bytes) or ('refused', number, place)."""
    try:
        return ("record", record(data))
    except Refused as refused:
        return ("refused", refused.number, refused.place)


def rows(seed, count):
    """A list of (input bytes, outcome)."""
    found = []
    for index in range(count):
        rng = random.Random(f"rows {seed} {index}")
        parts = _small_file(rng)
        if index % DAMAGED_EVERY == DAMAGED_EVERY - 1:
            damage_entries(rng, parts)
        data = b"".join(parts)
        found.append((data, outcome(data)))
    return found


def answer_of(dispatcher, call):
    """The answer of a call: an instant's, a commit's or an enquiry's, None of a mark call, or the refusal."""
    try:
        return make_call(dispatcher, call)
    except Refused as refused:
        return refused


def call_lists(seed, count):
    """A list of (opening bytes, calls); a call is (64, time, set), (65, task, mark) or (68, set, mark)."""
    found = []
    for index in range(count):
        rng = random.Random(f"call rows {seed} {index}")
        table = _small_table(rng)
        found.append((b"".join(table), random_calls(rng, table, rng.randint(1, MOST_CALLS))))
    return found


# The rows that are proved of the definitions, in the prover's notation.

HEADER = """\
-- Small random files and call lists with what the simulator makes of them. Written by `python3 -m sim.rows`; not by hand.
use Rattle.std.specs.Prelude.{List, [], ◌∷◌, ◌++◌}
use Rattle.rules.specs.declared.Call.TheVariants.{Instant, Mark}
use Rattle.plans.specs.Rows.{Row, recorded, refused, answered}
use Rattle.plans.specs.Plans.{task, spacing, release, none, interval, job, skipped}

unfoldable pub runs : List Row
runs =
"""

SEED = 572  # of some hundreds one whose runs have most of what can occur, and tell most wrong orders among equals and every wrong reading of a spacing
FILES = 40
CALL_LISTS = 40
WIDTH = 140

# What stands behind a record in the slice that a row lends, so that a row sees it left alone.
BEHIND = 2

# The name of the definition that gives an entry's bytes from its fields.
NAMES = {TASK: "task", SPACING: "spacing", RELEASE: "release", JOB_DONE: "job", INTERVAL: "interval", SKIPPED: "skipped"}


def number_list(values):
    return "(" + "".join(f"{value} ∷ " for value in values) + "[])"


def entry_term(entry):
    kind, fields = entry[0], decode(entry)
    if kind == RELEASE:  # a plan's release is (time, task)
        fields = reversed(fields)
    absent = OPTIONAL_TASKS.get(kind, ())
    values = ("none" if value == NO_TASK and index in absent else str(value) for index, value in enumerate(fields))
    return " ".join([NAMES[kind], *values])


def bytes_term(data):
    """Whole entries by their fields; what no entry begins, as after a damage, byte by byte."""
    terms = []
    while data and data[0] in FIELDS and len(data) >= entry_length(FIELDS[data[0]]):
        length = entry_length(FIELDS[data[0]])
        terms.append(entry_term(data[:length]))
        data = data[length:]
    if not terms:
        return number_list(data)
    if data:
        terms.append(number_list(data))
    return "(" + " ++ ".join(terms) + ")"


def file_row(data, result):
    if result[0] == "record":
        size = len(result[1])
        return f"recorded {bytes_term(data)} {bytes_term(result[1])} {size} {size + BEHIND}"
    return f"refused {bytes_term(data)} {BEHIND} {result[1]} {result[2] or 0}"


def call_term(call):
    name = {INSTANT: "Instant", MARK: "Mark", MARKS: "Marks"}[call[0]]
    return f"{name} {call[1]} {call[2]}"


def call_row(opening, calls):
    """The numbers of the opening and of each answer, and the record's bytes of what the calls made happen."""
    dispatcher = Dispatcher.open(opening)
    numbers, record_bytes = [0, 0], b""
    for call in calls:
        answer = answer_of(dispatcher, call)
        if isinstance(answer, Refused):
            numbers.append(answer.number)
        elif answer is None:
            numbers.append(0)
        else:
            numbers += [0, answer.skipped] + ([] if answer.due is None else [answer.due])
            record_bytes += b"".join(instant_entries(call[1], answer))
    return f"answered {bytes_term(opening)} {number_list(map(call_term, calls))} {number_list(numbers)} {bytes_term(record_bytes)}"


def row_lines(row):
    """A row in lines that are no longer than a definition's may be."""
    return textwrap.fill(f"{row} ∷", WIDTH, initial_indent=" " * 4, subsequent_indent=" " * 4, break_long_words=False, break_on_hyphens=False) + "\n"


def antt():
    files = [file_row(data, result) for data, result in rows(SEED, FILES)]
    lists = [call_row(opening, calls) for opening, calls in call_lists(SEED, CALL_LISTS)]
    return HEADER + "".join(map(row_lines, files + lists)) + "    []\n"


def main():
    if len(sys.argv) == 3 and sys.argv[1] == "--check":
        with open(sys.argv[2], encoding="utf-8") as file:
            if file.read() != antt():
                sys.exit(f"{sys.argv[2]} is not what `python3 -m sim.rows` writes")
        print(f"{sys.argv[2]} is what the simulator gives")
    elif len(sys.argv) == 1:
        sys.stdout.write(antt())
    else:
        sys.exit("usage: python3 -m sim.rows [--check FILE]")


if __name__ == "__main__":
    main()
