"""The wire format: one byte of kind, then a body whose length the kind fixes, lowest byte first.

This is the only place that knows the fields of each kind of entry.
"""

TASK = 1
RELEASE = 2
SPACING = 3
JOB_DONE = 16
INTERVAL = 17
SKIPPED = 18

NO_TASK = 255

# Where a program's input has two parts, this many bytes in front tell the length of the first.
LENGTH_BYTES = 4

# The length in bytes of each field of a kind's body, in body order.
FIELDS = {
    TASK: (1, 1, 1, 4, 4, 4),
    RELEASE: (1, 8),
    SPACING: (1, 4),
    JOB_DONE: (1, 8, 8, 8, 1),
    INTERVAL: (8, 8, 1, 1, 1, 1, 1, 1, 1),
    SKIPPED: (1, 8),
}


class Refused(Exception):
    """A refusal: its number, and the place or the needed length where document 01 names one."""

    def __init__(self, number, place=None):
        super().__init__(f"refusal {number} at {place}")
        self.number = number
        self.place = place


def entry_length(sizes):
    """The length of an entry with these fields, its kind byte included."""
    return 1 + sum(sizes)


def encode(kind, *fields, formats=FIELDS):
    """One entry's bytes."""
    sizes = formats[kind]
    if len(fields) != len(sizes):
        raise ValueError(f"kind {kind} has {len(sizes)} fields, not {len(fields)}")
    body = (value.to_bytes(size, "little") for value, size in zip(fields, sizes))
    return bytes([kind]) + b"".join(body)


def decode(entry, formats=FIELDS):
    """The fields of one whole entry."""
    fields = []
    at = 1
    for size in formats[entry[0]]:
        fields.append(int.from_bytes(entry[at:at + size], "little"))
        at += size
    return tuple(fields)


def entries(data, kinds, formats=FIELDS):
    """Yield (place, kind, fields) for each entry, refusing a wrong kind by 2 and a cut entry by 1.

    Lazy on purpose: whoever consumes it checks an entry's fields before the next entry is looked at,
    so the first refusal is the one of the first bad entry.
    """
    place = 0
    while place < len(data):
        kind = data[place]
        if kind not in kinds:
            raise Refused(2, place)
        end = place + entry_length(formats[kind])
        if end > len(data):
            raise Refused(1, place)
        yield place, kind, decode(data[place:end], formats)
        place = end


def task_entry(number, priority, mark, copy_in, execution, copy_out):
    return encode(TASK, number, priority, mark, copy_in, execution, copy_out)


def release_entry(time, task):
    """A release; the arguments are in document 01's order for plans, (time, task)."""
    return encode(RELEASE, task, time)


def spacing_entry(task, ticks):
    return encode(SPACING, task, ticks)


def two_parts(first, second):
    """A program's input of two parts: the length of the first, lowest byte first, then both."""
    return len(first).to_bytes(LENGTH_BYTES, "little") + first + second


def parts_of(data):
    """The two parts of a program's input, or None where the length or the first part is cut short."""
    behind = LENGTH_BYTES + int.from_bytes(data[:LENGTH_BYTES], "little")
    if len(data) < LENGTH_BYTES or len(data) < behind:
        return None
    return data[LENGTH_BYTES:behind], data[behind:]
