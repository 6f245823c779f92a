"""The printed lines: J, I and S for kinds 16, 17 and 18; R for a refused input."""

from sim.entries import INTERVAL, JOB_DONE, NO_TASK, SKIPPED, Refused, entries
from sim.files import record

LETTERS = {JOB_DONE: "J", INTERVAL: "I", SKIPPED: "S"}

# The fields of kind 17 in which 255 is "no task": the processor's, copied out, chosen, promoted.
OPTIONAL_TASKS = {JOB_DONE: (), INTERVAL: (3, 5, 6, 8), SKIPPED: ()}


def line(kind, fields):
    """One entry's line: its letter, then its fields in body order."""
    words = [LETTERS[kind]]
    for index, value in enumerate(fields):
        no_task = value == NO_TASK and index in OPTIONAL_TASKS[kind]
        words.append("-" if no_task else str(value))
    return " ".join(words)


def record_lines(record_bytes):
    return [line(kind, fields) for _, kind, fields in entries(record_bytes, kinds=LETTERS)]


def refusal_line(refused):
    """A refused input or opening: the number and the place, 0 where there is none."""
    return f"R {refused.number} {refused.place or 0}"


def file_lines(data):
    """What the file program prints for an input."""
    try:
        return record_lines(record(data))
    except Refused as refused:
        return [refusal_line(refused)]


def text(lines):
    return "".join(each + "\n" for each in lines)
