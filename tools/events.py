"""The lines that the programs print, taken apart: the name of each event and of each of its fields."""

import json
from typing import NamedTuple

from sim.dispatcher import IntervalClosed, JobDone

WORK = ("idle", "execute", "copy in and execute")
FATES = ("none", "done", "cancelled", "thrown out")


class Skip(NamedTuple):
    task: int
    time: int


class Refusal(NamedTuple):
    number: int
    place: int


SHAPES = {"J": ("job done", JobDone), "I": ("interval ended", IntervalClosed), "S": ("release skipped", Skip), "R": ("refused", Refusal)}
IN_WORDS = {"work": WORK, "fate": FATES}


def event(line):
    """A line of a program as (letter, fields by name)."""
    letter, *words = line.split()
    _, shape = SHAPES[letter]
    return letter, shape(*(None if word == "-" else int(word) for word in words))


def as_object(line):
    """An event as JSON has it: None for no task, work and fate in words."""
    letter, fields = event(line)
    return {"event": SHAPES[letter][0], **{name: IN_WORDS[name][value] if name in IN_WORDS else value for name, value in fields._asdict().items()}}


def json_line(line):
    return json.dumps(as_object(line)) + "\n"
