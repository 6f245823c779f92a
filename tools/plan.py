"""Plan files: the one place that reads them. A plan file has a line for each entry, in the order of the input:

    task NUMBER PRIORITY MARK L C U
    spacing TASK TICKS
    release TIME TASK

Blank lines and what stands behind a # do not count. Every mistake is found in one reading, in the order in which the gateway looks for them:
the first that has a number is the gateway's own refusal. Reading stops where no later line can matter: at one release more than there may be.
"""

from dataclasses import dataclass, field
from typing import NamedTuple, Optional

from sim.dispatcher import LAST_RELEASE_TIME
from sim.entries import FIELDS, RELEASE, SPACING, TASK, encode
from sim.files import MOST_RELEASES
from sim.table import HEAD_KINDS, LAST_TASK, LENGTH_LIMIT, LONGEST_SPACING, Task
from tools.files import lines_of
from tools.output import Rejected, named, shown

MOST_DIGITS = len(str(2**64 - 1))  # of the widest field
LONGEST_LINE = 4_096
MOST_MISTAKES = 1_000  # then the reading stops: a file of some other kind is not read to its end

# Each line's first word, its entry's kind, and the names of its fields, as the line has them.
SHAPES = {"task": (TASK, ("number", "priority", "mark", "L", "C", "U")), "spacing": (SPACING, ("task", "ticks")),
          "release": (RELEASE, ("time", "task"))}

# The fields of an entry whose line has them in another order, as the entry has them.
BODY_ORDER = {RELEASE: ("task", "time")}


class Mistake(NamedTuple):
    line: Optional[int]
    number: Optional[int]  # of the refusal; None where the line is no entry
    text: str

    def __str__(self):
        where = "" if self.line is None else f"line {self.line}: "
        return f"{where}{self.text}" + ("" if self.number is None else f" (refusal {self.number})")


class Entry(NamedTuple):
    line: int
    kind: int
    values: dict  # by the names of the line's fields
    data: bytes
    text: str  # the line without comment and needless blanks


class NoEntry(Exception):
    """Why a line is none."""


def number_in(word, name, width):
    """One field's value."""
    if not (word.isascii() and word.isdigit()):
        raise NoEntry(f"{name} is '{shown(word)}', not a whole number")
    if len(word) > MOST_DIGITS:  # Python itself takes no number of some thousand digits
        raise NoEntry(f"{name} has {len(word)} digits, over {MOST_DIGITS}")
    if int(word) >= 256**width:
        raise NoEntry(f"{name} is {int(word)}, over {256**width - 1}")
    return int(word)


def entry(line, words):
    """The entry of one line's words."""
    if words[0] not in SHAPES:
        raise NoEntry(f"'{shown(words[0])}' is none of 'task', 'spacing' and 'release'")
    kind, names = SHAPES[words[0]]
    if len(words) != len(names) + 1:
        raise NoEntry(f"'{words[0]}' takes {len(names)} numbers ({' '.join(names)}), and here are {len(words) - 1}")
    body = BODY_ORDER.get(kind, names)
    widths = dict(zip(body, FIELDS[kind]))
    values = {name: number_in(word, name, widths[name]) for name, word in zip(names, words[1:])}
    return Entry(line, kind, values, encode(kind, *(values[name] for name in body)), " ".join(words))


@dataclass
class Plan:
    """What was read of a plan file: its entries, and what is wrong with them."""
    path: str
    entries: list = field(default_factory=list)
    mistakes: list = field(default_factory=list)

    @property
    def data(self):
        """The input that the entries make."""
        return b"".join(each.data for each in self.entries)

    def of_kind(self, kind):
        return [each for each in self.entries if each.kind == kind]

    @property
    def tasks(self):
        return self.of_kind(TASK)

    @property
    def head(self):
        """The tasks and spacings: what a dispatcher opens from, and a record is read with."""
        return [each for each in self.entries if each.kind in HEAD_KINDS]

    @property
    def table(self):
        """The tasks by number, as the simulator has them."""
        spacings = dict(each.values.values() for each in self.of_kind(SPACING))
        return {each.values["number"]: Task(*each.values.values(), spacings.get(each.values["number"])) for each in self.tasks}

    @property
    def releases(self):
        """The releases (time, task)."""
        return [tuple(each.values.values()) for each in self.of_kind(RELEASE)]

    def line_at(self, place, entries=None):
        """The number of the line whose entry begins at a place of the input, or of some entries alone; or None."""
        at = 0
        for each in self.entries if entries is None else entries:
            if at == place:
                return each.line
            at += len(each.data)
        return None

    def told(self, mistakes=None):
        """The mistakes, a line each."""
        return "\n".join(f"{named(self.path)}: {each}" for each in (self.mistakes if mistakes is None else mistakes))

    def unreadable(self):
        """Whether some line is no entry, so that there is no input."""
        return any(mistake.number is None and mistake.line is not None for mistake in self.mistakes)


# What is wrong with an entry, as (number, text), in the order of the gateway's checks.

class Checks:
    """The entries so far, as far as the next ones are held against them. Where the head alone is wanted, releases are passed over."""

    def __init__(self, head_alone):
        self.head_alone = head_alone
        self.numbers, self.spacings = {}, {}  # of each task with the line
        self.first_release, self.last, self.count = None, None, 0

    def of(self, each):
        if each.kind == TASK:
            return self.of_task(each)
        if each.kind == SPACING:
            return self.of_spacing(each)
        return () if self.head_alone else self.of_release(each)

    def after_a_release(self, name):
        if self.first_release is not None:
            yield 3, f"a {name} after a release: the first release is in line {self.first_release}"

    def of_task(self, each):
        number, _, mark, *lengths = each.values.values()
        yield from self.after_a_release("task")
        if self.first_release is None and self.spacings:
            yield 3, f"a task after a spacing: the first spacing is in line {min(self.spacings.values())}"
        if number > LAST_TASK:
            yield 4, f"task number {number} is over {LAST_TASK}"
        elif number in self.numbers:
            yield 4, f"task number {number} is given before, in line {self.numbers[number]}"
        if mark > 1:
            yield 6, f"mark is {mark}, over 1"
        for name, length in zip(("L", "C", "U"), lengths):
            if not 1 <= length <= LENGTH_LIMIT:
                yield 7, f"{name} is {length}, outside 1 to {LENGTH_LIMIT}"
        self.numbers.setdefault(number, each.line)

    def of_spacing(self, each):
        task, spacing = each.values.values()
        yield from self.after_a_release("spacing")
        if task not in self.numbers:
            yield 8, f"a spacing of task {task}, which is not in the table"
        if not 1 <= spacing <= LONGEST_SPACING:
            yield 19, f"the spacing of task {task} is {spacing}, outside 1 to {LONGEST_SPACING}"
        if task in self.spacings:
            yield 19, f"a second spacing of task {task}: the first is in line {self.spacings[task]}"
        self.spacings.setdefault(task, each.line)

    def of_release(self, each):
        time, task = each.values.values()
        if task not in self.numbers:
            yield 8, f"a release of task {task}, which is not in the table"
        if time > LAST_RELEASE_TIME:
            yield 10, f"release time {time} is over {LAST_RELEASE_TIME}"
        if self.last is not None and (time, task) <= self.last[:2]:
            yield 9, f"the release of task {task} at {time} is not after that of task {self.last[1]} at {self.last[0]} in line {self.last[2]}"
        self.count += 1
        if self.count > MOST_RELEASES:
            yield 11, f"a {MOST_RELEASES + 1}th release; nothing behind it is read"
        self.last = (time, task, each.line)
        if self.first_release is None:
            self.first_release = each.line


def read_plan(path, head_alone=False):
    """A plan file, - for standard input, with every mistake in it, or in its tasks and spacings alone."""
    plan, checks = Plan(path), Checks(head_alone)
    for number, line in enumerate(lines_of(path, LONGEST_LINE), 1):
        if len(line) > LONGEST_LINE + 1 and "#" not in line:
            plan.mistakes.append(Mistake(number, None, f"it has more than {LONGEST_LINE} letters; nothing behind it is read"))
            break
        add_line(plan, checks, number, line)
        if checks.count > MOST_RELEASES or len(plan.mistakes) >= MOST_MISTAKES:
            break
    if len(plan.mistakes) >= MOST_MISTAKES:
        plan.mistakes.append(Mistake(None, None, f"so many mistakes that nothing behind line {number} is read"))
    if not plan.mistakes and not (plan.head if head_alone else plan.entries):
        plan.mistakes.append(Mistake(None, 12, f"the plan has no {'task' if head_alone else 'entry'}"))
    return plan


def add_line(plan, checks, number, line):
    words = line.split("#")[0].split()
    if not words:
        return
    try:
        made = entry(number, words)
    except NoEntry as reason:
        plan.mistakes.append(Mistake(number, None, str(reason)))
        return
    plan.entries.append(made)
    plan.mistakes.extend(Mistake(number, *wrong) for wrong in checks.of(made))


def sound_plan(path):
    """A plan with no mistake; one that has some is rejected with all of them."""
    plan = read_plan(path)
    if plan.mistakes:
        raise Rejected(plan.told())
    return plan
