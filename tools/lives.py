"""The life of each release, from its time to its completion or skipping, and the intervals around it.

They are made of the notes that the simulator's steps take, and held against what the proved program printed: every line, and of each job its
start, completion and blocked intervals, which are found here in a way of their own, and that its parts add up to its response.
"""

from dataclasses import dataclass, field
from typing import Any, NamedTuple, Optional, Union

from sim import notes
from sim.dispatcher import COPY_IN_CANCELLED, COPY_IN_THROWN_OUT, Dispatcher, is_higher
from sim.files import instant_entries, run
from sim.lines import record_lines
from tools.events import event
from tools.output import Trouble

# The phases of a life, in the order in which a job can come to them.
WAITING, READY, CANCELLED, THROWN_OUT, LYING, COPY_IN, LOADED, OWN_COPY_IN, EXECUTION, EXECUTED, COPY_OUT = (
    "waiting", "ready", "copy-in cancelled", "copy-in thrown out", "copy thrown out", "copy-in", "copied in", "copy-in by the processor", "execution",
    "executed", "copy-out")

# What the phases of a copy are called once it gave way; those of an earlier one have their name already.
LOSSES = {COPY_IN_CANCELLED: {COPY_IN: CANCELLED}, COPY_IN_THROWN_OUT: {COPY_IN: THROWN_OUT, LOADED: LYING}}


class Phase(NamedTuple):
    kind: str
    begin: int
    end: int


class Choice(NamedTuple):
    """An engine's choice, and how many notes had been taken before it: of two things of one tick it tells which was first. Behind it are the ready jobs
    of the same priority."""
    time: int
    job: Any
    place: int
    behind: list


@dataclass(eq=False)
class Spell:
    """An interval as it went."""
    interval: Any
    begin: int
    end: Optional[int] = None
    choice: Optional[Choice] = None
    gave_way: Optional[notes.GaveWay] = None
    promoted: Any = None
    behind: list = field(default_factory=list)  # those of the same priority that it could have promoted

    @property
    def number(self):
        return self.interval.number

    @property
    def executed(self):
        return self.interval.executed


@dataclass(eq=False)
class Life:
    task: Any
    release: int
    job: Any = None  # None: skipped
    skipped: Union[notes.Skipped, notes.TooSoon, None] = None  # and why
    waits: Optional[notes.Waits] = None
    taken: Optional[int] = None
    place: int = 0  # of its taking among the notes
    phases: list = field(default_factory=list)
    chosen: list = field(default_factory=list)  # the spells in which the engine chose it
    gave_way: list = field(default_factory=list)
    first: Optional[Spell] = None  # the interval to which it belongs from its taking on
    opens: bool = False  # whether that one began with it
    executing: Optional[Spell] = None
    out: Optional[Spell] = None
    promoted: Optional[Spell] = None  # the interval at whose end it was
    now: tuple = ()  # the phase under way, and since when

    @property
    def too_soon(self):
        """Whether it was skipped for its task's spacing, and not since one waited."""
        return isinstance(self.skipped, notes.TooSoon)

    @property
    def start(self):
        return self.job.start

    @property
    def completion(self):
        return self.phases[-1].end

    @property
    def response(self):
        return self.completion - self.release

    def goes_on(self, kind, time):
        """The phase under way ends, and another begins; one that took no time is none."""
        if self.now and self.now[1] < time:
            self.phases.append(Phase(*self.now, time))
        self.now = (kind, time)

    def parts(self):
        """The ticks of each kind of phase that it had; they add up to the response."""
        found = {}
        for phase in self.phases:
            found[phase.kind] = found.get(phase.kind, 0) + phase.end - phase.begin
        return found


@dataclass(eq=False)
class Run:
    table: dict
    lives: dict = field(default_factory=dict)  # (time, task) -> Life, rising
    spells: list = field(default_factory=list)
    lines: list = field(default_factory=list)

    def done(self):
        return [life for life in self.lives.values() if life.job is not None]

    def between(self, life):
        """The intervals from the one that a job belongs to, up to the one that executes it, which is not among them."""
        return self.spells[life.first.number - 1:life.executing.number - 1]

    def blocked(self, life):
        """The intervals in which a job is blocked: they hold its taking or come later, come before its execution, and execute a lower one."""
        return [spell for spell in self.between(life) if spell.executed is not None and is_higher(life.job, spell.executed)]


class Follower:
    """What each note does to the lives and the intervals."""

    def __init__(self, found):
        self.run, self.by_job, self.open, self.newcomers = found, {}, None, []

    def follow(self, all_notes):
        for place, note in enumerate(all_notes):
            getattr(self, type(note).__name__.lower())(note, place)

    def life(self, time, task):
        return self.run.lives.setdefault((time, task), Life(self.run.table[task], time))

    def taken(self, note, place):
        life = self.life(note.job.release, note.job.task.number)
        life.job, life.task, life.taken, life.place = note.job, note.job.task, note.time, place
        self.by_job[note.job] = life
        life.now = (WAITING, life.release)
        life.goes_on(READY, note.time)
        life.opens, life.first = note.interval is None, self.open
        if life.opens:
            self.newcomers.append(life)

    def waits(self, note, _):
        self.life(note.time, note.task).waits = note

    def skipped(self, note, _):
        self.life(note.time, note.task).skipped = note

    toosoon = skipped

    def began(self, note, _):
        self.open = Spell(note.interval, note.time)
        self.run.spells.append(self.open)
        for life in self.newcomers:
            life.first = self.open
        self.newcomers = []

    def chose(self, note, place):
        self.open.choice = Choice(note.time, note.job, place, note.behind)
        if note.job is not None:
            life = self.by_job[note.job]
            life.chosen.append(self.open)
            life.goes_on(COPY_IN, note.time)

    def copiedin(self, note, _):
        self.by_job[note.job].goes_on(LOADED, note.time)

    def gaveway(self, note, _):
        self.open.gave_way = note
        life = self.by_job[note.job]
        life.gave_way.append((self.open, note))
        life.goes_on(READY, note.time)
        life.phases = [phase._replace(kind=LOSSES[note.fate].get(phase.kind, phase.kind)) for phase in life.phases]

    def ended(self, note, _):
        self.open.end, self.open.promoted, self.open.behind = note.time, note.promoted, note.behind
        if note.promoted is not None:
            life = self.by_job[note.promoted]
            life.promoted = self.open
            life.goes_on(OWN_COPY_IN, note.time)
        self.open = None

    def started(self, note, _):
        life = self.by_job[note.job]
        life.executing = self.open
        life.goes_on(EXECUTION, note.time)

    def stopped(self, note, _):
        self.by_job[note.job].goes_on(EXECUTED, note.time)

    def done(self, note, _):
        life = self.by_job[note.job]
        life.out = self.open
        life.goes_on(COPY_OUT, self.open.begin)
        life.goes_on(None, note.time)


def lives(table, releases, kind=Dispatcher):
    """The run of a table and its releases (time, task), with the simulator's own lines."""
    taken_down, entries = [], []
    for time, answer in run(table, releases, kind, taken_down):
        entries.extend(instant_entries(time, answer))
    found = Run(table, {}, lines=record_lines(b"".join(entries)))
    for time, task in releases:
        found.lives[time, task] = Life(table[task], time)
    Follower(found).follow(taken_down)
    return found


# Held against the proved program.

def differing(lines, others):
    """The number of the first line in which two lists differ, from 1; None if they do not."""
    for number, (line, other) in enumerate(zip(lines, others), 1):
        if line != other:
            return number
    return None if len(lines) == len(others) else min(len(lines), len(others)) + 1


def hold(found, lines):
    """Hold a run against the lines of the proved program or of a record that it accepted."""
    number = differing(found.lines, lines)
    if number is not None:
        raise Trouble(f"gateway: the explanation is of another run than the proved one, from its line {number} on; nothing is told")
    skipped = {(life.release, life.task.number) for life in found.lives.values() if life.skipped}
    for letter, fields in map(event, lines):
        if letter == "J":
            told = found.lives[fields.release, fields.task]
            own = (told.start, told.completion, len(found.blocked(told)), sum(told.parts().values()))
            if own != (fields.start, fields.completion, fields.blocked, fields.completion - fields.release):
                raise Trouble(f"gateway: the job of task {fields.task} released at {fields.release} is explained as another; nothing is told")
        if letter == "S" and (fields.time, fields.task) not in skipped:
            raise Trouble(f"gateway: the skipped release of task {fields.task} at {fields.time} is explained as another; nothing is told")
    return found
