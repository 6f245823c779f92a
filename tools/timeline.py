"""What happens when in a run: its phases and marks in ticks, found from a plan and the printed lines.

An I line says for which task each unit worked in an interval. When each phase began and ended follows from the table's lengths by
document 01's instant list. Lines that cannot be the run of the plan are named by their number.
"""

from bisect import bisect_left, bisect_right
from typing import NamedTuple, Optional

from sim.dispatcher import COPY_IN_CANCELLED, COPY_IN_DONE, COPY_IN_THROWN_OUT, NO_COPY_IN
from sim.dispatcher import COPY_IN, COPY_IN_AND_EXECUTE, COPY_OUT, EXECUTION, IDLE, IntervalClosed, JobDone
from tools.events import Skip
from tools.output import shown

PROCESSOR, ENGINE = "processor", "engine"
LAST_TICK = 2**64 - 1

# What became of a phase; only the engine's copy-ins are not always done.
DONE, CANCELLED, THROWN_OUT = "done", "cancelled", "thrown out"
FATES = {COPY_IN_DONE: DONE, COPY_IN_CANCELLED: CANCELLED, COPY_IN_THROWN_OUT: THROWN_OUT}

# What became of a release at its own instant: skipped since one of its task waits, or since it came sooner than its task's spacing.
TAKEN, WAITS, SKIPPED, TOO_SOON = "taken", "waits", "skipped", "too soon"


class BadLines(Exception):
    """Lines that do not parse or do not fit the plan, with the reason."""


class Band(NamedTuple):
    """An interval; the engine has the half that the processor has not."""
    number: int  # from 1, in the order of the lines
    begin: int
    end: int
    half: int


class Winner(NamedTuple):
    """The release to which a copy-in gave way."""
    time: int
    task: int


class Bar(NamedTuple):
    """A phase on one of the two units."""
    unit: str
    kind: str
    task: int
    begin: int
    end: int  # of a copy-in that was cancelled, when that was; one that was thrown out had come to its end
    interval: int
    fate: str = DONE
    winner: Optional[Winner] = None


class Release(NamedTuple):
    task: int
    time: int
    state: str = TAKEN


class Wait(NamedTuple):
    """A release that waited, from its time to its taking; or to the end, as far as the lines tell."""
    task: int
    begin: int
    end: int = LAST_TICK


class Ready(NamedTuple):
    """A job that is ready, from its taking, or from the tick on which its copy-in gave way, until a copy-in begins."""
    task: int
    begin: int
    end: int


class Promotion(NamedTuple):
    task: int
    time: int
    interval: int


class Timeline(NamedTuple):
    table: dict
    bands: list
    bars: list
    releases: list
    waits: list
    readies: list
    promotions: list
    completions: list


# The printed lines.

SHAPES = {"J": JobDone, "I": IntervalClosed, "S": Skip}
TASKS = ("task", "executed", "copied_out", "chosen", "promoted")
LIMITS = {"half": 1, "work": 2, "fate": 3, "blocked": 255}


def parse_field(name, word, table):
    """One field's value; None for no task where a line may have none."""
    if word == "-" and name in TASKS and name != "task":
        return None
    if not (word.isascii() and word.isdigit() and len(word) <= len(str(LAST_TICK))):
        raise BadLines(f"{name} is '{shown(word)}', not a number of the record")
    value = int(word)
    if name in TASKS and value not in table:
        raise BadLines(f"{name} is {value}, and the plan has no such task")
    if value > LIMITS.get(name, LAST_TICK):
        raise BadLines(f"{name} is {value}, over {LIMITS.get(name, LAST_TICK)}")
    return value


def parse_line(line, table):
    """A line's fields by name."""
    words = line.split()
    if words[:1] == ["R"]:
        raise BadLines(f"the input was refused ({shown(' '.join(words))}), there is no run to draw")
    if not words or words[0] not in SHAPES:
        raise BadLines(f"'{shown(line.strip())}' is no J, I or S line")
    shape = SHAPES[words[0]]
    if len(words) != len(shape._fields) + 1:
        raise BadLines(f"{words[0]} takes {len(shape._fields)} fields, and here are {len(words) - 1}")
    return shape(*(parse_field(name, word, table) for name, word in zip(shape._fields, words[1:])))


# The phases of an interval.

def processor_bars(interval, number, table):
    """Copy-in for L if the job was promoted (work 2), then execution for C."""
    if (interval.work == IDLE) != (interval.executed is None):
        raise BadLines("the processor's task and its work do not fit")
    if interval.work == IDLE:
        return []
    task, start, bars = table[interval.executed], interval.begin, []
    if interval.work == COPY_IN_AND_EXECUTE:
        start += task.copy_in
        bars.append(Bar(PROCESSOR, COPY_IN, task.number, interval.begin, start, number))
    return bars + [Bar(PROCESSOR, EXECUTION, task.number, start, start + task.execution, number)]


def engine_bars(interval, number, table, taken):
    """Copy-out for U, then the copy-in: it is chosen once the engine is free, at the begin without a copy-out."""
    if (interval.fate == NO_COPY_IN) != (interval.chosen is None):
        raise BadLines("the chosen task and its fate do not fit")
    start, bars = interval.begin, []
    if interval.copied_out is not None:
        start += table[interval.copied_out].copy_out
        bars.append(Bar(ENGINE, COPY_OUT, interval.copied_out, interval.begin, start, number))
    if interval.chosen is not None:
        bars.append(copyin_bar(interval, number, start, table, taken))
    return bars


def copyin_bar(interval, number, start, table, taken):
    """The engine's copy-in, to its end or to its cancelling. Its fate follows from the release to which it gave way."""
    chosen, fate = table[interval.chosen], FATES[interval.fate]
    end = start + chosen.copy_in
    winner = winner_over(chosen, start, max(end, interval.end), table, taken)
    under_way = winner is not None and winner.time < end
    if fate == CANCELLED and not under_way:
        raise BadLines(f"no release cancels the copy-in of task {chosen.number} from {start} to {end}")
    if fate == THROWN_OUT and (winner is None or under_way):
        raise BadLines(f"no release throws out the copy-in of task {chosen.number}, which ends at {end}")
    if fate == DONE and winner is not None:
        raise BadLines(f"the copy-in of task {chosen.number} is done, and yet gives way to the release of task {winner.task} at {winner.time}")
    return Bar(ENGINE, COPY_IN, chosen.number, start, winner.time if fate == CANCELLED else end, number, fate, winner)


def winner_over(chosen, start, end, table, taken):
    """The release to which a copy-in gives way: the first marked one of strictly higher priority that is taken strictly between its start and an end.

    Strictly, since the choice (step e) comes after the releases of its own instant, and an interval that ends at step b does so
    before them.
    """
    for at in range(bisect_right(taken, (start, max(table))), len(taken)):
        time, number = taken[at]
        if time >= end:
            break
        if table[number].mark and table[number].priority < chosen.priority:
            return Winner(time, number)
    return None


def interval_bars(interval, number, table, taken):
    """The phases of an interval; it ends with the later of its two units (R6)."""
    bars = processor_bars(interval, number, table) + engine_bars(interval, number, table, taken)
    last = max((bar.end for bar in bars), default=interval.begin)
    if interval.end != last:
        raise BadLines(f"the interval from {interval.begin} ends at {interval.end}, its phases at {last}")
    return bars


# Releases that wait.

def takings(releases, parsed):
    """When each release that was not skipped was taken: at its time, or at the completion of its task's job before it, if that is later.

    The jobs of a task are those of its releases, in their order. What stands behind a job of which the lines tell no completion waits to the end.
    """
    skipped = {(fields.time, fields.task) for _, fields in parsed if isinstance(fields, Skip)}
    done, free, found = completions_by_task(parsed), {}, {}
    for time, task in releases:
        if (time, task) not in skipped:
            taking = max(time, free.get(task, 0))
            found[time, task] = taking
            free[task] = completion_of(next(done.get(task, iter(())), None), time, taking)
    return found


def completions_by_task(parsed):
    """Each task's J lines, with their numbers, in their order."""
    done = {}
    for number, fields in parsed:
        if isinstance(fields, JobDone):
            done.setdefault(fields.task, []).append((number, fields))
    return {task: iter(jobs) for task, jobs in done.items()}


def completion_of(line, release, taking):
    """When the job of a release was done; never, as far as the lines tell, where they have none."""
    if line is None:
        return LAST_TICK
    number, job = line
    if job.release != release:
        raise BadLines(f"line {number}: the release of task {job.task} at {release} is taken before the one at {job.release}")
    if job.start <= taking:
        raise BadLines(f"line {number}: the job starts at {job.start}, and is taken at {taking}")
    return job.completion


def too_soon(table, releases, times):
    """The releases that came sooner than their task's spacing after the last one that was not skipped."""
    last, found = {}, set()
    for time, task in releases:
        spacing = table[task].spacing
        if spacing is not None and task in last and time < last[task] + spacing:
            found.add((time, task))
        if (time, task) in times:
            last[task] = time
    return found


def check_passed(parsed, soon):
    """No job is that of a release that came too soon."""
    for number, fields in parsed:
        if isinstance(fields, JobDone) and (fields.release, fields.task) in soon:
            raise BadLines(f"line {number}: the release of task {fields.task} at {fields.release} came sooner than its spacing, and is not skipped")


def check_skips(parsed, waits, soon):
    """A release is skipped only if it came too soon, or while one of its task waits: the last that came before it."""
    by_task = {}
    for wait in waits:
        by_task.setdefault(wait.task, []).append((wait.begin, wait.end))
    for number, fields in parsed:
        if isinstance(fields, Skip) and (fields.time, fields.task) not in soon:
            own = by_task.get(fields.task, [])
            at = bisect_left(own, (fields.time, 0))
            if at and fields.time < own[at - 1][1]:
                continue
            raise BadLines(f"line {number}: the release of task {fields.task} at {fields.time} is skipped, and none of its task waits")


# Jobs that are ready.

def readies(taken, bars):
    """When each job was ready: between its takings, in their order, a task's copy-ins give way or are done, and then the next job's come."""
    since, copies = {}, {}
    for time, task in taken:
        since.setdefault(task, []).append(time)
    for bar in bars:
        if bar.kind == COPY_IN:
            copies.setdefault(bar.task, []).append(bar)
    found = []
    for task, times in since.items():
        left = iter(times)
        begin = next(left)
        for bar in sorted(copies.get(task, ()), key=lambda bar: bar.begin):
            if begin < bar.begin:
                found.append(Ready(task, begin, bar.begin))
            begin = next(left, LAST_TICK) if bar.winner is None else bar.winner.time
    return sorted(found, key=lambda ready: (ready.begin, ready.task))


# The whole run.

def check_release(fields, releases):
    """What is skipped or done was a release of the plan."""
    time = fields.time if isinstance(fields, Skip) else fields.release
    if (time, fields.task) not in releases:
        raise BadLines(f"the plan has no release of task {fields.task} at {time}")
    if isinstance(fields, JobDone) and not fields.release < fields.start < fields.completion:
        raise BadLines("a job's release, execution start and completion do not rise")


def parse_lines(lines, table, releases):
    """Each line's number and fields."""
    found = []
    for number, line in enumerate(lines, 1):
        try:
            fields = parse_line(line, table)
            if not isinstance(fields, IntervalClosed):
                check_release(fields, releases)
        except BadLines as bad:
            raise BadLines(f"line {number}: {bad}") from None
        found.append((number, fields))
    return found


def add_interval(run, interval, taken):
    """Add an interval's box, phases and promotion; intervals do not overlap."""
    number = len(run.bands) + 1
    if run.bands and interval.begin < run.bands[-1].end:
        raise BadLines(f"the interval begins at {interval.begin}, before the end of the one before")
    run.bars.extend(interval_bars(interval, number, run.table, taken))
    run.bands.append(Band(number, interval.begin, interval.end, interval.half))
    if interval.promoted is not None:
        run.promotions.append(Promotion(interval.promoted, interval.end, number))


def timeline(table, releases, lines):
    """The run of a table and its releases (time, task) that the lines tell of."""
    parsed = parse_lines(lines, table, set(releases))
    times = takings(releases, parsed)
    waits = [Wait(task, time, taking) for (time, task), taking in times.items() if taking > time]
    soon = too_soon(table, releases, times)
    check_passed(parsed, soon)
    check_skips(parsed, waits, soon)
    taken = sorted((taking, task) for (_, task), taking in times.items())
    states = dict.fromkeys(soon, TOO_SOON) | dict.fromkeys(times, TAKEN) | {(wait.begin, wait.task): WAITS for wait in waits}
    shown = [Release(task, time, states.get((time, task), SKIPPED)) for time, task in releases]
    run = Timeline(table, [], [], shown, waits, [], [], [fields for _, fields in parsed if isinstance(fields, JobDone)])
    for number, fields in parsed:
        if isinstance(fields, IntervalClosed):
            try:
                add_interval(run, fields, taken)
            except BadLines as bad:
                raise BadLines(f"line {number}: {bad}") from None
    run.readies.extend(readies(taken, run.bars))
    return run


def part(run, first, last):
    """What of a run lies between two ticks: whole intervals that reach into them, with all that happens in those, releases, and waits."""
    bands = [band for band in run.bands if band.end >= first and band.begin <= last]
    numbers = {band.number for band in bands}
    within = [(band.begin, band.end) for band in bands] + [(first, last)]

    def shown(time):
        return any(begin <= time <= end for begin, end in within)

    if len(bands) == len(run.bands):
        return run
    return run._replace(
        bands=bands, bars=[bar for bar in run.bars if bar.interval in numbers],
        releases=[release for release in run.releases if shown(release.time)],
        waits=[wait for wait in run.waits if any(wait.begin < end and begin < wait.end for begin, end in within)],
        readies=[ready for ready in run.readies if any(ready.begin < end and begin < ready.end for begin, end in within)],
        promotions=[promotion for promotion in run.promotions if promotion.interval in numbers],
        completions=[job for job in run.completions if shown(job.completion)])
