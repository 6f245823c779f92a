"""Value change dumps (IEEE 1364): what the processor and the copy engine do, tick by tick, for a viewer of waveforms."""

from typing import NamedTuple

from sim.dispatcher import COPY_IN, COPY_OUT, Dispatcher
from sim.entries import NO_TASK, Refused
from sim.files import read_file, run

HEADER = """$timescale 1 us $end
$scope module gateway $end
$var wire 8 a processor $end
$var wire 8 b copy_in $end
$var wire 8 c copy_out $end
$var wire 1 d half $end
$upscope $end
$enddefinitions $end
"""


class Values(NamedTuple):
    processor: int  # the task on the processor, from its interval's begin until its execution's end
    copy_in: int    # the task that the engine is copying in
    copy_out: int   # the task that the engine is copying out
    half: int       # the processor's, 0 before the first interval


def _task(phase, *names):
    return phase.job.task.number if phase is not None and (not names or phase.name in names) else NO_TASK


def values_of(dispatcher):
    """What goes on after an instant's steps."""
    half = dispatcher.half if dispatcher.begun else 0
    interval = dispatcher.interval
    if interval is None:
        return Values(NO_TASK, NO_TASK, NO_TASK, half)
    return Values(_task(interval.processor), _task(interval.engine, COPY_IN), _task(interval.engine, COPY_OUT), half)


def samples(table, releases):
    """The values at time 0, and at each instant behind it: (time, values)."""
    made = []

    def kept(table, notes):
        made.append(Dispatcher(table, notes=notes))
        return made[0]

    seen = []
    for time, _ in run(table, releases, kind=kept):
        seen.append((time, values_of(made[0])))
    if not seen or seen[0][0] != 0:
        seen.insert(0, (0, Values(NO_TASK, NO_TASK, NO_TASK, 0)))
    return seen


def _lines(before, values):
    """A line for each value that is another one than before, in the order a to d."""
    for code, old, new in zip("abcd", before, values):
        if new != old:
            yield f"{new}d" if code == "d" else f"b{new:08b} {code}"


def dump(data, lent=None):
    """The dump of an input, as bytes. With the length of a lent slice: 13 and the length needed if it is too short."""
    parts = [HEADER]
    before = (None,) * 4
    for time, values in samples(*read_file(data)):
        lines = list(_lines(before, values))
        if lines:
            parts.append("\n".join([f"#{time}", *lines, ""]))
        before = values
    written = "".join(parts).encode()
    if lent is not None and lent < len(written):
        raise Refused(13, len(written))
    return written
