"""The task table: task entries checked one by one, 4, 6, 7 in this order, then spacings (8/13), 8 and 19.

5 is not said any more: tasks may have one priority (6/13).
"""

from dataclasses import dataclass, replace
from typing import Optional

from sim.entries import SPACING, TASK, Refused, entries

LAST_TASK = 31
LENGTH_LIMIT = 1_000_000
LONGEST_SPACING = 1_000_000_000

# The kinds of entry that a table is made of, which stand before the releases of a file and are all that a dispatcher opens from.
HEAD_KINDS = (TASK, SPACING)


@dataclass(frozen=True)
class Task:
    number: int
    priority: int  # smaller is higher; several tasks may have the same
    mark: int      # 1 latency-sensitive, 0 not
    copy_in: int   # L
    execution: int  # C
    copy_out: int  # U
    spacing: Optional[int] = None  # the ticks from one release to the next that its desk promised; None: not tested

    def __deepcopy__(self, _):
        return self  # it never changes


def _add_task(table, fields, place):
    """Check one task entry against the table so far and add it (refusals 3, 4, 6, 7)."""
    task = Task(*fields)
    if any(other.spacing is not None for other in table.values()):
        raise Refused(3, place)
    if task.number > LAST_TASK or task.number in table:
        raise Refused(4, place)
    if task.mark > 1:
        raise Refused(6, place)
    lengths = (task.copy_in, task.execution, task.copy_out)
    if not all(1 <= length <= LENGTH_LIMIT for length in lengths):
        raise Refused(7, place)
    table[task.number] = task


def _add_spacing(table, fields, place):
    """Check one spacing and give it to its task (refusals 8, 19)."""
    number, ticks = fields
    if number not in table:
        raise Refused(8, place)
    if not 1 <= ticks <= LONGEST_SPACING or table[number].spacing is not None:
        raise Refused(19, place)
    table[number] = replace(table[number], spacing=ticks)


ADD = {TASK: _add_task, SPACING: _add_spacing}


def add_to_table(table, kind, fields, place):
    """Check one entry of a table against what came before it and add it."""
    ADD[kind](table, fields, place)


def read_table(data):
    """The table that a dispatcher opens from: no release, which is refused by 2."""
    if not data:
        raise Refused(12)
    table = {}
    for place, kind, fields in entries(data, kinds=HEAD_KINDS):
        add_to_table(table, kind, fields, place)
    return table
