"""Refusals in words, as the commands tell them to people."""

from sim.entries import Refused
from tools.output import named

# A plan's own are told with the plan's values by tools/plan.py; what is here stands where the gateway refuses what was not found there, and for
# records: what is written of a plan is never cut short and of no other kind. 5, a priority given before, no longer occurs, and its number is kept free.
REFUSALS = {
    1: "an entry that is cut short",
    2: "an entry of another kind than a job's, an interval's or a skipped release's",
    3: "a task or a spacing after a release, or a task after a spacing",
    4: "a task number over 31 or given before",
    6: "a mark over 1",
    7: "L, C or U outside 1 to 1000000",
    8: "a release or a spacing of a task that is not in the table",
    9: "a release that is not after the one before",
    10: "a release time over 1000000000",
    11: "a 4097th release",
    12: "the plan has no entry",
    18: "no list of releases of these tasks makes this record",
    19: "a spacing outside 1 to 1000000000, or a second one for a task",
}


def line_of(line):
    """The refusal that a program's R line tells, without a place where it has none; None of another line."""
    if not line.startswith("R "):
        return None
    number, place = map(int, line.split()[1:])
    return Refused(number, None if number in (12, 18) else place)


def in_words(number):
    return f"{REFUSALS.get(number, 'refused')} (refusal {number})"


def of_plan(plan, refused):
    """A refusal of a plan by the gateway: every mistake of the plan, the gateway's own first."""
    line = None if refused.place is None else plan.line_at(refused.place)
    first = next(iter(plan.mistakes), None)
    if first is not None and (first.number, first.line) == (refused.number, line):
        return plan.told()
    where = "" if line is None else f"line {line}: "
    return f"{named(plan.path)}: {where}{in_words(refused.number)}"
