"""A stored record and the tasks that it was made with: which releases made it, by the proved reader, or what is wrong with it."""

from sim.entries import RELEASE, two_parts
from tools import damage
from tools.files import pieces_of
from tools.output import Rejected, Trouble, named, tell
from tools.plan import read_plan
from tools.programs import printed
from tools.refusals import in_words, line_of

# By which numbers a task or a spacing of the plan is refused, and not the record. Its entry is whole, so that 1 and 2 are the record's.
OF_THE_HEAD = (3, 4, 6, 7, 8, 19)

MOST = 1 << 24  # bytes of a record that are looked at; no list makes nearly so many


def read_record(path):
    """A record's bytes, as far as they are looked at, and whether that is all."""
    found, size = [], 0
    for piece in pieces_of(path):
        found.append(piece)
        size += len(piece)
        if size > MOST:
            break
    return b"".join(found)[:MOST], size <= MOST


def head_of(path):
    """A plan of which the tasks and spacings alone count."""
    plan = read_plan(path, head_alone=True)
    passed = plan.of_kind(RELEASE)
    if passed:
        tell(f"{named(path)}: its releases, {len(passed)} from line {passed[0].line} on, are passed over: those of the record count\n")
    if plan.mistakes:
        raise Rejected(plan.told())
    return plan


def refusal(plan, path, stored, whole, refused):
    """What the reader refused, in words: a line of the plan, or a place in the record."""
    number, place = refused.number, refused.place
    if number == 12:
        return f"{named(plan.path)}: the plan has no task (refusal 12)"
    if number in OF_THE_HEAD:
        return f"{named(plan.path)}: line {plan.line_at(place, plan.head)}: {in_words(number)}"
    if not whole and number in (1, 18):  # what is cut short is cut here
        return f"{named(path)}: it has more than {MOST} bytes, and no list of releases makes so many (refusal 18)"
    if number == 18:
        return f"{named(path)}: {in_words(18)}\n{named(path)}: {damage.where(plan.table, stored)}"
    return f"{named(path)}: byte {place}: {in_words(number)}"


def listed(line):
    """A release (time, task) of the reader's lines."""
    letter, *fields = line.split()
    if letter != "L" or len(fields) != 2:
        raise Trouble(f"gateway: the reader printed '{line}'")
    return int(fields[1]), int(fields[0])


def stored_releases(plan_path, record_path):
    """The plan, of which the head counts, the releases (time, task) that made the record, and its bytes."""
    plan = head_of(plan_path)
    stored, whole = read_record(record_path)
    lines = printed("reader", two_parts(b"".join(each.data for each in plan.head), stored)).decode().splitlines()
    refused = line_of(lines[0]) if lines else None
    if refused is not None:
        raise Rejected(refusal(plan, record_path, stored, whole, refused))
    return plan, [listed(line) for line in lines], stored
