"""Files: task entries, spacings, then releases, run to the end into a record."""

from sim.dispatcher import LAST_RELEASE_TIME, Dispatcher, members
from sim.entries import INTERVAL, JOB_DONE, NO_TASK, RELEASE, SKIPPED, Refused, encode, entries
from sim.table import HEAD_KINDS, add_to_table

MOST_RELEASES = 4_096


def read_file(data):
    """The table and the list of releases (time, task), or the first refusal."""
    if not data:
        raise Refused(12)
    table, releases = {}, []
    for place, kind, fields in entries(data, kinds=(*HEAD_KINDS, RELEASE)):
        if kind == RELEASE:
            _add_release(table, releases, fields, place)
        elif releases:
            raise Refused(3, place)
        else:
            add_to_table(table, kind, fields, place)
    return table, releases


def _add_release(table, releases, fields, place):
    """Check one release entry (8, 10, 9, 11 in this order) and add it."""
    task, time = fields
    if task not in table:
        raise Refused(8, place)
    if time > LAST_RELEASE_TIME:
        raise Refused(10, place)
    if releases and (time, task) <= releases[-1]:
        raise Refused(9, place)
    if len(releases) == MOST_RELEASES:
        raise Refused(11, place)
    releases.append((time, task))


def released_sets(releases):
    """The set released at each time at which something is, rising by time."""
    sets = {}
    for time, task in releases:
        sets[time] = sets.get(time, 0) | 1 << task
    return sorted(sets.items())


def run(table, releases, kind=Dispatcher, notes=None):
    """Feed the releases and all due times by instants until nothing is pending; yield (time, answer).

    The kind of dispatcher is another one where a run by other rules is wanted. What its steps decide goes into a list of notes, if there is one.
    """
    dispatcher = kind(dict(table), notes=notes)
    sets = released_sets(releases)
    at = 0
    while at < len(sets) or dispatcher.due() is not None:
        due = dispatcher.due()
        if at < len(sets) and (due is None or sets[at][0] <= due):
            time, released = sets[at]
            at += 1
        else:
            time, released = due, 0
        yield time, dispatcher.instant(time, released)


def job_entry(job):
    return encode(JOB_DONE, *job)


def interval_entry(interval):
    return encode(INTERVAL, *(NO_TASK if field is None else field for field in interval))


def instant_entries(time, answer):
    """The record entries of one instant in the order in which they occur."""
    if answer.job_done is not None:  # step a
        yield job_entry(answer.job_done)
    if answer.closed_at == "b":
        yield interval_entry(answer.interval)
    for number in members(answer.skipped):  # step c
        yield encode(SKIPPED, number, time)
    if answer.closed_at == "f":
        yield interval_entry(answer.interval)


def record(data, lent=None):
    """The record of an input. With the length of a lent slice: 13 and the length needed if it is too short."""
    table, releases = read_file(data)
    written = b"".join(entry for time, answer in run(table, releases) for entry in instant_entries(time, answer))
    if lent is not None and lent < len(written):
        raise Refused(13, len(written))
    return written
