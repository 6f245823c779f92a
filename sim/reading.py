"""Reading a stored record: from the task entries, the spacings and a record, the releases that made it.

Each release of a run leaves one entry, as a job or as skipped, with its task and time; so only one list can
have made a record, and whether it did is seen by running it.
"""

from sim.entries import INTERVAL, JOB_DONE, SKIPPED, Refused, entries, parts_of, release_entry
from sim.files import record
from sim.lines import refusal_line
from sim.table import read_table

RECORD_KINDS = (JOB_DONE, INTERVAL, SKIPPED)


def left_by(stored):
    """The releases (time, task) that the entries of a record speak of, rising; or its first refusal by 2 or 1."""
    found = []
    for _, kind, fields in entries(stored, kinds=RECORD_KINDS):
        if kind != INTERVAL:
            task, time = fields[:2]  # of a job the time is its release
            found.append((time, task))
    return sorted(found)


def yields(head, releases, stored):
    """Whether a list of releases is admissible over a table's entries, and its record is these bytes."""
    try:
        return record(head + b"".join(release_entry(*release) for release in releases)) == stored
    except Refused:
        return False


def read(head, stored, lent=None):
    """The releases (time, task) that made a record. With the length of a lent slice: 13 if their entries do not fit."""
    read_table(head)
    releases = left_by(stored)
    if not yields(head, releases, stored):
        raise Refused(18)
    needed = sum(len(release_entry(*release)) for release in releases)
    if lent is not None and lent < needed:
        raise Refused(13, needed)
    return releases


def read_lines(data):
    """What the reader program prints for an input: the task entries and spacings behind their length, then the record."""
    parts = parts_of(data)
    if parts is None:
        return ["X"]  # the task entries are not there to be read
    try:
        return [f"L {task} {time}" for time, task in read(*parts)]
    except Refused as refused:
        return [refusal_line(refused)]
