"""Where a record is wrong that no list of releases makes (refusal 18): the reader alone says that it is, and this says what to look at.

Each entry of a job or a skipped release tells a release. Either one of these can stand in no list; or the list that they make, run again, gives
another entry somewhere.
"""

from sim.dispatcher import LAST_RELEASE_TIME
from sim.entries import INTERVAL, entries
from sim.files import MOST_RELEASES, instant_entries, run
from sim.lines import line, record_lines
from sim.reading import RECORD_KINDS


def release_problem(release, table, seen):
    """Why a release that an entry tells can stand in no list; None if it can."""
    time, task = release
    if task not in table:
        return f"of task {task}, which the plan does not have"
    if time > LAST_RELEASE_TIME:
        return f"at {time}, over {LAST_RELEASE_TIME}"
    if release in seen:
        return f"of task {task} at {time} a second time: the entry at byte {seen[release]} tells it too"
    if len(seen) == MOST_RELEASES:
        return f"of task {task} at {time}, the {MOST_RELEASES + 1}th"
    return None


def releases_told(table, found):
    """The releases that the entries tell, rising; or the sentence about the first that can stand in no list."""
    seen = {}
    for place, kind, fields in found:
        if kind != INTERVAL:
            release = (fields[1], fields[0])
            problem = release_problem(release, table, seen)
            if problem is not None:
                return None, f"byte {place}: '{line(kind, fields)}' tells a release {problem}"
            seen[release] = place
    return sorted(seen), None


def where(table, stored):
    """One sentence on a record whose entries are whole and which no list makes."""
    found = list(entries(stored, kinds=RECORD_KINDS))
    releases, problem = releases_told(table, found)
    if problem is not None:
        return problem
    given = record_lines(b"".join(entry for time, answer in run(table, releases) for entry in instant_entries(time, answer)))
    for (place, kind, fields), other in zip(found, given):
        if line(kind, fields) != other:
            return f"byte {place}: the record has '{line(kind, fields)}'; the releases that it tells, run again, give '{other}'"
    if len(found) < len(given):
        return f"byte {len(stored)}: the record ends; the releases that it tells, run again, go on with '{given[len(found)]}'"
    place, kind, fields = found[len(given)]
    return f"byte {place}: the record goes on with '{line(kind, fields)}'; the releases that it tells, run again, end here"
