"""Inputs at the limits of document 01, beside the random ones: a cut at each byte, each field at and beside its limits, exactly as many
releases as there may be and one more, times at the end of what a number holds, a release on each tick around a copy-in, releases that wait,
tasks of one priority, releases around the end of a spacing, commits with tickets of every kind, and marks for a set of tasks."""

from sim import other_orders, other_spacings
from sim.dispatcher import LAST_RELEASE_TIME, Dispatcher, members
from sim.earlier import NothingWaits
from sim.entries import JOB_DONE, SKIPPED, decode, encode, release_entry, spacing_entry, task_entry, two_parts
from sim.files import MOST_RELEASES, released_sets, run
from sim.generate_records import LONGEST_KEPT, record_entries
from sim.sessions import COMMIT, ENQUIRY, INSTANT, MARK, MARKS, call_entry, session_bytes
from sim.table import LAST_TASK, LENGTH_LIMIT, LONGEST_SPACING, read_table

LAST_TICK = 2**64 - 1

TASKS = (task_entry(1, 1, 1, 2, 3, 1), task_entry(2, 2, 0, 2, 4, 1), task_entry(3, 3, 0, 2, 5, 2))
TABLE = b"".join(TASKS)
PAIRS = ((0, 3), (2, 2), (3, 1), (9, 2))
RELEASES = tuple(release_entry(*pair) for pair in PAIRS)
LENGTHS = (0, 1, LENGTH_LIMIT, LENGTH_LIMIT + 1, 2**32 - 1)


def cuts(data):
    """Each beginning of some bytes."""
    return [data[:end] for end in range(len(data) + 1)]


def other_tasks():
    """A task entry with one field at or beside its limits."""
    yield from (task_entry(number, 9, 0, 1, 1, 1) for number in (0, 1, LAST_TASK, LAST_TASK + 1, 255))
    yield from (task_entry(9, priority, 0, 1, 1, 1) for priority in (0, 1, 3, 255))
    yield from (task_entry(9, 9, mark, 1, 1, 1) for mark in (0, 1, 2, 255))
    for length in LENGTHS:
        yield from (task_entry(9, 9, 0, *lengths) for lengths in ((length, 1, 1), (1, length, 1), (1, 1, length)))


def other_releases():
    """Release entries with one field at or beside its limits."""
    for time in (0, 1, LAST_RELEASE_TIME, LAST_RELEASE_TIME + 1, LAST_TICK):
        yield release_entry(time, 1)
        yield release_entry(time, 1) + release_entry(time, 1)
    yield from (release_entry(5, task) for task in (0, LAST_TASK, LAST_TASK + 1, 255))


def crowded(count):
    """Releases of one task, as many as are asked for."""
    return TABLE + b"".join(release_entry(time, 1) for time in range(count))


def around_a_copy():
    """A marked release on each tick behind the choice of a lower copy-in, over its end, to the end of its interval and one more."""
    return [TABLE + b"".join(release_entry(*pair) for pair in (*PAIRS[:2], (time, 1))) for time in range(3, 9)]


# Releases of which some wait: taken at the completion, before one of that very instant, which waits in its turn; a third one, which is skipped and
# does not replace the first; while a lower job runs, which blocks only what is taken; at the end of an interval; of two tasks, of which each waits
# for its own; behind the last time at which one may be released; and copied in when a higher one comes.
WAITING = (
    ((0, 1), (5, 1)),
    ((0, 1), (5, 1), (6, 1)),
    ((0, 1), (5, 1), (6, 1), (7, 1), (12, 1), (13, 1)),
    ((0, 1), (3, 1), (4, 1), (5, 1)),
    ((0, 3), (2, 1), (3, 1)),
    ((0, 3), (2, 1), (3, 1), (9, 2)),
    ((0, 1), (2, 1), (5, 1)),
    ((0, 1), (0, 2), (1, 2), (2, 1)),
    ((0, 2), (1, 2), (6, 1), (7, 1)),
    ((0, 2), (5, 2), (8, 1)),
    ((0, 2), (5, 2), (7, 1), (7, 2)),
    ((0, 3), (3, 3), (9, 2), (10, 1), (11, 3)),
    ((LAST_RELEASE_TIME - 5, 1), (LAST_RELEASE_TIME, 1)),
)


def around_a_completion():
    """A second and a third release on each tick of a job's time, to its completion and one more."""
    return [((0, 1), (second, 1), (third, 1)) for second in range(1, 8) for third in range(second + 1, 9)]


def of_number(number, pairs):
    """The same releases of one task with another number, alone in its table."""
    return task_entry(number, 1, 1, 2, 3, 1) + b"".join(release_entry(time, number) for time, _ in pairs)


def waiting_files():
    found = [TABLE + b"".join(release_entry(*pair) for pair in pairs) for pairs in (*WAITING, *around_a_completion())]
    return found + [of_number(number, pairs) for number in (0, LAST_TASK) for pairs in WAITING[:4]]


# Tasks 1 and 2 of one priority over a lower one, with each pair of marks.
DESKS = tuple(tuple(task_entry(*fields) for fields in ((1, 5, first, 2, 3, 1), (2, 5, second, 2, 4, 1), (3, 9, 0, 2, 5, 2)))
              for first in (0, 1) for second in (0, 1))

# Releases of them: at one tick; in turn, by number and against it, where nobody is chosen, where one is copied in and where it is copied in already;
# one that waits and one that came later; and two that wait, of which the one that is taken later came earlier.
EQUALS = (
    ((0, 1), (0, 2)),
    ((0, 3), (3, 1), (4, 2)),
    ((0, 3), (3, 2), (4, 1)),
    ((0, 3), (3, 1), (3, 2)),
    ((0, 2), (1, 1)),
    ((0, 1), (1, 2)),
    ((0, 3), (2, 2), (5, 1)),
    ((0, 3), (2, 1), (5, 2)),
    ((0, 2), (1, 2), (3, 1)),
    ((0, 1), (1, 1), (3, 2)),
    ((0, 1), (0, 2), (1, 2), (2, 1), (2, 3), (6, 3)),
)


def whole_table(priority):
    """All tasks of one priority, released at one tick, and again against their numbers, with releases that wait."""
    tasks = b"".join(task_entry(number, priority, number % 2, 1, 2, 1) for number in range(LAST_TASK + 1))
    again = [(5 + LAST_TASK - number, number) for number in range(LAST_TASK, -1, -1)]
    return tasks + b"".join(release_entry(*pair) for pair in [(0, number) for number in range(LAST_TASK + 1)] + again)


def equal_files():
    found = [b"".join(tasks) + b"".join(release_entry(*pair) for pair in pairs) for tasks in DESKS for pairs in EQUALS]
    return found + [whole_table(priority) for priority in (0, 255)]


# Spacings (task, ticks), and releases over them: around the end of a spacing; behind one that was skipped, for its spacing and since one waited; behind
# one that waited, whose original time counts; at a taking, and in idle time; of a task without one; a marked one that would cancel a copy; and from the
# first tick that there is to the last.
SPACED = (
    (((1, 6),), ((0, 1), (5, 1), (6, 1))),
    (((1, 7),), ((0, 1), (6, 1))),
    (((1, 6),), ((0, 1), (3, 1), (7, 1))),
    (((1, 2),), ((0, 1), (2, 1), (5, 1), (6, 1))),
    (((1, 5),), ((0, 1), (5, 1), (10, 1))),
    (((1, 5),), ((0, 1), (5, 1), (6, 1), (9, 1), (11, 1))),
    (((1, 20),), ((0, 1), (10, 1), (19, 1), (20, 1))),
    (((3, 4), (1, 9)), ((0, 2), (1, 2), (2, 2), (3, 1), (3, 3), (6, 3), (7, 3), (11, 1), (12, 1))),
    (((1, 10),), ((0, 1), (7, 2), (8, 1))),
    (((2, 10), (1, 1)), ((3, 1), (3, 2), (4, 1), (5, 1), (12, 2), (13, 2))),
    (((1, LONGEST_SPACING),), ((0, 1), (LAST_RELEASE_TIME - 1, 1), (LAST_RELEASE_TIME, 1))),
    (((1, LONGEST_SPACING - 1),), ((0, 1), (LAST_RELEASE_TIME - 2, 1), (LAST_RELEASE_TIME - 1, 1), (LAST_RELEASE_TIME, 1))),
    (((1, LONGEST_SPACING),), ((LAST_RELEASE_TIME, 1),)),
)


def spaced_head(spacings, tasks=TASKS):
    """The entries of a table with these spacings."""
    return [*tasks, *(spacing_entry(*each) for each in spacings)]


def around_a_spacing():
    """A second release on some ticks of a job's time, and a third at the end of a spacing after the first and the second, and a tick beside that."""
    found = {}
    for ticks in (1, 2, 5, 6, 7, 13):
        for second in (1, 4, 5, 6, 7):
            for third in {edge + beside for edge in (ticks, second + ticks) for beside in (-1, 0, 1)}:
                if third > second:
                    found[((1, ticks),), ((0, 1), (second, 1), (third, 1))] = None
    return list(found)


def full_head():
    """As many tasks as there may be, and a spacing of each."""
    tasks = [task_entry(number, number // 4, number % 2, 1, 2, 1) for number in range(LAST_TASK + 1)]
    return spaced_head([(number, 200 + number) for number in range(LAST_TASK + 1)], tasks)


def full_releases():
    """Each task of a full table: taken, a tick too soon, one spacing later, and a tick behind that, which is too soon again."""
    return sorted((time, number) for number in range(LAST_TASK + 1) for time in (0, 199 + number, 200 + number, 201 + number))


def crowded_full(count):
    """So many releases over a full table: the longest files that there are."""
    pairs = ((at // (LAST_TASK + 1), at % (LAST_TASK + 1)) for at in range(count))
    return b"".join(full_head()) + b"".join(release_entry(*pair) for pair in pairs)


def bad_spacings():
    """Spacings behind the tasks with one field at or beside its limits, with two, twice, cut short, or before a task."""
    yield from (spacing_entry(task, 5) for task in (0, 1, 4, LAST_TASK, LAST_TASK + 1, 255))
    yield from (spacing_entry(1, ticks) for ticks in (0, 1, LONGEST_SPACING, LONGEST_SPACING + 1, 2**32 - 1))
    yield from (spacing_entry(9, ticks) for ticks in (0, LONGEST_SPACING + 1))
    first = spacing_entry(1, 5)
    yield from (first + spacing_entry(task, ticks) for task, ticks in ((1, 5), (1, 6), (1, 0), (2, 5), (9, 0), (2, 0)))
    yield from (first + first[:end] for end in range(1, len(first)))
    yield from (first + other for other in (task_entry(4, 9, 0, 1, 1, 1), task_entry(32, 9, 2, 0, 0, 0), TASKS[0], TASKS[0][:-1], bytes([4])))


def spaced_files():
    found = [b"".join(spaced_head(spacings)) + b"".join(release_entry(*pair) for pair in pairs) for spacings, pairs in (*SPACED, *around_a_spacing())]
    found += [spacing_entry(1, 5) + TABLE, b"".join(full_head()) + b"".join(release_entry(*pair) for pair in full_releases())]
    found += [TABLE + other + release for other in bad_spacings() for release in (b"", RELEASES[0])]
    found += [TABLE + RELEASES[0] + other for other in (*bad_spacings(), spacing_entry(1, 5)[:3])]
    found += [b"".join(full_head()) + other for other in (spacing_entry(0, 5), task_entry(0, 0, 0, 1, 1, 1), bytes([4]))]
    return found + [crowded_full(count) for count in (MOST_RELEASES, MOST_RELEASES + 1)]


def files():
    found = cuts(TABLE + b"".join(RELEASES)) + around_a_copy() + waiting_files() + equal_files() + spaced_files()
    found += [TABLE + other + RELEASES[0] for other in other_tasks()]
    found += [TABLE + other for other in other_releases()]
    found += [TABLE + RELEASES[0] + TASKS[0], *(TASKS[0] + bytes([kind]) + RELEASES[0] for kind in (3, 4))]
    return found + [crowded(count) for count in (MOST_RELEASES - 1, MOST_RELEASES, MOST_RELEASES + 1)]


CALLS = ((INSTANT, 0, 8), (INSTANT, 2, 4), (MARK, 1, 0), (INSTANT, 3, 2), (INSTANT, 3, 0), (MARK, 2, 1), (INSTANT, 7, 0))


# A mark call at each instant from the release of a job to the completion of the one that waited behind it, and then a release with the mark that is
# left: at 14 that cancels the copy-in of 2, unless it was changed.
MARKS_WHILE_WAITING = [call for time, released in ((0, 2), (2, 0), (5, 2), (6, 0), (8, 0), (11, 0), (12, 0), (13, 4), (14, 2))
                       for call in ((INSTANT, time, released), (MARK, 1, 0))]


def waiting_sessions():
    """What waits, told by calls: with marks tried meanwhile, and with a release refused at its taking, which leaves it waiting."""
    late = [(INSTANT, time, released) for time, released in ((LAST_RELEASE_TIME - 5, 2), (LAST_RELEASE_TIME - 3, 0), (LAST_RELEASE_TIME, 2),
                                                            (LAST_RELEASE_TIME + 1, 2), (LAST_RELEASE_TIME + 1, 0), (LAST_RELEASE_TIME + 3, 0))]
    refused = [(INSTANT, time, released) for time, released in ((0, 2), (2, 0), (3, 2), (5, 0), (6, 1), (7, 2), (6, 2), (7, 2), (8, 0), (11, 0),
                                                               (12, 0), (14, 0), (17, 0), (18, 0))]
    kept = [call for call in MARKS_WHILE_WAITING if call != (MARK, 1, 0)]
    return [session_bytes(TABLE, calls) for calls in (MARKS_WHILE_WAITING, kept, late, refused)]


def equal_sessions():
    """Tasks of one priority by calls: a mark call makes the second of them latency-sensitive or not, and decides who is promoted."""
    released = ((0, 8), (2, 0), (3, 4), (4, 2), (7, 0), (9, 0))
    calls = [(INSTANT, time, tasks) for time, tasks in released]
    return [session_bytes(b"".join(tasks), [(MARK, 2, mark), *calls]) for tasks in DESKS for mark in (0, 1)]


def spaced_session(head, pairs):
    """The run of some releases by calls: behind each instant that has any, the same again, which is refused, and the mark that a task has already."""
    table, sets, calls = read_table(b"".join(head)), dict(released_sets(pairs)), []
    for time, _ in run(table, pairs):
        calls.append((INSTANT, time, sets.get(time, 0)))
        if time in sets:
            task = members(sets[time])[0]
            calls += [calls[-1], (MARK, task, table[task].mark)]
    return session_bytes(b"".join(head), calls)


def spaced_sessions():
    found = [spaced_session(spaced_head(spacings), pairs) for spacings, pairs in SPACED]
    return [*found, spaced_session(full_head(), full_releases())]


# Plan A up to the promotion of 1, as instants (time, set).
PLAN_A = ((0, 8), (2, 4), (3, 2), (7, 0), (9, 0))

# An enquiry and a commit, refused and served, and what may stand between them: the old call, mark calls served and refused, other enquiries, the
# same commit again, and commits of another time and set.
LOOKED_AT = (
    (ENQUIRY, 0, 8), (COMMIT, 0, 0, 8), (ENQUIRY, 2, 4), (INSTANT, 1, 0), (COMMIT, 1, 2, 4), (COMMIT, 2, 2, 4), (COMMIT, 2, 3, 2), (ENQUIRY, 3, 2),
    (MARK, 1, 1), (COMMIT, 3, 3, 2), (ENQUIRY, 3, 2), (MARK, 2, 1), (MARK, 9, 1), (MARK, 1, 2), (COMMIT, 4, 3, 1), (COMMIT, 4, 2, 0), (COMMIT, 4, 8, 0),
    (COMMIT, 4, LAST_RELEASE_TIME + 1, 2), (ENQUIRY, 3, 1), (ENQUIRY, 2, 0), (ENQUIRY, 8, 0), (ENQUIRY, LAST_RELEASE_TIME + 1, 2), (COMMIT, 4, 3, 2),
    (ENQUIRY, 7, 0), (COMMIT, 5, 4, 4), (ENQUIRY, 7, 14), (COMMIT, 6, 7, 14), (ENQUIRY, 9, 0), (ENQUIRY, 8, 14), (COMMIT, 7, 9, 0))


def other_tickets(present):
    """Tickets beside the present one: old ones, those to come, the first and the last, and such as differ from it in one byte alone."""
    near = {present + by for by in (-2, -1, 1, 2, 256)} | {present ^ 1 << 8 * byte for byte in range(8)}
    return sorted(ticket for ticket in near | {0, 2**63, LAST_TICK - 1, LAST_TICK} if 0 <= ticket != present)


def at_each_ticket(refused):
    """Plan A by commits, before each of them those with each other ticket, of the same instant and of one that is refused, and that one with the present
    ticket."""
    calls = []
    for present, instant in enumerate(PLAN_A):
        calls += [(COMMIT, ticket, *given) for ticket in other_tickets(present) for given in (instant, refused)]
        calls += [(ENQUIRY, *refused), (COMMIT, present, *refused), (ENQUIRY, *instant), (COMMIT, present, *instant)]
    return calls


def ticket_sessions():
    """Enquiries and commits: between all else, with each ticket, after many served calls, and cut at each byte."""
    many = [call for ticket in range(300) for call in ((COMMIT, max(0, ticket - 1), ticket, 0), (COMMIT, ticket, ticket, 0))]
    marks = [call for ticket in range(260) for call in ((MARK, 2, ticket % 2), (ENQUIRY, 0, 0))] + [(COMMIT, 260 - 256, 0, 0), (COMMIT, 260, 0, 0)]
    refused = ((0, 1), (0, 9), (LAST_RELEASE_TIME + 1, 2), (LAST_RELEASE_TIME + 1, 3))
    found = [session_bytes(TABLE, calls) for calls in (LOOKED_AT, many, marks, *map(at_each_ticket, refused))]
    return found + [session_bytes(TABLE, LOOKED_AT[:1]) + part for part in cuts(b"".join(call_entry(*call) for call in LOOKED_AT[1:4]))]


# Tasks 1 and 2 come where nobody was chosen, 2 first: who is promoted at 7 shows both marks.
PROMOTES = tuple((INSTANT, time, tasks) for time, tasks in ((0, 8), (2, 0), (3, 4), (4, 2), (7, 0), (9, 0)))

# Marks for sets, refused and served: with unknown tasks, bad marks and busy tasks, each alone and together, and of no task.
MARKS_OF_SETS = tuple((MARKS, tasks, mark) for tasks in (0, 2, 6, 8, 14, 1, 16, 2**31, 9, 2**32 - 1) for mark in (0, 1, 2, 255))


def marks_between(*instants):
    """Each of the marks for sets, behind each of some instants, with an enquiry of the next one."""
    calls = []
    for (time, tasks), (following, _) in zip(instants, (*instants[1:], (LAST_TICK, 0))):
        calls.append((INSTANT, time, tasks))
        calls += [call for marks in MARKS_OF_SETS for call in (marks, (ENQUIRY, following, 0))]
    return calls


def desk_sessions():
    """Marks for each set of three tasks, with all marks before them: at the opening, while one is busy, and together with single ones; for all tasks that there
    may be; between other calls; and cut at each byte."""
    found = [session_bytes(b"".join(tasks), [(MARKS, named, mark), *PROMOTES]) for tasks in DESKS for named in range(0, 16, 2) for mark in (0, 1)]
    found += [session_bytes(b"".join(tasks), [PROMOTES[0], (MARKS, named, mark), (ENQUIRY, 2, 0), *PROMOTES[1:]])
              for tasks in DESKS for named in (6, 14, 10, 12) for mark in (0, 1)]
    mixed = [(MARK, 1, 0), (MARKS, 6, 1), (COMMIT, 1, 0, 0), (COMMIT, 2, 0, 8), (MARKS, 0, 1), (COMMIT, 4, 2, 4), (MARK, 1, 0), (ENQUIRY, 3, 2)]
    found += [session_bytes(TABLE, mixed)]
    found += [session_bytes(TABLE, marks_between((0, 8), (2, 0), (4, 2))), session_bytes(TABLE, marks_between((0, 2), (2, 0), (3, 2), (5, 0), (6, 0)))]
    whole = [(MARKS, tasks, mark) for tasks in (2**32 - 1, 2**31, 1, 2**32 - 2) for mark in (1, 0)]
    run = [(INSTANT, 0, 1 << 30), (INSTANT, 1, 0), (INSTANT, 2, 1 | 1 << 31), (INSTANT, 3, 0), (INSTANT, 4, 0)]
    found += [session_bytes(b"".join(full_head()), [*whole[:count], *run]) for count in range(len(whole) + 1)]
    return found + [session_bytes(TABLE, ()) + part for part in cuts(call_entry(MARKS, 6, 1) + call_entry(INSTANT, 0, 2))]


def sessions():
    """Cuts of the opening bytes, which may end in a release, and of the calls; openings of other tasks; times at the limits; what waits; equals;
    spacings; tickets; marks for a whole desk."""
    calls = b"".join(call_entry(*call) for call in CALLS)
    found = [session_bytes(opening, CALLS) for opening in cuts(TABLE + RELEASES[0])]
    found += [session_bytes(TABLE, ()) + part for part in cuts(calls)]
    found += [session_bytes(TABLE + other, CALLS) for other in other_tasks()]
    found += waiting_sessions() + equal_sessions() + spaced_sessions() + ticket_sessions() + desk_sessions()
    spaced = b"".join(spaced_head(((1, 6), (3, 4)))) + RELEASES[0]
    found += [session_bytes(opening, CALLS) for opening in cuts(spaced)[len(TABLE):]]
    found += [session_bytes(TABLE + other, CALLS) for other in bad_spacings()]
    more = (b"", bytes([3]), bytes([4]), spacing_entry(0, 5), task_entry(0, 0, 0, 1, 1, 1), spacing_entry(0, 5) * 50)
    found += [session_bytes(b"".join(full_head()) + other, CALLS) for other in more]
    late = (LAST_RELEASE_TIME, LAST_RELEASE_TIME + 1, LAST_TICK - 1, LAST_TICK)
    return found + [session_bytes(TABLE, ((INSTANT, time, released), (INSTANT, LAST_TICK, 0)))
                    for time in late for released in (0, 2, 14, 1)]


def changed_records(entries):
    """A record's entries with one left out, doubled, or swapped with the next, and its bytes with one changed."""
    for at in range(len(entries)):
        yield b"".join(entries[:at] + entries[at + 1:])
        yield b"".join(entries[:at + 1] + entries[at:])
        yield b"".join(entries[:at] + entries[at + 1:at + 2] + entries[at:at + 1] + entries[at + 2:])
    whole = b"".join(entries)
    for at in range(len(whole)):
        yield whole[:at] + bytes([whole[at] ^ 1]) + whole[at + 1:]


def waiting_records():
    """Records of releases that wait, one of them also changed; a waiting release shown at each other tick; and those of the rule before."""
    for pairs in WAITING:
        yield b"".join(record_entries(TASKS, pairs))
        yield b"".join(record_entries(TASKS, pairs, NothingWaits))
    yield from changed_records(record_entries(TASKS, WAITING[3]))
    entries = record_entries(TASKS, WAITING[0])
    last = max(at for at, entry in enumerate(entries) if entry[0] == JOB_DONE)
    task, _, *rest = decode(entries[last])
    for time in range(14):
        yield b"".join([*entries[:last], encode(JOB_DONE, task, time, *rest), *entries[last + 1:]])


def equal_records():
    """Records over tasks of one priority, by the rule and by each wrong order, behind their task entries."""
    for tasks in DESKS:
        for pairs in EQUALS:
            for kind in (Dispatcher, *other_orders.ALL):
                yield two_parts(b"".join(tasks), b"".join(record_entries(tasks, pairs, kind)))


def spaced_records():
    """Records over spacings, by the rule and by each wrong reading, behind their table; and beside a spacing of a tick more or less, and none."""
    for spacings, pairs in SPACED:
        head = spaced_head(spacings)
        stored = b"".join(record_entries(head, pairs))
        for kind in other_spacings.ALL:
            yield two_parts(b"".join(head), b"".join(record_entries(head, pairs, kind)))
        (task, ticks), *rest = spacings
        for other in ([(task, ticks), *rest], [(task, ticks + 1), *rest], [(task, ticks - 1), *rest], rest):
            yield two_parts(b"".join(spaced_head(other)), stored)
    full = b"".join(record_entries(full_head(), full_releases()))
    for head in (full_head(), [*full_head(), spacing_entry(0, 5)], full_head()[:-1], full_head()[:-1] + [bytes([3])]):
        yield two_parts(b"".join(head), full)


def skipped_alone():
    """Records of skipped releases alone, in rising and in falling order, and at the limits."""
    yield from (encode(SKIPPED, task, 0) for task in (0, 1, LAST_TASK, LAST_TASK + 1, 255))
    yield from (encode(SKIPPED, 1, time) for time in (LAST_RELEASE_TIME, LAST_RELEASE_TIME + 1, LAST_TICK))
    for count in (MOST_RELEASES, MOST_RELEASES + 1):
        falling = [encode(SKIPPED, 1, time) for time in range(count, 0, -1)]
        yield from (b"".join(falling), b"".join(reversed(falling)))


def long_records():
    """As many skipped releases as the reader keeps, and some more, whole, cut short, or with an entry of another kind behind."""
    skipped = encode(SKIPPED, 1, 0)
    for length in (LONGEST_KEPT, LONGEST_KEPT + 600):
        whole = skipped * (length // len(skipped))
        yield from (whole, (whole + skipped)[:length], whole + bytes([2]), whole + skipped + bytes([16]))


def stored_records():
    """Task entries cut, refused, or more than there may be; records cut, changed, of as many releases as there may be and of one more, too long."""
    entries = record_entries(TASKS, PAIRS)
    record = b"".join(entries)
    found = list(dict.fromkeys((*equal_records(), *spaced_records()))) + cuts(two_parts(TABLE, record[:24])) + [two_parts(opening, record) for opening in cuts(TABLE + RELEASES[0])]
    found += [two_parts(TABLE + other, record) for other in (*other_tasks(), *bad_spacings())]
    found += [two_parts(TABLE * count, record) for count in (10, 11, 12, 20_000)]
    found += [two_parts(TABLE * 20_000, b"")[:length] for length in (4 + 33 * 16, 4 + 32 * 22 + 16, 900_000)]
    records = [*cuts(record), *changed_records(entries), *waiting_records(), *skipped_alone(), *long_records()]
    records += [b"".join(record_entries(TASKS, [(time, 1) for time in range(count)])) for count in (MOST_RELEASES, MOST_RELEASES + 1)]
    return found + [two_parts(TABLE, each) for each in records]
