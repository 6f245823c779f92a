"""Random files and sessions. The same generator state gives the same bytes.

Releases and calls are mostly found by following a dispatcher: at its due time, or just before. Tasks are released again while their job is
pending, so that releases wait, and on the tick on which it completes; and beside one of their own priority, at once with it, behind it, or while it
is copied in; and one spacing after their last release, or a tick beside that. In most sessions instants are looked at first and then committed, some of
them with another ticket than the present one, and in half of them tasks change their marks together.
"""

from sim.dispatcher import COPY_IN_DONE, COPY_OUT, LAST_RELEASE_TIME, TICKETS, Dispatcher, members
from sim.entries import FIELDS, RELEASE, SPACING, TASK, Refused, decode, encode, entry_length, release_entry, spacing_entry
from sim.files import MOST_RELEASES
from sim.generate_tables import longest_length, random_table, small_length, some_tasks, task_numbers
from sim.sessions import COMMIT, ENQUIRY, INSTANT, MARK, MARKS, call_entry, make_call, session_bytes
from sim.table import HEAD_KINDS, LAST_TASK, LENGTH_LIMIT, LONGEST_SPACING

LAST_TICK = 2**64 - 1

# No input that is refused holds its first refusal behind this many bytes: 32 tasks with their spacings, 4,096 releases and the longest entry.
LONGEST_CHECKED = 32 * (16 + 6) + 4_096 * 10 + 16

# How often an instant has a release to which a copy-in gives way, where there is one: by chance alone few do, fewest when it is done.
RIVAL_CHANCE = 0.7

# How often an instant has a release of the same priority as what is copied in, which stays; one beside a ready job of its priority; and a marked one
# in an interval that will promote one, best a second of one priority.
PEER_CHANCE = 0.1
BESIDE_CHANCE = 0.05
PROMOTABLE_CHANCE = 0.5

# How often an instant has several releases of one priority.
TOGETHER_CHANCE = 0.06

# How often an instant of a calm run has any release where no job is ready.
FIRST_CHANCE = 0.25

# How often an instant at which a job completes has a release of its task too: taken, or waiting behind the one that is taken.
COMPLETION_CHANCE = 0.3

# How often an instant has a release that waits, less often in a calm run, and one that is skipped since one waits, where there can be one; the last
# more often where a job completes, since then an interval may end behind it.
WAIT_CHANCE = 0.12
CALM_WAIT_CHANCE = 0.05
SKIP_CHANCE = 0.05
SKIP_AT_COMPLETION_CHANCE = 0.6

# How often an instant is looked for where a task's spacing ends, a tick before or behind; and how often that task is then released.
EDGE_TIME_CHANCE = 0.25
EDGE_CHANCE = 0.7

# How often an instant of a session is looked at first and committed, or only one of both: in some sessions never, and in some nearly always. How often
# a commit with a ticket that is not the present one stands before them.
LOOKS = (0, 0.3, 0.9)
STALE_CHANCE = 0.25

# How often a mark call of a session is one for a set of tasks, in some sessions never; and how often one more stands between the other calls there.
DESKS = (0, 0.7)
DESK_CHANCE = 0.15

# Values at and beside the limits of the fields of each size.
BOUNDARIES = {
    1: (0, 1, 2, LAST_TASK, LAST_TASK + 1, 254, 255),
    4: (0, 1, LENGTH_LIMIT, LENGTH_LIMIT + 1, LONGEST_SPACING, LONGEST_SPACING + 1, 2**32 - 1),
    8: (0, 1, 2**32, LAST_RELEASE_TIME, LAST_RELEASE_TIME + 1, 2**63, LAST_TICK),
}


# Instants that a dispatcher serves.

def _first_time(rng):
    """Mostly early; sometimes anywhere, or so late that releases run into the limit."""
    return rng.choice((0, 0, 0, 0, 0, 1, rng.randint(0, 9), rng.randint(0, 9),
                       rng.randint(0, LAST_RELEASE_TIME), LAST_RELEASE_TIME - rng.randint(0, 30)))


def _served_time(rng, dispatcher, gap):
    """A time that would be served: at the due time often, else before it; in idle time soon after the last."""
    due = dispatcher.due()
    if due is None and dispatcher.last is None:
        return _first_time(rng)
    first = 0 if dispatcher.last is None else dispatcher.last + 1
    edges = [time for time in _edges(dispatcher) if first <= time <= (LAST_RELEASE_TIME if due is None else due)]
    if edges and rng.random() < EDGE_TIME_CHANCE:
        return rng.choice(edges)
    if due is None:
        return first + rng.choice((0, 0, 1, rng.randint(0, gap)))
    sooner = max(first, due - 1)
    return rng.choice((sooner if _promotable(dispatcher) else due, due, rng.randint(first, due), sooner))


def _edges(dispatcher):
    """The times at which a task's spacing ends, and a tick before and behind: time -> its tasks."""
    found = {}
    for number, last in dispatcher.passed.items():
        if dispatcher.table[number].spacing is not None:
            for beside in (-1, 0, 1):
                found.setdefault(last + dispatcher.table[number].spacing + beside, []).append(number)
    return found


def _known_set(rng, dispatcher, density):
    released = 0
    for number in dispatcher.table:
        if rng.random() < density:
            released |= 1 << number
    return released


def _density(rng, dispatcher):
    """How often a task is released at an instant by chance alone; seldom enough in most runs that some have no pending job."""
    return rng.choice((0, 0, 0, 0.03, 0.1, 0.2, 0.5)) if len(dispatcher.table) < 7 else rng.choice((0, 0.01, 0.03, 0.1))


def _free(dispatcher, fits):
    """The tasks without a pending job that fit."""
    return [task.number for task in dispatcher.table.values() if task.number not in dispatcher.pending and fits(task)]


def _rivals(dispatcher):
    """Free marked tasks that are higher than what the open interval copies in: it gives way to the first that is released, and a higher one
    behind that may be promoted, or one of the same priority."""
    chosen = dispatcher.interval.chosen if dispatcher.interval is not None else None
    return [] if chosen is None else _free(dispatcher, lambda task: task.mark and task.priority < chosen.task.priority)


def _peers(dispatcher):
    """Free tasks of the same priority as what the open interval copies in: it stays, also where they are marked."""
    chosen = dispatcher.interval.chosen if dispatcher.interval is not None else None
    return [] if chosen is None else _free(dispatcher, lambda task: task.priority == chosen.task.priority)


def _beside(dispatcher):
    """Free tasks of the same priority as a ready job, which was released earlier."""
    levels = {job.task.priority for job in dispatcher.ready}
    return _free(dispatcher, lambda task: task.priority in levels)


def _promotable(dispatcher):
    """Free marked tasks, where the open interval will promote a marked job of its own: those of the priority of one that has come, if there are any."""
    interval = dispatcher.interval
    if interval is None or not interval.choice_made or interval.fate == COPY_IN_DONE or interval.engine is not None:
        return []
    levels = {job.task.priority for job in dispatcher.arrivals if job.task.mark}
    return _free(dispatcher, lambda task: task.mark and task.priority in levels) or _free(dispatcher, lambda task: task.mark)


def _together(rng, dispatcher):
    """The set of the free tasks of one priority, or of most of them."""
    level = rng.choice([task.priority for task in dispatcher.table.values()])
    return sum(1 << number for number in _free(dispatcher, lambda task: task.priority == level) if rng.random() < 0.8)


def _completing(dispatcher, time):
    """The task whose copy-out ends at a time, if any, as a list."""
    engine = dispatcher.interval.engine if dispatcher.interval is not None else None
    return [engine.job.task.number] if engine is not None and engine.name == COPY_OUT and engine.end == time else []


def _pending_alone(dispatcher):
    """Tasks with a pending job behind which none waits: a release of one waits."""
    return [number for number in dispatcher.pending if number not in dispatcher.waiting]


def _wanted(dispatcher, time, calm):
    """Tasks of which one may be released at a time because of what goes on, and how often one is. In a calm run most tasks have no pending job."""
    completing = _completing(dispatcher, time)
    yield RIVAL_CHANCE, _rivals(dispatcher)
    yield PROMOTABLE_CHANCE, _promotable(dispatcher)
    if calm:
        yield FIRST_CHANCE, [] if dispatcher.ready else _free(dispatcher, lambda task: True)
    else:
        yield PEER_CHANCE, _peers(dispatcher)
        yield BESIDE_CHANCE, _beside(dispatcher)
        yield COMPLETION_CHANCE, completing
    yield CALM_WAIT_CHANCE if calm else WAIT_CHANCE, _pending_alone(dispatcher)
    yield SKIP_AT_COMPLETION_CHANCE if completing else SKIP_CHANCE, list(dispatcher.waiting)
    yield EDGE_CHANCE, _edges(dispatcher).get(time, [])


def served_instant(rng, dispatcher, gap, density):
    """An instant that is served: its time and set. With a density of 0 the run is a calm one."""
    time = min(_served_time(rng, dispatcher, gap), LAST_TICK)
    if time > LAST_RELEASE_TIME:
        return time, 0
    released = _known_set(rng, dispatcher, density)
    for chance, numbers in _wanted(dispatcher, time, calm=not density):
        if numbers and rng.random() < chance:
            released |= 1 << rng.choice(numbers)
    if rng.random() < TOGETHER_CHANCE:
        released |= _together(rng, dispatcher)
    return time, released


# Files.

def _followed_releases(rng, table, count):
    """Releases at and around the ends of phases and of spacings."""
    dispatcher = Dispatcher.open(b"".join(table))
    gap = 2 * longest_length(table)
    density = _density(rng, dispatcher)
    releases = []
    while len(releases) < count:
        time, released = served_instant(rng, dispatcher, gap, density)
        if time > LAST_RELEASE_TIME:
            break
        dispatcher.instant(time, released)
        releases += [(time, number) for number in members(released)]
    return releases[:count]


def _sprinkled_releases(rng, table, count):
    """Releases anywhere in a window, some at its very end."""
    numbers = task_numbers(table)
    width = rng.choice((count, 3 * count, count * longest_length(table), LAST_RELEASE_TIME))
    width = min(width, LAST_RELEASE_TIME)
    begin = rng.choice((0, 0, LAST_RELEASE_TIME - width))
    return sorted({(begin + rng.randint(0, width), rng.choice(numbers)) for _ in range(count)})


def crowded_releases(rng, table, count):
    """Exactly `count` releases, close together: for files at and past the limit."""
    numbers = sorted(task_numbers(table))
    releases, time = [], rng.randint(0, 5)
    while len(releases) < count:
        some = sorted(rng.sample(numbers, rng.randint(1, len(numbers))))
        releases += [(time, number) for number in some]
        time += rng.randint(1, 3)
    return releases[:count]


def table_and_releases(rng):
    """The table's entries of a file that is served, and its releases (time, task)."""
    table = random_table(rng)
    shape = rng.random()
    if shape < 0.04:
        releases = []
    elif shape < 0.05:
        releases = crowded_releases(rng, table, rng.choice((MOST_RELEASES - 1, MOST_RELEASES)))
    elif shape < 0.75:
        releases = _followed_releases(rng, table, rng.choice((3, 10, 30, 60, 120)))
    else:
        releases = _sprinkled_releases(rng, table, rng.choice((3, 10, 30, 60, 120)))
    return table, releases


def file_parts(rng):
    """The entries of a file that is served, as a list."""
    table, releases = table_and_releases(rng)
    return table + [release_entry(*release) for release in releases]


def random_file(rng):
    """A file that is served."""
    return b"".join(file_parts(rng))


# Damage to a list of entries. Each changes it in place.

def swap(rng, parts):
    one, other = rng.randrange(len(parts)), rng.randrange(len(parts))
    parts[one], parts[other] = parts[other], parts[one]


def _swap_neighbours(rng, parts):
    at = rng.randrange(len(parts))
    parts[at - 1], parts[at] = parts[at], parts[at - 1]


def duplicate(rng, parts):
    parts.insert(rng.randint(0, len(parts)), rng.choice(parts))


def drop(rng, parts):
    if len(parts) > 1:
        del parts[rng.randrange(len(parts))]


def change_kind(rng, parts):
    at = rng.randrange(len(parts))
    parts[at] = bytes([rng.choice((0, 1, 2, 3, 4, 7, 16, 17, 18, 255))]) + parts[at][1:]


def is_whole(part):
    return bool(part) and part[0] in FIELDS and len(part) == entry_length(FIELDS[part[0]])


def _change_fields(rng, parts, chance):
    """Put limit values, or another entry's, into fields of one entry; several at once test the order of checks."""
    at = rng.randrange(len(parts))
    if not is_whole(parts[at]):
        return
    kind = parts[at][0]
    fields = list(decode(parts[at]))
    peers = [decode(part) for part in parts if is_whole(part) and part[0] == kind]
    forced = rng.randrange(len(fields))
    for index, size in enumerate(FIELDS[kind]):
        if index == forced or rng.random() < chance:
            fields[index] = rng.choice((rng.choice(BOUNDARIES[size]), rng.choice(peers)[index]))
    parts[at] = encode(kind, *fields)


def change_one_field(rng, parts):
    _change_fields(rng, parts, 0)


def change_many_fields(rng, parts):
    _change_fields(rng, parts, 0.5)


def _same_priority(rng, parts):
    """One task's priority given to another, which refuses nothing."""
    tasks = [at for at, part in enumerate(parts) if is_whole(part) and part[0] == TASK]
    if len(tasks) > 1:
        one, other = rng.sample(tasks, 2)
        number, _, *rest = decode(parts[one])
        parts[one] = encode(TASK, number, decode(parts[other])[1], *rest)


def _bad_task_mark(rng, parts):
    """A mark that is none."""
    tasks = [at for at, part in enumerate(parts) if is_whole(part) and part[0] == TASK]
    if tasks:
        at = rng.choice(tasks)
        number, priority, _, *lengths = decode(parts[at])
        parts[at] = encode(TASK, number, priority, rng.choice((2, 3, 255)), *lengths)


def _late_task(rng, parts):
    """A task entry, good or not, somewhere behind the first."""
    [extra] = some_tasks(rng, 1, small_length)
    parts.insert(rng.randint(1, len(parts)), extra)


def _stray_release(rng, parts):
    """A release of any task at any time, anywhere."""
    task, time = rng.choice((0, 1, LAST_TASK, 32, 255)), rng.choice(BOUNDARIES[8])
    parts.insert(rng.randint(0, len(parts)), encode(RELEASE, task, time))


def _whole_table(parts):
    """How many entries at the front are a table's."""
    return next((at for at, part in enumerate(parts) if not is_whole(part) or part[0] not in HEAD_KINDS), len(parts))


def _known_or_not(rng, parts):
    """The number of a task that the entries speak of, mostly; or any."""
    known = [decode(part)[0] for part in parts if is_whole(part) and part[0] == TASK]
    return rng.choice((rng.choice(known or [0]), rng.choice(known or [0]), rng.choice((0, 31, 32, 255))))


def _bad_spacing(rng, parts):
    """Behind the table a spacing of 0 or too long, of no task, or a second one; or two of these at once."""
    ticks = rng.choice((0, LONGEST_SPACING + 1, 2**32 - 1, 1, LONGEST_SPACING))
    parts.insert(_whole_table(parts), spacing_entry(_known_or_not(rng, parts), ticks))


def _spacing_twice(rng, parts):
    """A second spacing of a task that has one, of as many ticks or others."""
    spacings = [part for part in parts if is_whole(part) and part[0] == SPACING]
    if spacings:
        task, ticks = decode(rng.choice(spacings))
        parts.insert(_whole_table(parts), spacing_entry(task, rng.choice((ticks, 1, 0))))
    else:
        _bad_spacing(rng, parts)


def _stray_spacing(rng, parts):
    """A spacing, good or not, anywhere: before its task, between tasks, or behind a release."""
    ticks = rng.choice((1, 5, 5, 0, LONGEST_SPACING, LONGEST_SPACING + 1))
    parts.insert(rng.randint(0, len(parts)), spacing_entry(_known_or_not(rng, parts), ticks))


def _spacing_cut(rng, parts):
    """A spacing of which only the front is there, at the end or before what follows."""
    cut = spacing_entry(_known_or_not(rng, parts), rng.choice((0, 5)))[:rng.randint(1, 5)]
    parts.insert(rng.choice((len(parts), _whole_table(parts))), cut)


ENTRY_DAMAGE = (swap, _swap_neighbours, duplicate, drop, change_kind, change_one_field, change_one_field, change_many_fields, _same_priority,
                _bad_task_mark, _late_task, _stray_release, _bad_spacing, _spacing_twice, _stray_spacing, _spacing_cut)


def damage_entries(rng, parts):
    for _ in range(rng.choice((1, 1, 1, 2, 3))):
        rng.choice(ENTRY_DAMAGE)(rng, parts)


# Damage to bytes.

def _cut(rng, data):
    return data[:rng.randint(0, len(data))]


def _flip(rng, data):
    changed = bytearray(data)
    for _ in range(rng.choice((1, 1, 2, 5))):
        if changed:
            changed[rng.randrange(len(changed))] ^= 1 << rng.randrange(8)
    return bytes(changed)


def _insert_byte(rng, data):
    at = rng.randint(0, len(data))
    return data[:at] + rng.randbytes(1) + data[at:]


def _remove_byte(rng, data):
    at = rng.randint(0, len(data))
    return data[:at] + data[at + 1:]


BYTE_DAMAGE = (_cut, _cut, _flip, _flip, _insert_byte, _remove_byte)


def damage_bytes(rng, data):
    return rng.choice(BYTE_DAMAGE)(rng, data)


# Damaged files.

def _crowded_file(rng):
    """Too many releases, or nearly: the first refusal is the 4,097th release unless damage comes before it."""
    table = random_table(rng)
    count = MOST_RELEASES + rng.choice((0, 1, 1, 1, 2, 200))
    parts = table + [release_entry(*release) for release in crowded_releases(rng, table, count)]
    if rng.random() < 0.5:
        damage_entries(rng, parts)
    return b"".join(parts)


def _long_file(rng):
    """Longer than any file that is served, with its first refusal anywhere."""
    tail = rng.choice((rng.randbytes(300), b"".join(random_table(rng)), release_entry(0, 0), b"\x01"))
    data = rng.choice((random_file, _crowded_file))(rng)
    repeats = LONGEST_CHECKED // len(tail) + 1
    data += tail * repeats
    return data[:rng.choice((LONGEST_CHECKED, LONGEST_CHECKED + 1, len(data)))]


def _entries_damaged(rng):
    parts = file_parts(rng)
    damage_entries(rng, parts)
    return b"".join(parts)


def _bytes_damaged(rng):
    return damage_bytes(rng, random_file(rng))


def _both_damaged(rng):
    return damage_bytes(rng, _entries_damaged(rng))


def _noise(rng):
    return rng.choice((b"", rng.randbytes(rng.randint(1, 60)), bytes([rng.randint(0, 3)]) * rng.randint(1, 40)))


def damaged_file(rng):
    """A file that is most likely refused; what is wrong may lie anywhere, and several things may be."""
    kinds = (_entries_damaged, _bytes_damaged, _both_damaged, _noise, _crowded_file, _long_file)
    return rng.choices(kinds, weights=(50, 25, 12, 5, 5, 3))[0](rng)


# Sessions.

def _any_released(rng, dispatcher):
    """A set of known tasks that is not empty."""
    return 1 << rng.choice(list(dispatcher.table)) | _known_set(rng, dispatcher, 0.1)


def _unknown_in_set(rng, dispatcher):
    """16 unless the table is full; at any time, since 16 is checked first."""
    unknown = [number for number in range(LAST_TASK + 1) if number not in dispatcher.table]
    if not unknown:
        return _unknown_marked(rng, dispatcher)
    released = _known_set(rng, dispatcher, 0.2) | 1 << rng.choice(unknown)
    return INSTANT, rng.choice((served_instant(rng, dispatcher, 5, 0)[0], rng.choice(BOUNDARIES[8]))), released


def _release_too_late(rng, dispatcher):
    """10."""
    time = rng.choice((LAST_RELEASE_TIME + 1, rng.randint(LAST_RELEASE_TIME + 1, LAST_TICK), LAST_TICK))
    return INSTANT, time, _any_released(rng, dispatcher)


def _not_after_last(rng, dispatcher):
    """14 unless no instant was served yet."""
    last = dispatcher.last or 0
    return INSTANT, rng.choice((last, last, max(0, last - 1), rng.randint(0, last))), _known_set(rng, dispatcher, 0.2)


def _after_due(rng, dispatcher):
    """15 if something is due. With nothing due, an empty set is served, however late."""
    due = dispatcher.due()
    if due is None:
        return _idle(rng, dispatcher)
    time = rng.choice((due + 1, due + 1, due + rng.randint(1, 50), LAST_TICK))
    return INSTANT, time, _known_set(rng, dispatcher, 0.1)


def _bad_mark(rng, dispatcher):
    """6."""
    return MARK, rng.choice(list(dispatcher.table)), rng.choice((2, 3, 255))


def _mark_pending(rng, dispatcher):
    """17 if some job is pending; often of a task of which a release waits too."""
    numbers = rng.choice((dispatcher.waiting, dispatcher.pending)) or dispatcher.pending or dispatcher.table
    return MARK, rng.choice(list(numbers)), rng.randint(0, 1)


def _unknown_marked(rng, dispatcher):
    """16, also with a bad mark."""
    unknown = [number for number in range(256) if number not in dispatcher.table]
    return MARK, rng.choice((rng.choice(unknown), 32, 255)), rng.choice((0, 1, 2))


def _anything(rng, _):
    """Any values at all: which row is met first is left to chance."""
    if rng.random() < 0.5:
        return INSTANT, rng.choice((rng.choice(BOUNDARIES[8]), rng.randint(0, 60))), rng.getrandbits(32)
    return MARK, rng.randint(0, 40), rng.choice(BOUNDARIES[1])


def _mark(rng, dispatcher):
    """A mark change, served if that task has no pending job."""
    free = [number for number in dispatcher.table if number not in dispatcher.pending]
    return MARK, rng.choice(free or list(dispatcher.table)), rng.randint(0, 1)


def _idle(rng, dispatcher):
    """An empty set: at the due time or, with nothing due, some time later."""
    time, _ = served_instant(rng, dispatcher, 1_000, 0)
    return INSTANT, time, 0


def _idle_far_ahead(rng, dispatcher):
    """An empty set far ahead, served only with nothing due; rare, since nothing can be released after it."""
    time = rng.choice((LAST_RELEASE_TIME, LAST_RELEASE_TIME + 1, rng.randint(0, LAST_TICK), LAST_TICK - 1, LAST_TICK))
    return INSTANT, time, 0


REFUSED_CALLS = (_unknown_in_set, _release_too_late, _not_after_last, _not_after_last, _after_due, _after_due,
                 _bad_mark, _mark_pending, _mark_pending, _unknown_marked, _anything)


def _next_call(rng, dispatcher, gap, density, refused):
    if rng.random() < refused:
        return rng.choice(REFUSED_CALLS)(rng, dispatcher)
    if rng.random() < 0.006:
        return _idle_far_ahead(rng, dispatcher)
    if rng.random() < 0.1:
        return _mark(rng, dispatcher)
    if rng.random() < 0.1:
        return _idle(rng, dispatcher)
    return (INSTANT, *served_instant(rng, dispatcher, gap, density))


def _other_ticket(rng, dispatcher):
    """An old ticket, one to come, that of the opening, the last that there is, or any: 20, unless it is the present one by chance."""
    present = dispatcher.ticket
    near = (present - 1) % TICKETS, (present + 1) % TICKETS
    return rng.choice((*near, *near, rng.randint(0, present), present + rng.randint(1, 9), 0, TICKETS - 1, rng.getrandbits(64)))


def _stale(rng, dispatcher, instant):
    """A commit with another ticket: of the instant, or of one that is refused for something else too."""
    time, released = instant
    committed = rng.choice((instant, (time, rng.getrandbits(32)), (rng.choice(BOUNDARIES[8]), released)))
    return COMMIT, _other_ticket(rng, dispatcher), *committed


def _looked_at(rng, dispatcher, instant):
    """An instant that is looked at and committed: with the ticket that the enquiry gave; twice, of which the second is old; behind an enquiry of something
    else, or a mark call, by which the ticket is old; only looked at; or only committed. Before it there may be a commit with another ticket."""
    enquiry, commit = (ENQUIRY, *instant), (COMMIT, dispatcher.ticket, *instant)
    another = ENQUIRY, *served_instant(rng, dispatcher, 5, 0.1)
    stale = [_stale(rng, dispatcher, instant)] if rng.random() < STALE_CHANCE else []
    return stale + rng.choice(([enquiry, commit], [enquiry, commit], [enquiry, commit], [commit], [commit], [enquiry], [enquiry, commit, commit],
                               [enquiry, another, commit], [another, commit], [enquiry, _mark(rng, dispatcher), commit]))


def _for_a_desk(rng, dispatcher, task, mark):
    """A mark call for a set: a task alone, which may be unknown or busy, or with others; all that are free, all that there are, none, or any."""
    free = sum(1 << number for number in _free(dispatcher, lambda task: True))
    own = 1 << task if task <= LAST_TASK else 0
    some = free & rng.getrandbits(32)
    tasks = rng.choice((own, own | some, own | some, own | free, free, some, _known_set(rng, dispatcher, 0.3), _known_set(rng, dispatcher, 1), 0, rng.getrandbits(32)))
    return MARKS, tasks, mark


def _as_called(rng, dispatcher, call, looks, desks):
    """A call; or where it is an instant, what a driver that looks first makes of it; and where it is a mark call, what one for a whole desk is."""
    kind, *fields = call
    if kind == INSTANT and looks and rng.random() < looks:
        return _looked_at(rng, dispatcher, fields)
    if kind == MARK and desks and rng.random() < desks:
        return [_for_a_desk(rng, dispatcher, *fields)]
    if desks and rng.random() < DESK_CHANCE:
        _, *marked = _mark(rng, dispatcher)
        return [_for_a_desk(rng, dispatcher, *marked), call]
    return [call]


def _follow(dispatcher, call):
    if call[0] == ENQUIRY:
        return  # it changes nothing
    try:
        make_call(dispatcher, call)
    except Refused:
        pass  # a refused call leaves no trace, so the next one is found from the same state


def _drain(dispatcher, calls):
    """Empty sets at each due time until none is left."""
    while dispatcher.due() is not None:
        calls.append((INSTANT, dispatcher.due(), 0))
        _follow(dispatcher, calls[-1])


def random_calls(rng, table, count, drained=False, looks=0, desks=0):
    """Calls found by following a dispatcher that opens from a table's entries; most of them are served. `looks` says how often an instant is looked at
    first, which makes several calls of one, and `desks` how often a mark call is one for a set."""
    dispatcher = Dispatcher.open(b"".join(table))
    gap = 2 * longest_length(table)
    density = _density(rng, dispatcher)
    refused = rng.choice((0, 0.1, 0.2))
    calls = []
    for _ in range(count):
        for call in _as_called(rng, dispatcher, _next_call(rng, dispatcher, gap, density, refused), looks, desks):
            calls.append(call)
            _follow(dispatcher, call)
    if drained:
        _drain(dispatcher, calls)
    return calls


def session_parts(rng):
    """A table's entries and the calls of a session whose opening is served."""
    table = random_table(rng)
    count = rng.choice((0, 5, 20, 60, 200))
    return table, random_calls(rng, table, count, drained=rng.random() < 0.5, looks=rng.choice(LOOKS), desks=rng.choice(DESKS))


def random_session(rng):
    """A session whose opening is served, with refused calls among the served ones."""
    table, calls = session_parts(rng)
    return session_bytes(b"".join(table), calls)


# Damaged sessions.

def _opening_damaged(rng):
    table, calls = session_parts(rng)
    damage_entries(rng, table)
    return session_bytes(b"".join(table), calls)


def _opening_bytes_damaged(rng):
    table, calls = session_parts(rng)
    return session_bytes(damage_bytes(rng, b"".join(table)), calls)


def _opening_of_no_task(rng):
    _, calls = session_parts(rng)
    return session_bytes(b"", calls)


def wrong_length(rng, data):
    """An input of two parts whose length of the first says more, or less, than there is."""
    length = int.from_bytes(data[:4], "little")
    wrong = rng.choice((length - 1, length - 6, length - 16, length + 1, length + 6, length + 16, len(data) - 4, len(data) - 3, 2**32 - 1))
    return max(0, wrong).to_bytes(4, "little") + data[4:]


def _length_wrong(rng):
    return wrong_length(rng, random_session(rng))


def _call_kind_unknown(rng):
    table, calls = session_parts(rng)
    before = rng.randint(0, len(calls))
    data = session_bytes(b"".join(table), calls[:before])
    kind = rng.choice((0, 1, 2, 16, 63, 69, 255))
    return data + bytes([kind]) + b"".join(call_entry(*call) for call in calls[before:])


def _session_cut(rng):
    return _cut(rng, random_session(rng))


def _last_call_cut(rng):
    """A call of each kind cut short, often by its last byte."""
    kind, *fields = rng.choice(((INSTANT, 2**63, 0), (MARK, 1, 1), (ENQUIRY, 2**63, 0), (COMMIT, 0, 2**63, 0), (MARKS, 2, 1)))
    whole = call_entry(kind, *fields)
    return random_session(rng) + whole[:rng.choice((len(whole) - 1, rng.randint(1, len(whole) - 1)))]


def _session_flipped(rng):
    return _flip(rng, random_session(rng))


def too_short(rng):
    """Fewer bytes than tell a length."""
    return rng.randbytes(rng.randint(0, 3))


def damaged_session(rng):
    """A session whose opening or call entries are not right; what is wrong may lie anywhere."""
    kinds = (_opening_damaged, _opening_bytes_damaged, _opening_of_no_task, _length_wrong, _call_kind_unknown,
             _session_cut, _last_call_cut, _session_flipped, too_short)
    return rng.choices(kinds, weights=(40, 15, 3, 8, 8, 8, 5, 10, 3))[0](rng)
