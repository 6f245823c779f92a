"""Random stored records behind the task entries and spacings that they were made from, and damaged ones: inputs of the reader.

Most damage leaves whole entries of a record's kinds that are nearly right, so that only a run tells that no list of
releases yields them.
"""

from sim import other_orders, other_spacings
from sim.dispatcher import LAST_RELEASE_TIME, Dispatcher
from sim.earlier import NothingWaits
from sim.entries import FIELDS, INTERVAL, JOB_DONE, NO_TASK, SKIPPED, SPACING, TASK, Refused, decode, encode, entries, release_entry, two_parts
from sim.files import MOST_RELEASES, instant_entries, run
from sim.generate import (DESKS, LAST_TICK, LOOKS, change_kind, change_many_fields, change_one_field, crowded_releases, damage_bytes, damage_entries,
                          drop, duplicate, random_calls, swap, table_and_releases, too_short, wrong_length)
from sim.generate_tables import random_table, task_numbers, tasks_of
from sim.reading import RECORD_KINDS
from sim.sessions import instant_of, make_call
from sim.table import LONGEST_SPACING, read_table

# What the reader keeps of a record: no list yields one that is as long.
LONGEST_KEPT = 524_288

# By the kind of entry, which of its fields are times; the last of them is when it was written.
TIMES = {JOB_DONE: (1, 2, 3), INTERVAL: (0, 1), SKIPPED: (1,)}


def record_entries(head, releases, kind=Dispatcher):
    """The entries of a run as a list, also of more releases than a file may have."""
    table = read_table(b"".join(head))
    return [entry for time, answer in run(table, releases, kind) for entry in instant_entries(time, answer)]


def true_parts(rng):
    """A table's entries, and those of a record over them."""
    table, releases = table_and_releases(rng)
    return table, record_entries(table, releases)


def stored_bytes(table, stored):
    return two_parts(b"".join(table), b"".join(stored))


def random_stored(rng):
    """A record that is read back."""
    return stored_bytes(*true_parts(rng))


# Damage to a list of record entries that is not empty. Each changes it in place.

def written_at(entry):
    """The instant at which a record's entry was written."""
    return decode(entry)[TIMES[entry[0]][-1]]


def _swap_within_an_instant(rng, stored):
    near = [at for at in range(1, len(stored)) if written_at(stored[at - 1]) == written_at(stored[at])]
    if near:
        at = rng.choice(near)
        stored[at - 1], stored[at] = stored[at], stored[at - 1]
    else:
        swap(rng, stored)


def _nudge(rng, stored):
    """A field one more or one less than it was."""
    at = rng.randrange(len(stored))
    kind, fields = stored[at][0], list(decode(stored[at]))
    index = rng.randrange(len(fields))
    fields[index] = (fields[index] + rng.choice((1, -1))) % 256**FIELDS[kind][index]
    stored[at] = encode(kind, *fields)


def _drop_skipped(rng, stored):
    """A skipped release left out, which leaves the record of a shorter list; if there is none, any entry."""
    skipped = [at for at, entry in enumerate(stored) if entry[0] == SKIPPED]
    del stored[rng.choice(skipped or range(len(stored)))]


def _drop_the_end(rng, stored):
    del stored[rng.randrange(len(stored)):]


def _skip_what_was_taken(rng, stored):
    """The entry of a job, made that of a skipped release: its pair is still there."""
    jobs = [at for at, entry in enumerate(stored) if entry[0] == JOB_DONE]
    if jobs:
        at = rng.choice(jobs)
        stored[at] = encode(SKIPPED, *decode(stored[at])[:2])


def _waited(stored):
    """Of each job that waited: the place of its entry, and the instant of its taking, which is the completion before it."""
    found, completions = [], {}
    for at, entry in enumerate(stored):
        if entry[0] == JOB_DONE:
            task, release, _, completion, _ = decode(entry)
            if release < completions.get(task, 0):
                found.append((at, completions[task]))
            completions[task] = completion
    return found


def _waited_otherwise(rng, stored):
    """The release of a job that waited, told at its taking, beside it, or at another tick: often the record of another list."""
    waited = _waited(stored)
    if waited:
        at, taking = rng.choice(waited)
        task, release, *rest = decode(stored[at])
        other = rng.choice((taking, taking, taking + 1, taking - 1, rng.randint(release, taking)))
        stored[at] = encode(JOB_DONE, task, other, *rest)


def _skipped_beside_a_wait(rng, stored):
    """A skipped release of a task on the tick of a waiting one's taking, where it would wait, or within its wait, where it is skipped."""
    waited = _waited(stored)
    if not waited:
        _one_more_skipped(rng, stored)
        return
    at, taking = rng.choice(waited)
    task, release, *_ = decode(stored[at])
    _insert_skipped(stored, task, rng.choice((taking, rng.randint(release, taking))))


def _insert_skipped(stored, task, time):
    """Show a release as skipped, behind all else of its instant."""
    behind = next((index for index, entry in enumerate(stored) if written_at(entry) > time), len(stored))
    stored.insert(behind, encode(SKIPPED, task, time))


def _one_more_skipped(rng, stored):
    """A skipped release where its time belongs: of a task and at a time that the record speaks of, or near them."""
    at = rng.randint(0, len(stored))
    time = written_at(stored[at - 1]) + rng.choice((0, 0, 1))
    tasks = [decode(entry)[0] for entry in stored if entry[0] != INTERVAL]
    task = rng.choice((rng.choice(tasks) if tasks else 0, rng.randrange(32), NO_TASK))
    stored.insert(at, encode(SKIPPED, task, min(time, LAST_TICK)))


def _from_another(rng, stored):
    """The entries of another record behind these, or in front."""
    other = true_parts(rng)[1]
    stored[:] = rng.choice((stored + other, other + stored))


def _moved(rng, stored):
    """All times earlier or later by as much, so that the run stays one but its releases may be out of bounds."""
    by = rng.choice((1, -1, LAST_RELEASE_TIME, LAST_RELEASE_TIME - rng.randint(0, 60), rng.randint(-100, 100)))
    for at, entry in enumerate(stored):
        kind, fields = entry[0], list(decode(entry))
        for index in TIMES[kind]:
            fields[index] = (fields[index] + by) % (LAST_TICK + 1)
        stored[at] = encode(kind, *fields)


STORED_DAMAGE = (drop, _drop_skipped, duplicate, _swap_within_an_instant, _swap_within_an_instant, swap, _nudge, _nudge, change_one_field,
                 change_many_fields, _drop_the_end, _skip_what_was_taken, _one_more_skipped, _one_more_skipped, _waited_otherwise,
                 _waited_otherwise, _skipped_beside_a_wait, _skipped_beside_a_wait, _from_another, _moved)


def damage_stored(rng, stored):
    """Damage that leaves whole entries of a record's kinds."""
    if not stored:
        stored.append(encode(SKIPPED, rng.randrange(32), rng.randint(0, 9)))
        return
    for _ in range(rng.choice((1, 1, 1, 1, 2))):
        rng.choice(STORED_DAMAGE)(rng, stored)
        if not stored:
            return


# Damaged records.

def _entries_damaged(rng):
    table, stored = true_parts(rng)
    damage_stored(rng, stored)
    return stored_bytes(table, stored)


def _kind_or_bytes_damaged(rng):
    """An entry of another kind, or bytes cut, changed, added or lost; often beside damage that is told only later."""
    table, stored = true_parts(rng)
    if rng.random() < 0.5:
        damage_stored(rng, stored)
    if stored and rng.random() < 0.3:
        change_kind(rng, stored)
    return two_parts(b"".join(table), damage_bytes(rng, b"".join(stored)))


def _bytes_behind(rng):
    """Bytes behind a record that is whole: a further entry, cut short, of another kind, or one too many."""
    table, stored = true_parts(rng)
    more = rng.choice((bytes([rng.choice((*RECORD_KINDS, 0, 1, 2, 19, 255))]), bytes(rng.randint(1, 30)), encode(SKIPPED, 0, 0),
                       release_entry(0, 0), stored[-1][:-1] if stored else b"\x12"))
    return stored_bytes(table, [*stored, more])


def _another_table(rng):
    """A true record beside another table: one field of one entry is different, one is left out, or all are."""
    table, stored = true_parts(rng)
    if rng.random() < 0.2:
        return stored_bytes(random_table(rng), stored)
    if len(table) > 1 and rng.random() < 0.3:
        drop(rng, table)
        return stored_bytes(table, stored)
    at = rng.randrange(len(table))
    table[at] = (_another_task if table[at][0] == TASK else _another_spacing)(rng, table[at])
    return stored_bytes(table, stored)


def _another_task(rng, entry):
    number, priority, mark, *lengths = decode(entry)
    index = rng.randrange(5)
    if index < 3:
        lengths[index] += rng.choice((1, 1, 5))
    return encode(TASK, number, (priority + 128) % 256 if index == 3 else priority, 1 - mark if index == 4 else mark, *lengths)


def _another_spacing(rng, entry):
    """A tick more or less, where a release came on that very tick, or much longer."""
    number, ticks = decode(entry)
    return encode(SPACING, number, rng.choice((ticks + 1, max(1, ticks - 1), min(5 * ticks, LONGEST_SPACING))))


def _made_by_calls(rng):
    """What a list of calls left: a record that a list of releases yields, unless a mark was changed on the way."""
    table = random_table(rng)
    dispatcher, stored = Dispatcher.open(b"".join(table)), []
    for call in random_calls(rng, table, rng.choice((5, 20, 60)), drained=True, looks=rng.choice(LOOKS), desks=rng.choice(DESKS)):
        try:
            answer = make_call(dispatcher, call)
        except Refused:
            continue
        if instant_of(call) is not None:
            time, _ = instant_of(call)
            stored += instant_entries(time, answer)
    return stored_bytes(table, stored)


def made_by_the_earlier_rule(rng):
    """A record of the rule by which nothing waits, without spacings and with equals in the order of today, which is what it was where priorities
    differed: refused, unless no release came while a job of its task was pending."""
    table, releases = table_and_releases(rng)
    tasks = tasks_of(table)
    return stored_bytes(tasks, record_entries(tasks, releases, NothingWaits))


def made_by_another_order(rng):
    """A record by which equals go in another order, or one gives way to another: refused, unless none of this shows."""
    table, releases = table_and_releases(rng)
    return stored_bytes(table, record_entries(table, releases, rng.choice(other_orders.ALL)))


def made_by_another_spacing(rng):
    """A record by which a spacing is measured otherwise, or not at all: refused, unless none of this shows."""
    table, releases = table_and_releases(rng)
    return stored_bytes(table, record_entries(table, releases, rng.choice(other_spacings.ALL)))


def _too_soon_otherwise(rng):
    """A true record with one release of a spaced task more, shown as skipped one spacing after another one of it, or a tick beside that."""
    table, stored = true_parts(rng)
    spacings = dict(decode(entry) for entry in table if entry[0] == SPACING)
    told = [decode(entry)[:2] for entry in stored if entry[0] != INTERVAL and decode(entry)[0] in spacings]
    if told:
        task, time = rng.choice(told)
        _insert_skipped(stored, task, time + spacings[task] + rng.choice((-1, 0, 0, 1)))
    return stored_bytes(table, stored)


def _too_many(rng):
    """The record of as many releases as a file may have, or of more."""
    table = random_table(rng)
    stored = record_entries(table, crowded_releases(rng, table, MOST_RELEASES + rng.choice((0, 1, 1, 2, 100))))
    if rng.random() < 0.3:
        damage_stored(rng, stored)
    return stored_bytes(table, stored)


def _falling(rng):
    """Skipped releases in falling order, behind a true record or alone."""
    table, stored = true_parts(rng)
    task = rng.choice(task_numbers(table))
    times = range(rng.choice((3, 40, MOST_RELEASES, MOST_RELEASES + 1)), 0, -1)
    stored = rng.choice((stored, [])) + [encode(SKIPPED, task, time) for time in times]
    return stored_bytes(table, stored)


def longer_than_kept(rng):
    """Entries up to the end of what the reader keeps, or beyond, with the first that is malformed before it, at it, behind it or nowhere."""
    table = random_table(rng)
    some = b"".join(record_entries(table, crowded_releases(rng, table, 50)))
    length = LONGEST_KEPT + rng.choice((rng.randint(-40, 40), rng.randint(0, 140_000), rng.randint(0, 140_000)))
    data = bytearray(some * (length // len(some) + 1))
    near = rng.choice((rng.randrange(LONGEST_KEPT), LONGEST_KEPT + rng.randint(-40, 40), rng.randint(LONGEST_KEPT, length + 1_000)))
    places = [place for place, _, _ in entries(data, kinds=RECORD_KINDS)]
    if rng.random() < 0.6:
        data[min(places, key=lambda place: abs(place - near))] = rng.choice((0, 2, 19, 255))
    return two_parts(b"".join(table), bytes(data[:rng.choice((length, max(place for place in places if place <= length)))]))


def _table_damaged(rng):
    """The table is refused first, whatever the record is."""
    table, stored = true_parts(rng)
    if rng.random() < 0.3:
        damage_stored(rng, stored)
    damage_entries(rng, table)
    return stored_bytes(table, stored)


def _table_bytes_damaged(rng):
    table, stored = true_parts(rng)
    return two_parts(damage_bytes(rng, b"".join(table)), b"".join(stored))


def _one_part_empty(rng):
    table, stored = true_parts(rng)
    return rng.choice((stored_bytes([], stored), stored_bytes(table, []), stored_bytes([], [])))


def _length_wrong(rng):
    return wrong_length(rng, random_stored(rng))


# Each kind of damaged input, and how often it comes.
DAMAGED = ((_entries_damaged, 64), (_kind_or_bytes_damaged, 12), (_bytes_behind, 5), (_another_table, 12), (_made_by_calls, 5),
           (made_by_the_earlier_rule, 6), (made_by_another_order, 12), (made_by_another_spacing, 14), (_too_soon_otherwise, 6), (_too_many, 1),
           (_falling, 3), (longer_than_kept, 0.5), (_table_damaged, 16), (_table_bytes_damaged, 5), (_one_part_empty, 2), (_length_wrong, 4),
           (too_short, 1))


def damaged_stored(rng):
    """A record or table that is most likely refused; what is wrong may lie anywhere."""
    kinds, weights = zip(*DAMAGED)
    return rng.choices(kinds, weights=weights)[0](rng)
