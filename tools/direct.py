"""Functions that are open to callers, called directly: with arguments that no program hands them, as a set and one of its members, or a
slice that ends within a number.

CALLS has each call in Rattle beside what it must answer, in Python. SOURCE is the program that makes them. Its input is a byte that
says which, two numbers of 4 bytes and the bytes of a slice; it writes the answer, numbers as 8 bytes, and then all that it lends.
"""

import random
from typing import Callable, NamedTuple

from sim.dispatcher import TICKETS
from sim.entries import FIELDS, INTERVAL, JOB_DONE, NO_TASK, RELEASE, SKIPPED, SPACING, TASK
from sim.entries import decode, encode, entry_length, release_entry, spacing_entry, task_entry
from sim.lines import line

FILL = 0xA5
MOST_LENT = 512

# The numbers of a table's columns.
COLUMNS = 4 * 32

# How many times a function of numbers and sets is called.
EACH = 60


class Call(NamedTuple):
    """A call over the numbers a and b and the slice s, with `task` and `at` for b as a task's number and as a place, and `room` for a
    as a length of what is lent; what it answers and lays into the lent slice; and the arguments that it is tried on."""

    rattle: str
    answer: Callable
    arguments: Callable


# Answers: the bytes that are written for it, and those that are laid into the lent slice.

def number(value):
    return value.to_bytes(8, "little"), b""


def members(value):
    return {task for task in range(32) if value >> task & 1}


def task_set(tasks):
    return number(sum(1 << task for task in tasks if task < 32))


def read(width):
    """The number of some bytes at b; a byte past the end counts as 0."""
    return lambda a, b, s: number(int.from_bytes(s[b:b + width], "little"))


def put(width, value):
    """A number's bytes laid into the first a of what is lent, and their count: all or none."""
    return lambda a, b, s: (number(width)[0], value(b).to_bytes(width, "little")) if width <= a else number(0)


def filled(a, b, s):
    """The lines of the whole entries from b on, as many as fit into a bytes; their length, and the place of the next entry."""
    written, at = b"", b
    while at < len(s) and s[at] in (JOB_DONE, INTERVAL, SKIPPED):
        entry = s[at:at + entry_length(FIELDS[s[at]])]
        if len(entry) < entry_length(FIELDS[s[at]]):
            break
        added = f"{line(entry[0], decode(entry))}\n".encode()
        if len(written + added) > a:
            break
        written += added
        at += len(entry)
    return number(len(written))[0] + number(at)[0], written


def refusal(kinds):
    """Of the entry at b the number by which it is refused, 0 if it is not: 2 for another kind, then 1 where it is cut short."""
    def answer(a, b, s):
        kind = s[b] if b < len(s) else 0
        if kind not in kinds:
            return number(2)
        return number(int(b + entry_length(FIELDS[kind]) > len(s)))
    return answer


def head_end(a, b, s):
    """Where the head of an accepted file, of a task, its spacing and a release, ends; of a refused one nothing is told."""
    return number({16: 16, 22: 22, 32: 22}.get(len(s), 0))


# What a processor at rest did, as rules/src/codes has it: it idled, or it executed.
IDLED, EXECUTED = 0, 3


def blockable(a, b, s):
    """Of the tasks a those that an interval can block, by what its processor did, its task, and the 32 priorities behind them."""
    processor, task, *ranks = s
    if processor == IDLED:
        return number(0)
    return task_set(other for other in members(a) if ranks[other] < ranks[task])


def numbers(s):
    """The numbers of a table's columns: the lengths of copy-ins, of executions and of copy-outs, and the spacings."""
    return [int.from_bytes(s[at:at + 4], "little") for at in range(0, 4 * COLUMNS, 4)]


def longest(a, s):
    """M, over the tasks of a (7/13)."""
    columns, tasks = numbers(s), members(a)
    both = max((columns[n] + columns[32 + n] for n in tasks), default=0)
    return max(both, max((columns[n] for n in tasks), default=0) + max((columns[64 + n] for n in tasks), default=0))


def completes(a, b, s):
    """By when a job of the task behind the columns completes, marked or not, where b others go before it; held at 64 bits."""
    task, marked = s[4 * COLUMNS:]
    own = dict(enumerate(numbers(s))).get(64 + task, 0)  # of a number that is no task's, what stands where its U would
    return number(min((b + (2 if marked else 3)) * longest(a, s) + own, 2**64 - 1))


def raised(a, b, s):
    """The ticket behind the one whose upper half is a and whose lower half is b (9/13)."""
    return number((2**32 * a + b + 1) % TICKETS)


# Arguments: lists of a, b and s.

def some_set(rng):
    return rng.choice((0, 1, 1 << 31, 2**32 - 1, 1 << rng.randrange(32), rng.getrandbits(32)))


def set_and_task(rng):
    """A task that is in the set or not, or no task at all."""
    return [(a, rng.choice((*members(a), 0, 31, 32, 255, rng.randrange(32))), b"") for a in (some_set(rng) for _ in range(EACH))]


def two_sets(rng):
    return [(a, rng.choice((a, some_set(rng))), b"") for a in (some_set(rng) for _ in range(EACH))]


def slice_and_place(rng):
    slices = (rng.randbytes(rng.randint(0, 12)) for _ in range(EACH))
    return [(0, rng.randint(0, len(s) + 2), s) for s in slices]


def room_and_number(rng):
    """Room for less than the number, for just it, or for more."""
    return [(rng.choice((0, 1, 3, 4, 7, 8, 9)), rng.choice((0, 2**32 - 1, rng.getrandbits(32))), b"") for _ in range(EACH)]


def room_and_record(_):
    """A record cut at each byte, with room for all its lines; and all of it from each entry on, with each room up to what is needed."""
    entries = (encode(JOB_DONE, 31, 9, 10**9, 2**64 - 1, 2), encode(INTERVAL, 5, 10, 1, NO_TASK, 0, 3, NO_TASK, 0, NO_TASK),
               encode(SKIPPED, 0, 10), encode(JOB_DONE, 3, 0, 0, 0, 0))
    record = b"".join(entries)
    cut = [(MOST_LENT, 0, record[:end]) for end in range(len(record) + 1)]
    starts = [len(b"".join(entries[:count])) for count in range(len(entries) + 1)]
    return cut + [(room, at, record) for at in starts for room in range(len(filled(MOST_LENT, at, record)[1]) + 1)]


def input_and_place(_):
    """Places at and between the entries of an input, cut at each byte, and behind its end."""
    data = task_entry(1, 1, 1, 2, 3, 1) + spacing_entry(1, 5) + release_entry(5, 1) + bytes([4])
    return [(0, at, data[:end]) for end in range(len(data) + 1) for at in (0, 1, 16, 22, 32, len(data), 99)]


def record_and_place(_):
    """Places at and between the entries of a record, cut at each byte, and behind its end."""
    data = encode(SKIPPED, 0, 10) + encode(JOB_DONE, 3, 0, 0, 0, 0) + bytes([19])
    return [(0, at, data[:end]) for end in range(len(data) + 1) for at in (0, 1, 10, 37, len(data), 99)]


def file_or_not(_):
    """A file, cut at each byte."""
    data = task_entry(1, 1, 1, 2, 3, 1) + spacing_entry(1, 5) + release_entry(5, 1)
    return [(0, 0, data[:end]) for end in range(len(data) + 1)]


def set_and_interval(rng):
    """Intervals at their end, over priorities of which some are alike."""
    return [(some_set(rng), 0, bytes((rng.choice((IDLED, EXECUTED, EXECUTED)), rng.randrange(32), *(rng.randrange(9) for _ in range(32)))))
            for _ in range(EACH)]


def some_length(rng):
    return rng.choice((0, 1, 2, 1_000_000, 2**32 - 1, rng.randint(1, 1_000_000), rng.randint(1, 9)))


def table_and_number(rng):
    """Columns as tables have them, with a 0 or with a length out of its range in some, a task and a mark."""
    made = []
    for _ in range(EACH):
        few = rng.choice(([1, 2, 3], [1_000_000], [0, 1, 2**32 - 1], None))
        columns = [rng.choice(few) if few else some_length(rng) for _ in range(COLUMNS)]
        task = rng.choice((0, 31, 32, 255, rng.randrange(32)))
        s = b"".join(value.to_bytes(4, "little") for value in columns) + bytes((task, rng.randrange(2)))
        made.append((some_set(rng), rng.choice((0, 1, 2, 2**31, 2**32 - 1, rng.getrandbits(32))), s))
    return made


def halves_of_a_ticket(rng):
    """The first and the last tickets, those beside them, and those at which the lower half runs over."""
    ends = (0, 1, 2**32 - 2, 2**32 - 1)
    return [(a, b, b"") for a in ends for b in ends] + [(rng.getrandbits(32), rng.getrandbits(32), b"") for _ in range(9)]


CALLS = (
    Call("say(if sets::contains(a, task) { 1 } else { 0 })", lambda a, b, s: number(int(b in members(a))), set_and_task),
    Call("say(sets::insert(a, task) as u64)", lambda a, b, s: task_set(members(a) | {b}), set_and_task),
    Call("say(sets::remove(a, task) as u64)", lambda a, b, s: task_set(members(a) - {b}), set_and_task),
    Call("say(sets::union(a, b) as u64)", lambda a, b, s: task_set(members(a) | members(b)), two_sets),
    Call("say(sets::intersection(a, b) as u64)", lambda a, b, s: task_set(members(a) & members(b)), two_sets),
    Call("say(sets::difference(a, b) as u64)", lambda a, b, s: task_set(members(a) - members(b)), two_sets),
    Call("say(sets::lowest(a) as u64)", lambda a, b, s: number(min(members(a), default=32)), two_sets),
    Call("say(sets::rest(a) as u64)", lambda a, b, s: task_set(sorted(members(a))[1:]), two_sets),
    Call("say(words::get_u8(s, at) as u64)", read(1), slice_and_place),
    Call("say(words::get_u32(s, at) as u64)", read(4), slice_and_place),
    Call("say(words::get_u64(s, at))", read(8), slice_and_place),
    Call("say(words::put_u8(&mut lent[..room], (b % 256) as u8) as u64)", put(1, lambda b: b % 256), room_and_number),
    Call("say(words::put_u32(&mut lent[..room], b) as u64)", put(4, lambda b: b), room_and_number),
    Call("say(words::put_u64(&mut lent[..room], 4294967297 * b as u64) as u64)", put(8, lambda b: 4294967297 * b), room_and_number),
    Call("say_number(entries::entry_at(s, at))", refusal((TASK, SPACING, RELEASE)), input_and_place),
    Call("say_filled(record_lines::fill(s, at, &mut lent[..room]))", filled, room_and_record),
    Call("say_number(entries::record_entry_at(s, at))", refusal((JOB_DONE, INTERVAL, SKIPPED)), record_and_place),
    Call("say(end_of_head(s))", head_end, file_or_not),
    Call("say(blockable(s, a) as u64)", blockable, set_and_interval),
    Call("say(guarantees::longest_interval(&columns_of(s), a))", lambda a, b, s: number(longest(a, s)), table_and_number),
    Call("say(guarantees::completes_after(&columns_of(s), a, s[512], s[513] == 1, b))", completes, table_and_number),
    Call("say(dispatcher::raised(4294967296 * a as u64 + b as u64))", raised, halves_of_a_ticket),
)

NEEDS = ("dispatcher", "entries", "guarantees", "record_lines", "rules", "run", "sets", "words", "streams")

SOURCE = """
use entries::Unreadable;
use record_lines::Filled;

fn end_of_head(s: &[u8]) -> u64 {
    match run::check_file(s) {
        Ok(head) => head.end as u64,
        Err(_) => 0,
    }
}

fn blockable(s: &[u8], present: u32) -> u32 {
    let mut ranks = [0u8; 32];
    let mut k = 0;
    while k < 32 {
        ranks[k] = s[2 + k];
        k += 1;
    }
    let set = rules::blockable(s[0], s[1], present, &ranks);
    let mut found: u32 = 0;
    let mut n: u8 = 0;
    while n < 32 {
        if set.higher[n as usize] == 1 {
            found = sets::insert(found, n);
        }
        n += 1;
    }
    sets::intersection(found, set.tasks)
}

fn columns_of(s: &[u8]) -> [u32; 128] {
    let mut columns = [0u32; 128];
    let mut k = 0;
    while k < 128 {
        columns[k] = read(s, 4 * k);
        k += 1;
    }
    columns
}

fn read(s: &[u8], at: usize) -> u32 {
    let low = s[at] as u32 + 256 * s[at + 1] as u32;
    low + 65536 * (s[at + 2] as u32 + 256 * s[at + 3] as u32)
}

fn write(rt: HostRuntime, bytes: &[u8]) {
    let _ = streams::write(rt, bytes);
}

fn say(rt: HostRuntime, n: u64) {
    let mut out = [0u8; 8];
    let mut left = n;
    let mut i = 0;
    while i < 8 {
        out[i] = (left % 256) as u8;
        left /= 256;
        i += 1;
    }
    write(rt, &out);
}

fn say_number<T: Copy>(rt: HostRuntime, entry: Result<T, Unreadable>) {
    match entry {
        Ok(_) => say(rt, 0),
        Err(unreadable) => say(rt, unreadable.number() as u64),
    }
}

fn say_filled(rt: HostRuntime, filled: Filled) {
    say(rt, filled.len as u64);
    say(rt, filled.next as u64);
}

fn call(rt: HostRuntime, which: u8, a: u32, b: u32, s: &[u8], lent: &mut [u8]) {
    let task = (b % 256) as u8;
    let at = b as usize;
    let room = a as usize;
    match which {
ARMS
        _ => {}
    }
    write(rt, lent);
}

fn main(rt: HostRuntime) {
    let mut input = [0u8; 1024];
    let mut lent = [FILLu8; MOST_LENT];
    let Ok(count) = streams::fill(rt, &mut input, 0) else {
        return;
    };
    let a = read(&input, 1);
    let b = read(&input, 5);
    call(rt, input[0], a, b, &input[9..count], &mut lent);
}
"""
ARMS = "\n".join(f"        {which} => {call.rattle.replace('(', '(rt, ', 1)}," for which, call in enumerate(CALLS))
SOURCE = SOURCE.replace("ARMS", ARMS).replace("FILL", str(FILL)).replace("MOST_LENT", str(MOST_LENT))


def case(which, a, b, s):
    """An input of SOURCE, and what it must write."""
    said, laid = CALLS[which].answer(a, b, s)
    given = bytes([which]) + a.to_bytes(4, "little") + b.to_bytes(4, "little") + s
    return given, said + laid + bytes([FILL]) * (MOST_LENT - len(laid))


def cases(seed):
    """Every call on its arguments."""
    return [case(which, *arguments) for which, call in enumerate(CALLS)
            for arguments in call.arguments(random.Random(f"direct-{seed}-{which}"))]
