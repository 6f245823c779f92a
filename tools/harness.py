"""The Rattle code that runs the programs for tools/unproved.py, in one program: the word behind its name says which of them it is.

Beside the programs it has two that drive what is exported for C. `exports` calls a function: of its input the first byte says which, 0 the record
function, 1 that which reads a record and 2 that of waveforms, the next 8 are the length of the slice that is lent, and the rest is what the function
gets, of two slices the first behind its length in 4 bytes. What it answers, what it tells and the slice with some bytes behind it are written.
`instants` is what link/session.c does, over the dispatcher by instants.
"""

# How many bytes behind the slice `exports` shows, and what it lays into it.
BEHIND = 64
FILL = 0xA5

HEAD = """
use std::env;

fn start(rt: HostRuntime, word: &str) {
    match word {
STARTS
        _ => {}
    }
}

fn main(rt: HostRuntime) {
    match env::args(&rt) {
        Ok(words) => {
            for word in words.skip(1) {
                start(rt, word.as_str());
            }
        }
        Err(_) => {}
    }
}
"""

# Numbers as bytes, lowest first.
NUMBERS = """
fn number_at(s: &[u8], at: usize, count: usize) -> u64 {
    let mut value: u64 = 0;
    let mut i = count;
    while i > 0 {
        i -= 1;
        value = value * 256 + s[at + i] as u64;
    }
    value
}

fn put_number(out: &mut [u8], n: u64) {
    let mut left = n;
    let mut i = 0;
    while i < 8 {
        out[i] = (left % 256) as u8;
        left /= 256;
        i += 1;
    }
}
"""

EXPORTS = NUMBERS + """
const ROOM: usize = 9;

fn read_record(rest: &[u8], out: &mut [u8], told: &mut usize) -> u8 {
    let tasks = number_at(rest, 0, 4) as usize;
    let from = 4 + tasks;
    crate::exports_reading::gateway_read(&rest[4..from], &rest[from..], out, told)
}

fn call(which: u8, rest: &[u8], out: &mut [u8], told: &mut usize) -> u8 {
    match which {
        0 => crate::exports::gateway_record(rest, out, told),
        1 => read_record(rest, out, told),
        _ => crate::exports_waves::gateway_waveform(rest, out, told),
    }
}

pub fn main_of_exports(rt: HostRuntime) {
    let mut input = [0u8; 1048576];
    let mut out = [FILLu8; 262144];
    let Ok(count) = streams::fill(rt, &mut input, 0) else {
        return;
    };
    let room = number_at(&input, 1, 8) as usize;
    let mut told: usize = 0;
    let number = call(input[0], &input[ROOM..count], &mut out[..room], &mut told);
    let mut first = [0u8; 8];
    put_number(&mut first, told as u64);
    let _ = streams::write(rt, &[number]);
    let _ = streams::write(rt, &first);
    let _ = streams::write(rt, &out[..room + BEHIND]);
}
""".replace("FILL", str(FILL)).replace("BEHIND", str(BEHIND))

INSTANTS = NUMBERS + """
use crate::exports_instants as calls;
use dispatcher::WORDS;
use rules::at;
use table::Columns;

#[derive(Clone, Copy)]
struct Kept {
    times: at::Times,
    sets: at::Sets,
    codes: at::Codes,
    priority: [u8; 32],
    columns: Columns,
    release: [u64; 32],
    blocked: [u8; 32],
    waits: [u64; 32],
    ticket: u64,
}

#[derive(Clone, Copy)]
struct View {
    ticks: [u64; 4],
    tasks: [u32; 3],
    units: [u8; 6],
}

// What is printed, until it is written.
#[derive(Drop)]
struct Page {
    bytes: [u8; 1048576],
    len: usize,
}

fn text(page: &mut Page, bytes: &[u8]) {
    let mut i = 0;
    while i < bytes.len() {
        page.bytes[page.len + i] = bytes[i];
        i += 1;
    }
    page.len += bytes.len();
}

fn number(page: &mut Page, n: u64) {
    let mut digits = [0u8; 20];
    let mut from = 20;
    let mut left = n;
    while from == 20 || left > 0 {
        from -= 1;
        digits[from] = b'0' + (left % 10) as u8;
        left /= 10;
    }
    text(page, &digits[from..]);
}

fn field(page: &mut Page, n: u64) {
    text(page, b" ");
    number(page, n);
}

// One byte of what is told: nobody is told as a number whose lowest byte is 255.
fn unit(n: u64) -> u64 {
    n % 256
}

fn task(page: &mut Page, n: u64) {
    if unit(n) == 255 {
        text(page, b" -");
    } else {
        field(page, unit(n));
    }
}

fn same(a: &[u64], b: &[u64]) -> bool {
    let mut i = 0;
    while i < a.len() {
        if a[i] != b[i] {
            return false;
        }
        i += 1;
    }
    true
}

fn same_sets(a: &[u32], b: &[u32]) -> bool {
    let mut i = 0;
    while i < a.len() {
        if a[i] != b[i] {
            return false;
        }
        i += 1;
    }
    true
}

fn same_bytes(a: &[u8], b: &[u8]) -> bool {
    let mut i = 0;
    while i < a.len() {
        if a[i] != b[i] {
            return false;
        }
        i += 1;
    }
    true
}

fn same_kept(a: &Kept, b: &Kept) -> bool {
    same(&a.times, &b.times) && same_sets(&a.sets, &b.sets) && same_bytes(&a.codes, &b.codes) && same_bytes(&a.priority, &b.priority)
        && same_sets(&a.columns, &b.columns) && same(&a.release, &b.release) && same_bytes(&a.blocked, &b.blocked)
        && same(&a.waits, &b.waits) && a.ticket == b.ticket
}

fn same_views(a: &View, b: &View) -> bool {
    same(&a.ticks, &b.ticks) && same_sets(&a.tasks, &b.tasks) && same_bytes(&a.units, &b.units)
}

// A refused call is to leave everything as it was, and an enquiry the dispatcher.
fn hold(page: &mut Page, good: bool) {
    if !good {
        text(page, b"a refused call or an enquiry has changed memory\\n");
    }
}

// What a caller in C sees of what is told: the due time where there is one, and what is done and closed where something is.
fn seen(told: &[u64; WORDS]) -> [u64; WORDS] {
    let mut kept = *told;
    if unit(told[4]) == 0 {
        kept[0] = 0;
    }
    let mut i = 2;
    while i < WORDS {
        if i < 5 || i > 7 && i < 10 || i > 11 {
            kept[i] = unit(told[i]);
        }
        if unit(told[2]) == 0 && i > 4 && i < 10 || unit(told[3]) == 0 && i > 9 {
            kept[i] = 0;
        }
        i += 1;
    }
    kept
}

// What occurs: the job and the interval, then a line of a letter, the skipped set and the due time, which is left open.
fn print_occurred(page: &mut Page, told: &[u64; WORDS], letter: &[u8]) {
    let a = seen(told);
    if a[2] != 0 {
        text(page, b"J");
        field(page, a[8]);
        field(page, a[5]);
        field(page, a[6]);
        field(page, a[7]);
        field(page, a[9]);
        text(page, b"\\n");
    }
    if a[3] != 0 {
        text(page, b"I");
        field(page, a[10]);
        field(page, a[11]);
        field(page, a[12]);
        task(page, a[13]);
        field(page, a[14]);
        task(page, a[15]);
        task(page, a[16]);
        field(page, a[17]);
        task(page, a[18]);
        text(page, b"\\n");
    }
    text(page, letter);
    field(page, a[1]);
    if a[4] != 0 {
        field(page, a[0]);
    } else {
        text(page, b" -");
    }
}

fn refused_line(page: &mut Page, refused: u8) {
    text(page, b"R");
    field(page, refused as u64);
    text(page, b"\\n");
}

fn commit(d: &mut Kept, told: &mut [u64; WORDS], ticket: u64, time: u64, set: u32) -> u8 {
    calls::gateway_commit_v5(
        time, set, &mut d.times, &mut d.sets, &mut d.codes, told, &d.priority, &d.columns, &mut d.release, &mut d.blocked, &mut d.waits,
        &mut d.ticket, ticket,
    )
}

fn served(d: &mut Kept, told: &mut [u64; WORDS], time: u64, set: u32) -> u8 {
    calls::gateway_instant_v5(
        time, set, &mut d.times, &mut d.sets, &mut d.codes, told, &d.priority, &d.columns, &mut d.release, &mut d.blocked, &mut d.waits,
        &mut d.ticket,
    )
}

fn answered(page: &mut Page, d: &Kept, before: &Kept, told: &[u64; WORDS], refused: u8) {
    if refused == 0 {
        print_occurred(page, told, b"A");
        text(page, b"\\n");
    } else {
        refused_line(page, refused);
        hold(page, same_kept(d, before));
    }
}

fn view_of(d: &Kept) -> View {
    let mut view = blank();
    calls::gateway_now_v5(&d.times, &d.sets, &d.codes, &mut view.ticks, &mut view.tasks, &mut view.units);
    view
}

fn blank() -> View {
    View { ticks: [11936128518282651045; 4], tasks: [2779096485; 3], units: [165; 6] }
}

// A commit in a copy of the dispatcher does what an enquiry showed, and raises the ticket by one.
fn hold_to_commit(page: &mut Page, d: &Kept, time: u64, set: u32, told: &[u64; WORDS], next: &View, ticket: u64) {
    let mut moved = *d;
    let mut done = [0u64; WORDS];
    let refused = commit(&mut moved, &mut done, ticket, time, set);
    if refused != 0 || moved.ticket != ticket.wrapping_add(1) {
        text(page, b"a commit with the ticket of an enquiry is refused, or raises the ticket by another number\\n");
    }
    if !same(&seen(&done), &seen(told)) || !same_views(&view_of(&moved), next) {
        text(page, b"a commit does something else than its enquiry showed\\n");
    }
}

fn enquiry(page: &mut Page, d: &Kept, time: u64, set: u32) {
    let mut told = [0u64; WORDS];
    let mut next = blank();
    let mut ticket: u64 = 11936128518282651045;
    let refused = calls::gateway_enquire_v5(
        time, set, &d.times, &d.sets, &d.codes, &mut told, &d.priority, &d.columns, &d.release, &d.blocked, &d.waits, &d.ticket,
        &mut ticket, &mut next.ticks, &mut next.tasks, &mut next.units,
    );
    if refused == 0 {
        print_occurred(page, &told, b"E");
        field(page, ticket);
        text(page, b"\\n");
        hold_to_commit(page, d, time, set, &told, &next, ticket);
    } else {
        refused_line(page, refused);
        hold(page, same_views(&next, &blank()) && ticket == 11936128518282651045);
    }
}

// A served mark call changes the marks of its tasks and the ticket, and nothing else.
fn hold_marks(page: &mut Page, before: &Kept, d: &Kept, set: u32, value: u8) {
    let marked = view_of(before).tasks[2];
    let wanted = if value == 1 { marked | set } else { marked & !set };
    if view_of(d).tasks[2] != wanted {
        text(page, b"a mark call leaves other marks\\n");
    }
    let mut other = *before;
    other.ticket = before.ticket.wrapping_add(1);
    other.sets[at::MARKED] = d.sets[at::MARKED];
    if !same_kept(&other, d) {
        text(page, b"a mark call has changed something else than marks\\n");
    }
}

fn marked(page: &mut Page, before: &Kept, d: &Kept, set: u32, value: u8, refused: u8) {
    if refused == 0 {
        text(page, b"M\\n");
        hold_marks(page, before, d, set, value);
    } else {
        refused_line(page, refused);
        hold(page, same_kept(d, before));
    }
}

// The length of a call entry by its kind; 0 of another kind.
fn size_of(kind: u8) -> usize {
    match kind {
        64 => 13,
        66 => 13,
        65 => 3,
        67 => 21,
        68 => 6,
        _ => 0,
    }
}

fn call(page: &mut Page, d: &mut Kept, entry: &[u8]) {
    let before = *d;
    let mut told = [0u64; WORDS];
    match entry[0] {
        64 => {
            let refused = served(d, &mut told, number_at(entry, 1, 8), number_at(entry, 9, 4) as u32);
            answered(page, d, &before, &told, refused);
        }
        65 => {
            let refused = calls::gateway_mark_v5(&mut d.sets, &mut d.ticket, entry[1], entry[2]);
            marked(page, &before, d, 1 << (entry[1] & 31), entry[2], refused);
        }
        68 => {
            let set = number_at(entry, 1, 4) as u32;
            let refused = calls::gateway_marks_v5(&mut d.sets, &mut d.ticket, set, entry[5]);
            marked(page, &before, d, set, entry[5], refused);
        }
        66 => {
            enquiry(page, d, number_at(entry, 1, 8), number_at(entry, 9, 4) as u32);
        }
        _ => {
            let refused = commit(d, &mut told, number_at(entry, 1, 8), number_at(entry, 9, 8), number_at(entry, 17, 4) as u32);
            answered(page, d, &before, &told, refused);
        }
    }
}

fn run(page: &mut Page, d: &mut Kept, input: &[u8]) {
    let mut at = 0;
    while at < input.len() {
        let size = size_of(input[at]);
        if size == 0 || size > input.len() - at {
            text(page, b"X\\n");
            return;
        }
        call(page, d, &input[at..]);
        at += size;
    }
}

fn open(page: &mut Page, entries: &[u8], input: &[u8]) {
    let mut d = Kept {
        times: [6510615555426900570; 7],
        sets: [1515870810; 8],
        codes: [90; 9],
        priority: [90; 32],
        columns: [1515870810; 128],
        release: [6510615555426900570; 32],
        blocked: [90; 32],
        waits: [6510615555426900570; 32],
        ticket: 6510615555426900570,
    };
    let before = d;
    let mut place: usize = 77;
    let refused = calls::gateway_open_v5(
        entries, &mut d.times, &mut d.sets, &mut d.codes, &mut d.priority, &mut d.columns, &mut d.release, &mut d.blocked, &mut d.waits,
        &mut d.ticket, &mut place,
    );
    if refused == 0 {
        text(page, b"O\\n");
        run(page, &mut d, input);
    } else {
        text(page, b"R");
        field(page, refused as u64);
        field(page, place as u64);
        text(page, b"\\n");
        hold(page, same_kept(&d, &before));
    }
}

fn answer(page: &mut Page, input: &[u8]) {
    let mut opening = 0;
    if input.len() >= 4 {
        opening = number_at(input, 0, 4) as usize;
    }
    if input.len() < 4 || input.len() - 4 < opening {
        text(page, b"X\\n");
        return;
    }
    open(page, &input[4..4 + opening], &input[4 + opening..]);
}

pub fn main_of_instants(rt: HostRuntime) {
    let mut input = [0u8; 65536];
    let mut page = Page { bytes: [0u8; 1048576], len: 0 };
    let Ok(count) = streams::fill(rt, &mut input, 0) else {
        return;
    };
    answer(&mut page, &input[..count]);
    let _ = streams::write_front(rt, &page.bytes, page.len);
}
"""
