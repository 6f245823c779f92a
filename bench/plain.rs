//! The same work in plain Rust, written to be fast: the state is updated in place, a set's members are found by counting trailing
//! zeros, and nothing is proved. It answers the same numbers and writes the same bytes as the proved function.

const NONE: u8 = 255;
const LAST_TIME: u64 = 1_000_000_000;
const MOST_RELEASES: usize = 4096;
const LONGEST: u32 = 1_000_000;
const LONGEST_SPACING: u32 = 1_000_000_000;

// The lengths of entries: of a task, of a spacing, of a job, of an interval, and of a release, skipped or not.
const TASK: usize = 16;
const SPACING: usize = 6;
const JOB: usize = 27;
const INTERVAL: usize = 24;
const TIMED: usize = 10;

#[derive(Clone, Copy, PartialEq)]
enum Unit {
    Free,
    CopyingIn,
    Executing,
    CopyingOut,
}

#[derive(Clone)]
struct State {
    priority: [u8; 32],
    /// of each task the set of those that have its priority
    equals: [u32; 32],
    copy_in: [u32; 32],
    execution: [u32; 32],
    copy_out: [u32; 32],
    spacing: [u32; 32],
    present: u32,
    /// the tasks with a spacing, and of each the first tick at which a release passes
    spaced: u32,
    passes_from: [u64; 32],
    marked: u32,
    pending: u32,
    waiting: u32,
    ready: u32,
    candidates: u32,
    waiting_since: [u64; 32],
    release: [u64; 32],
    start: [u64; 32],
    blocked: [u8; 32],
    open: bool,
    begin: u64,
    half: u8,
    executed: u8,
    work: u8,
    copied_out: u8,
    choice_made: bool,
    chosen: u8,
    fate: u8,
    processor: Unit,
    processor_end: u64,
    engine: Unit,
    engine_end: u64,
    loaded: u8,
    promoted: u8,
    outgoing: u8,
    instants: u64,
}

/// What is told of what occurs. An interval ends before the releases of its instant or after them.
trait Events {
    fn job(&mut self, task: u8, release: u64, start: u64, completion: u64, blocked: u8);
    fn interval(&mut self, s: &State, end: u64, promoted: u8, after: bool);
    fn skipped(&mut self, tasks: u32, time: u64);
}

/// What becomes of a run's entries.
trait Entries {
    fn put<const N: usize>(&mut self, bytes: [u8; N]);
}

impl<T: Entries> Events for T {
    #[inline]
    fn job(&mut self, task: u8, release: u64, start: u64, completion: u64, blocked: u8) {
        let mut e = [16; JOB];
        e[1] = task;
        e[2..10].copy_from_slice(&release.to_le_bytes());
        e[10..18].copy_from_slice(&start.to_le_bytes());
        e[18..26].copy_from_slice(&completion.to_le_bytes());
        e[26] = blocked;
        self.put(e);
    }

    #[inline]
    fn interval(&mut self, s: &State, end: u64, promoted: u8, _after: bool) {
        let mut e = [17; INTERVAL];
        e[1..9].copy_from_slice(&s.begin.to_le_bytes());
        e[9..17].copy_from_slice(&end.to_le_bytes());
        e[17] = s.half;
        e[18] = s.executed;
        e[19] = s.work;
        e[20] = s.copied_out;
        e[21] = s.chosen;
        e[22] = s.fate;
        e[23] = promoted;
        self.put(e);
    }

    #[inline]
    fn skipped(&mut self, tasks: u32, time: u64) {
        let mut left = tasks;
        while left != 0 {
            self.put(timed(18, left.trailing_zeros() as u8, time));
            left &= left - 1;
        }
    }
}

/// An entry of a task and a time: a release, or a release skipped.
#[inline]
fn timed(kind: u8, task: u8, time: u64) -> [u8; TIMED] {
    let mut e = [kind; TIMED];
    e[1] = task;
    e[2..10].copy_from_slice(&time.to_le_bytes());
    e
}

/// Writes them.
struct Writer<'a> {
    out: &'a mut [u8],
    at: usize,
    keep: bool,
}

impl Entries for Writer<'_> {
    #[inline]
    fn put<const N: usize>(&mut self, bytes: [u8; N]) {
        if self.keep {
            self.out[self.at..self.at + N].copy_from_slice(&bytes);
        }
        self.at += N;
    }
}

/// Holds them against the entries of a record.
struct Held<'a> {
    record: &'a [u8],
    at: usize,
    alike: bool,
}

impl Entries for Held<'_> {
    #[inline]
    fn put<const N: usize>(&mut self, bytes: [u8; N]) {
        self.alike &= self.record.get(self.at..self.at + N) == Some(&bytes[..]);
        self.at += N;
    }
}

impl State {
    /// Releases are looked at only where another task of the set has the highest priority too.
    #[inline]
    fn highest(&self, set: u32) -> u8 {
        let mut left = set;
        let mut best = NONE;
        let mut least = 256;
        while left != 0 {
            let n = left.trailing_zeros() as usize;
            let p = self.priority[n] as u32;
            if p < least {
                least = p;
                best = n as u8;
            }
            left &= left - 1;
        }
        if set == 0 {
            return NONE;
        }
        let equals = set & self.equals[best as usize & 31];
        if equals & (equals - 1) == 0 { best } else { self.earliest(equals) }
    }

    /// Of tasks of one priority the one released first by its original time, and of those of one tick the lowest number, which comes first.
    #[inline]
    fn earliest(&self, set: u32) -> u8 {
        let mut left = set;
        let mut best = NONE;
        let mut first = u64::MAX;
        while left != 0 {
            let n = left.trailing_zeros() as usize;
            if self.release[n] < first {
                first = self.release[n];
                best = n as u8;
            }
            left &= left - 1;
        }
        best
    }

    /// A task that is in the table joins those of its priority.
    fn join_equals(&mut self, n: usize) {
        let mut equals = 0;
        let mut left = self.present;
        while left != 0 {
            let other = left.trailing_zeros() as usize;
            if self.priority[other] == self.priority[n] {
                self.equals[other] |= 1 << n;
                equals |= 1 << other;
            }
            left &= left - 1;
        }
        self.equals[n] = equals;
    }

    #[inline]
    fn due(&self) -> u64 {
        if !self.open {
            return u64::MAX;
        }
        let processor = if self.processor == Unit::Free { u64::MAX } else { self.processor_end };
        let engine = if self.engine == Unit::Free { u64::MAX } else { self.engine_end };
        processor.min(engine)
    }

    #[inline]
    fn choose(&mut self, now: u64) {
        self.choice_made = true;
        let n = self.highest(self.ready);
        if n != NONE {
            self.ready &= !(1 << n);
            self.chosen = n;
            self.engine = Unit::CopyingIn;
            self.engine_end = now + self.copy_in[n as usize] as u64;
        }
    }

    #[inline]
    fn is_over(&self) -> bool {
        self.open && self.processor == Unit::Free && self.choice_made && self.engine == Unit::Free
    }

    #[inline]
    fn end_interval(&mut self, now: u64, after: bool, w: &mut impl Events) {
        self.open = false;
        if self.executed != NONE {
            let limit = self.priority[self.executed as usize];
            let mut left = self.ready;
            if self.fate == 1 {
                left |= 1 << self.chosen;
            }
            while left != 0 {
                let n = left.trailing_zeros() as usize;
                if self.priority[n] < limit {
                    self.blocked[n] = self.blocked[n].saturating_add(1);
                }
                left &= left - 1;
            }
        }
        self.outgoing = self.executed;
        self.loaded = NONE;
        self.promoted = NONE;
        if self.fate == 1 {
            self.loaded = self.chosen;
        } else {
            self.promoted = self.highest(self.candidates & self.ready);
            if self.promoted != NONE {
                self.ready &= !(1 << self.promoted);
            }
        }
        self.candidates = 0;
        let promoted = self.promoted;
        w.interval(self, now, promoted, after);
    }

    /// A job completes: its task's waiting release, if any, is pending in its place. The set of what is taken so.
    #[inline]
    fn complete(&mut self, n: usize) -> u32 {
        let first = self.waiting & 1 << n;
        if first == 0 {
            self.pending ^= 1 << n;
        } else {
            self.waiting ^= first;
            self.release[n] = self.waiting_since[n];
            self.blocked[n] = 0;
        }
        first
    }

    /// Of releases of tasks with a spacing, of which none waits, those that come too soon; the others are the last of their tasks from now on.
    #[inline]
    fn too_soon(&mut self, now: u64, released: u32) -> u32 {
        let mut left = released;
        let mut soon = 0;
        while left != 0 {
            let n = left.trailing_zeros() as usize;
            if now < self.passes_from[n] {
                soon |= 1 << n;
            } else {
                self.passes_from[n] = now + u64::from(self.spacing[n]);
            }
            left &= left - 1;
        }
        soon
    }

    /// The releases of the instant are taken, wait or are skipped, behind what is taken at a completion. The set taken, with that. One that finds
    /// another waiting is skipped whenever it comes, so that its spacing need not be looked at.
    #[inline]
    fn take(&mut self, first: u32, now: u64, released: u32, w: &mut impl Events) -> u32 {
        let soon = self.too_soon(now, released & self.spaced & !self.waiting);
        let passed = released & !soon;
        let new = passed & !self.pending;
        let behind = passed & self.pending;
        w.skipped(soon | behind & self.waiting, now);
        let mut left = behind & !self.waiting;
        self.waiting |= left;
        while left != 0 {
            self.waiting_since[left.trailing_zeros() as usize] = now;
            left &= left - 1;
        }
        left = new;
        while left != 0 {
            let n = left.trailing_zeros() as usize;
            self.release[n] = now;
            self.blocked[n] = 0;
            left &= left - 1;
        }
        let taken = new | first;
        self.pending |= new;
        self.ready |= taken;
        self.candidates |= taken & self.marked;
        taken
    }

    #[inline]
    fn instant(&mut self, now: u64, released: u32, w: &mut impl Events) {
        self.instants += 1;
        let mut first = 0;
        // a
        if self.open {
            if self.engine != Unit::Free && self.engine_end == now {
                if self.engine == Unit::CopyingOut {
                    let n = self.copied_out as usize;
                    w.job(n as u8, self.release[n], self.start[n], now, self.blocked[n]);
                    first = self.complete(n);
                } else {
                    self.fate = 1;
                }
                self.engine = Unit::Free;
            }
            if self.processor != Unit::Free && self.processor_end == now {
                if self.processor == Unit::CopyingIn {
                    let n = self.executed as usize;
                    self.start[n] = now;
                    self.processor = Unit::Executing;
                    self.processor_end = now + self.execution[n] as u64;
                } else {
                    self.processor = Unit::Free;
                }
            }
        }
        // b
        if self.is_over() {
            self.end_interval(now, false, w);
        }
        // c
        let taken = self.take(first, now, released, w);
        if self.open {
            // d
            if taken & self.marked != 0 && self.chosen != NONE && self.fate < 2 {
                let n = self.highest(taken & self.marked);
                if self.priority[n as usize] < self.priority[self.chosen as usize] {
                    self.engine = Unit::Free;
                    // under way (0) it is cancelled (2), and done (1) it is thrown out (3)
                    self.fate += 2;
                    self.ready |= 1 << self.chosen;
                }
            }
            // e
            if self.engine == Unit::Free && !self.choice_made {
                self.choose(now);
            }
            // f
            if self.is_over() {
                self.end_interval(now, true, w);
            }
        }
        // g
        let work = self.ready != 0 || self.loaded != NONE || self.promoted != NONE || self.outgoing != NONE;
        if !self.open && work {
            self.open = true;
            self.half = 1 - self.half;
            self.begin = now;
            self.executed = NONE;
            self.work = 0;
            self.copied_out = NONE;
            self.choice_made = false;
            self.chosen = NONE;
            self.fate = 0;
            self.processor = Unit::Free;
            self.engine = Unit::Free;
            if self.outgoing == NONE {
                self.choose(now);
            } else {
                self.copied_out = self.outgoing;
                self.engine = Unit::CopyingOut;
                self.engine_end = now + self.copy_out[self.outgoing as usize] as u64;
            }
            if self.promoted != NONE {
                self.executed = self.promoted;
                self.work = 2;
                self.processor = Unit::CopyingIn;
                self.processor_end = now + self.copy_in[self.promoted as usize] as u64;
            } else if self.loaded != NONE {
                self.executed = self.loaded;
                self.work = 1;
                self.start[self.loaded as usize] = now;
                self.processor = Unit::Executing;
                self.processor_end = now + self.execution[self.loaded as usize] as u64;
            }
            self.outgoing = NONE;
            self.loaded = NONE;
            self.promoted = NONE;
        }
    }
}

fn word(s: &[u8], at: usize) -> u32 {
    u32::from_le_bytes(s[at..at + 4].try_into().unwrap())
}

#[inline]
fn time_at(s: &[u8], at: usize) -> u64 {
    u64::from_le_bytes(s[at + 2..at + 10].try_into().unwrap())
}

fn opened() -> State {
    State {
        priority: [0; 32],
        equals: [0; 32],
        copy_in: [0; 32],
        execution: [0; 32],
        copy_out: [0; 32],
        spacing: [0; 32],
        present: 0,
        spaced: 0,
        passes_from: [0; 32],
        marked: 0,
        pending: 0,
        waiting: 0,
        ready: 0,
        candidates: 0,
        waiting_since: [0; 32],
        release: [0; 32],
        start: [0; 32],
        blocked: [0; 32],
        open: false,
        begin: 0,
        half: 1,
        executed: NONE,
        work: 0,
        copied_out: NONE,
        choice_made: false,
        chosen: NONE,
        fate: 0,
        processor: Unit::Free,
        processor_end: 0,
        engine: Unit::Free,
        engine_end: 0,
        loaded: NONE,
        promoted: NONE,
        outgoing: NONE,
        instants: 0,
    }
}

/// The table, and the place behind its last entry; or a refusal.
fn read_table(s: &[u8], state: &mut State) -> Result<usize, (u8, usize)> {
    let mut at = 0;
    while at < s.len() {
        match s[at] {
            1 => {
                if s.len() - at < TASK {
                    return Err((1, at));
                }
                if state.spaced != 0 {
                    return Err((3, at));
                }
                let n = s[at + 1];
                if n > 31 || state.present >> n & 1 == 1 {
                    return Err((4, at));
                }
                let mark = s[at + 3];
                if mark > 1 {
                    return Err((6, at));
                }
                let lengths = [word(s, at + 4), word(s, at + 8), word(s, at + 12)];
                if lengths.iter().any(|&x| x == 0 || x > LONGEST) {
                    return Err((7, at));
                }
                let i = n as usize;
                state.present |= 1 << n;
                state.marked |= (mark as u32) << n;
                state.priority[i] = s[at + 2];
                state.join_equals(i);
                state.copy_in[i] = lengths[0];
                state.execution[i] = lengths[1];
                state.copy_out[i] = lengths[2];
                at += TASK;
            }
            3 => {
                if s.len() - at < SPACING {
                    return Err((1, at));
                }
                let (n, ticks) = (s[at + 1], word(s, at + 2));
                if n > 31 || state.present >> n & 1 == 0 {
                    return Err((8, at));
                }
                if ticks == 0 || ticks > LONGEST_SPACING || state.spaced >> n & 1 == 1 {
                    return Err((19, at));
                }
                state.spaced |= 1 << n;
                state.spacing[n as usize] = ticks;
                at += SPACING;
            }
            2 => return Ok(at),
            _ => return Err((2, at)),
        }
    }
    Ok(at)
}

fn check_releases(s: &[u8], start: usize, present: u32) -> Result<(), (u8, usize)> {
    let mut at = start;
    let mut count = 0;
    let mut last = None;
    while at < s.len() {
        match s[at] {
            2 => {
                if s.len() - at < 10 {
                    return Err((1, at));
                }
                let task = s[at + 1];
                let time = time_at(s, at);
                if task > 31 || present >> task & 1 == 0 {
                    return Err((8, at));
                }
                if time > LAST_TIME {
                    return Err((10, at));
                }
                if last.is_some_and(|before| (time, task) <= before) {
                    return Err((9, at));
                }
                if count == MOST_RELEASES {
                    return Err((11, at));
                }
                last = Some((time, task));
                count += 1;
                at += 10;
            }
            1 if s.len() - at < TASK => return Err((1, at)),
            3 if s.len() - at < SPACING => return Err((1, at)),
            1 | 3 => return Err((3, at)),
            _ => return Err((2, at)),
        }
    }
    Ok(())
}

fn run(s: &[u8], start: usize, state: &mut State, w: &mut Writer) {
    let mut at = start;
    loop {
        let due = state.due();
        let next = if at < s.len() { time_at(s, at) } else { u64::MAX };
        let now = due.min(next);
        if now == u64::MAX {
            return;
        }
        let mut released = 0;
        while at < s.len() && time_at(s, at) == now {
            released |= 1 << s[at + 1];
            at += 10;
        }
        state.instant(now, released, w);
    }
}

/// The number of the refusal and its value, as the proved function tells them, and how many instants were run.
pub fn record(s: &[u8], out: &mut [u8]) -> (u8, usize, u64) {
    if s.is_empty() {
        return (12, 0, 0);
    }
    let mut state = opened();
    let start = match read_table(s, &mut state) {
        Ok(start) => start,
        Err((number, place)) => return (number, place, 0),
    };
    if let Err((number, place)) = check_releases(s, start, state.present) {
        return (number, place, 0);
    }
    let releases = (s.len() - start) / 10;
    if 99 * releases > out.len() {
        let mut measured = opened();
        let _ = read_table(s, &mut measured);
        let mut w = Writer { out: &mut [], at: 0, keep: false };
        run(s, start, &mut measured, &mut w);
        if w.at > out.len() {
            return (13, w.at, measured.instants);
        }
    }
    let mut w = Writer { out, at: 0, keep: true };
    run(s, start, &mut state, &mut w);
    (0, w.at, state.instants)
}

/// A release as one number, by time and then task: both fit.
fn key(task: u8, time: u64) -> u64 {
    time << 5 | u64::from(task)
}

/// The releases of a record's entries, as keys in the order of the entries; none where one of them cannot be a file's or there are too many. Or
/// the refusal of an entry.
fn collect(record: &[u8], present: u32) -> Result<Option<Vec<u64>>, (u8, usize)> {
    let mut at = 0;
    let mut keys = Vec::with_capacity(MOST_RELEASES.min(record.len() / TIMED));
    let mut admissible = true;
    while at < record.len() {
        let size = match record[at] {
            16 => JOB,
            17 => INTERVAL,
            18 => TIMED,
            _ => return Err((2, at)),
        };
        if record.len() - at < size {
            return Err((1, at));
        }
        if size != INTERVAL && admissible {
            let task = record[at + 1];
            let time = time_at(record, at);
            admissible = task < 32 && present >> task & 1 == 1 && time <= LAST_TIME && keys.len() < MOST_RELEASES;
            keys.push(key(task, time));
        }
        at += size;
    }
    Ok(admissible.then_some(keys))
}

/// Whether the run of a list of releases has this record.
fn yields(keys: &[u64], state: &mut State, record: &[u8]) -> bool {
    let mut held = Held { record, at: 0, alike: true };
    let mut at = 0;
    while held.alike {
        let next = keys.get(at).map_or(u64::MAX, |key| key >> 5);
        let now = state.due().min(next);
        if now == u64::MAX {
            return held.at == record.len();
        }
        let mut released = 0;
        while at < keys.len() && keys[at] >> 5 == now {
            released |= 1 << (keys[at] & 31);
            at += 1;
        }
        state.instant(now, released, &mut held);
    }
    false
}

/// The releases that made a record, written into the front of `out`: what is told is as for `record`.
pub fn read(tasks: &[u8], record: &[u8], out: &mut [u8]) -> (u8, usize, u64) {
    if tasks.is_empty() {
        return (12, 0, 0);
    }
    let mut state = opened();
    match read_table(tasks, &mut state) {
        Ok(end) if end < tasks.len() => return (2, end, 0),
        Ok(_) => {}
        Err((number, place)) => return (number, place, 0),
    }
    let mut keys = match collect(record, state.present) {
        Ok(Some(keys)) => keys,
        Ok(None) => return (18, 0, 0),
        Err((number, place)) => return (number, place, 0),
    };
    keys.sort_unstable();
    if keys.windows(2).any(|pair| pair[0] == pair[1]) || !yields(&keys, &mut state, record) {
        return (18, 0, state.instants);
    }
    let needed = TIMED * keys.len();
    if out.len() < needed {
        return (13, needed, state.instants);
    }
    for (entry, key) in out.chunks_exact_mut(TIMED).zip(keys) {
        entry.copy_from_slice(&timed(2, (key & 31) as u8, key >> 5));
    }
    (0, needed, state.instants)
}

const HEADER: &[u8] = b"$timescale 1 us $end\n\
    $scope module gateway $end\n\
    $var wire 8 a processor $end\n\
    $var wire 8 b copy_in $end\n\
    $var wire 8 c copy_out $end\n\
    $var wire 1 d half $end\n\
    $upscope $end\n\
    $enddefinitions $end\n";

// Lengths of a dump's lines: of a value of eight wires and of one. And more than a dump takes for each release: a record has at most three intervals
// for each, an interval the ends of four phases, and an instant takes 52 bytes.
const WIRES: usize = 12;
const WIRE: usize = 3;
const DUMP_EACH: usize = 13 * 52;

/// The eight digits of each value, the first one in the lowest byte.
const DIGITS: [u64; 256] = {
    let mut all = [0; 256];
    let mut n = 0;
    while n < 256 {
        let mut bit = 0;
        while bit < 8 {
            all[n] |= (48 + (n as u64 >> (7 - bit) & 1)) << (8 * bit);
            bit += 1;
        }
        n += 1;
    }
    all
};

/// What a viewer shows: processor, copy-in and copy-out, a byte each from the lowest on, and the half.
type Shown = u32;

const NOBODY: Shown = 0x00ff_ffff;

/// A run that nobody records.
struct Unheard;

impl Events for Unheard {
    #[inline]
    fn job(&mut self, _task: u8, _release: u64, _start: u64, _completion: u64, _blocked: u8) {}
    #[inline]
    fn interval(&mut self, _s: &State, _end: u64, _promoted: u8, _after: bool) {}
    #[inline]
    fn skipped(&mut self, _tasks: u32, _time: u64) {}
}

impl State {
    /// After an instant: the first one opens an interval, so that the half is one of an interval.
    #[inline]
    fn shown(&self) -> Shown {
        let processor = if self.open && self.processor != Unit::Free { self.executed } else { NONE };
        let copy_in = if self.open && self.engine == Unit::CopyingIn { self.chosen } else { NONE };
        let copy_out = if self.open && self.engine == Unit::CopyingOut { self.copied_out } else { NONE };
        u32::from_le_bytes([processor, copy_in, copy_out, self.half])
    }
}

/// What becomes of a dump's lines. `width` is the number of the time's digits; `changed` has a bit set in each byte that is new.
trait Lines {
    fn put(&mut self, time: u64, width: usize, changed: u32, shown: Shown);
}

/// Their length.
struct Counted(usize);

impl Lines for Counted {
    #[inline]
    fn put(&mut self, _time: u64, width: usize, changed: u32, _shown: Shown) {
        let wires = [0xff, 0xff00, 0xff_0000].map(|byte| usize::from(changed & byte != 0));
        self.0 += width + 2 + WIRES * (wires[0] + wires[1] + wires[2]) + WIRE * usize::from(changed >> 24 != 0);
    }
}

/// They are laid into a slice that is long enough.
struct Laid<'a> {
    out: &'a mut [u8],
    at: usize,
}

impl Lines for Laid<'_> {
    #[inline]
    fn put(&mut self, time: u64, width: usize, changed: u32, shown: Shown) {
        let mark = &mut self.out[self.at..self.at + width + 2];
        mark[0] = b'#';
        let mut left = time;
        for digit in mark[1..=width].iter_mut().rev() {
            *digit = 48 + (left % 10) as u8;
            left /= 10;
        }
        mark[width + 1] = b'\n';
        self.at += width + 2;
        for wave in 0..3 {
            if changed >> (8 * wave) & 0xff != 0 {
                let line = &mut self.out[self.at..self.at + WIRES];
                line[0] = b'b';
                line[1..9].copy_from_slice(&DIGITS[(shown >> (8 * wave) & 0xff) as usize].to_le_bytes());
                line[9..].copy_from_slice(&[b' ', b'a' + wave as u8, b'\n']);
                self.at += WIRES;
            }
        }
        if changed >> 24 != 0 {
            self.out[self.at..self.at + WIRE].copy_from_slice(&[48 + (shown >> 24) as u8, b'd', b'\n']);
            self.at += WIRE;
        }
    }
}

/// The lines of a run. Its times rise, so that their digits are counted on.
fn draw(s: &[u8], start: usize, state: &mut State, lines: &mut impl Lines) {
    let mut at = start;
    let (mut width, mut limit) = (1, 10);
    // before the first line every value is new
    let (mut before, mut all) = (NOBODY, u32::MAX);
    loop {
        let due = state.due();
        let next = if at < s.len() { time_at(s, at) } else { u64::MAX };
        let now = due.min(next);
        if all != 0 && now != 0 {
            lines.put(0, 1, all, NOBODY);
            all = 0;
        }
        if now == u64::MAX {
            return;
        }
        let mut released = 0;
        while at < s.len() && time_at(s, at) == now {
            released |= 1 << s[at + 1];
            at += 10;
        }
        state.instant(now, released, &mut Unheard);
        let shown = state.shown();
        let changed = (shown ^ before) | all;
        while now >= limit {
            width += 1;
            limit *= 10;
        }
        if changed != 0 {
            lines.put(now, width, changed, shown);
        }
        (before, all) = (shown, 0);
    }
}

/// The value change dump of an input: what is told is as for `record`. Where there is room for the longest of so many releases the run is made
/// once, otherwise once more before it, for the length alone.
pub fn waveform(s: &[u8], out: &mut [u8]) -> (u8, usize, u64) {
    if s.is_empty() {
        return (12, 0, 0);
    }
    let mut state = opened();
    let start = match read_table(s, &mut state) {
        Ok(start) => start,
        Err((number, place)) => return (number, place, 0),
    };
    if let Err((number, place)) = check_releases(s, start, state.present) {
        return (number, place, 0);
    }
    let releases = (s.len() - start) / 10;
    if HEADER.len() + DUMP_EACH * (releases + 1) > out.len() {
        let mut measured = state.clone();
        let mut counted = Counted(HEADER.len());
        draw(s, start, &mut measured, &mut counted);
        if counted.0 > out.len() {
            return (13, counted.0, measured.instants);
        }
    }
    out[..HEADER.len()].copy_from_slice(HEADER);
    let mut laid = Laid { out, at: HEADER.len() };
    draw(s, start, &mut state, &mut laid);
    (0, laid.at, state.instants)
}

/// What an instant tells, as the proved function does.
#[derive(Clone, Copy, Default, PartialEq, Debug)]
pub struct Told {
    /// done, closed and is_due
    pub flags: [u8; 3],
    pub skipped: u32,
    pub due: u64,
    /// release, execution start and completion; task and blocked intervals
    pub job: ([u64; 3], [u8; 2]),
    /// begin and end; the seven bytes of kind 17
    pub interval: ([u64; 2], [u8; 7]),
}

impl Events for Told {
    #[inline]
    fn job(&mut self, task: u8, release: u64, start: u64, completion: u64, blocked: u8) {
        self.flags[0] = 1;
        self.job = ([release, start, completion], [task, blocked]);
    }

    #[inline]
    fn interval(&mut self, s: &State, end: u64, promoted: u8, after: bool) {
        self.flags[1] = if after { 2 } else { 1 };
        self.interval = ([s.begin, end], [s.half, s.executed, s.work, s.copied_out, s.chosen, s.fate, promoted]);
    }

    #[inline]
    fn skipped(&mut self, tasks: u32, _time: u64) {
        self.skipped = tasks;
    }
}

/// What goes on after an instant, as the proved function shows it: begin and ends; pending, waiting and marked; whether an interval is open, its work, and who
/// is where, with the half.
#[derive(Clone, Copy, Default, PartialEq, Debug)]
pub struct View {
    pub ticks: [u64; 4],
    pub tasks: [u32; 3],
    pub units: [u8; 6],
}

impl State {
    #[inline]
    fn view(&self) -> View {
        let [processor, copy_in, copy_out, half] = self.shown().to_le_bytes();
        let until = |task: u8, end: u64| if task == NONE { 0 } else { end };
        let (begin, work) = if self.open { (self.begin, self.work) } else { (0, 0) };
        View {
            ticks: [begin, until(processor, self.processor_end), until(copy_in, self.engine_end), until(copy_out, self.engine_end)],
            tasks: [self.pending, self.waiting, self.marked],
            units: [u8::from(self.open), work, processor, copy_in, copy_out, half],
        }
    }
}

/// A dispatcher that is advanced in place.
#[derive(Clone)]
pub struct Dispatcher {
    state: State,
    last: Option<u64>,
    ticket: u64,
}

impl Dispatcher {
    /// From task entries that are in order.
    pub fn open(entries: &[u8]) -> Dispatcher {
        let mut state = opened();
        assert_eq!(read_table(entries, &mut state), Ok(entries.len()));
        Dispatcher { state, last: None, ticket: 0 }
    }

    #[inline]
    fn refusal(&self, time: u64, set: u32) -> u8 {
        if set & !self.state.present != 0 {
            return 16;
        }
        if set != 0 && time > LAST_TIME {
            return 10;
        }
        if self.last.is_some_and(|last| time <= last) {
            return 14;
        }
        if self.state.due() < time {
            return 15;
        }
        0
    }

    #[inline]
    fn serve(&mut self, time: u64, set: u32, told: &mut Told) -> u8 {
        let number = self.refusal(time, set);
        if number != 0 {
            return number;
        }
        self.last = Some(time);
        self.ticket = self.ticket.wrapping_add(1);
        told.flags[0] = 0;
        told.flags[1] = 0;
        self.state.instant(time, set, told);
        told.due = self.state.due();
        told.flags[2] = u8::from(told.due != u64::MAX);
        0
    }

    /// A function of its own, as a library's is for its caller; and so are those below.
    #[inline(never)]
    pub fn instant(&mut self, time: u64, set: u32, told: &mut Told) -> u8 {
        self.serve(time, set, told)
    }

    #[inline(never)]
    pub fn commit(&mut self, ticket: u64, time: u64, set: u32, told: &mut Told) -> u8 {
        if ticket != self.ticket {
            return 20;
        }
        self.serve(time, set, told)
    }

    /// What is not refused is stepped in a copy.
    #[inline(never)]
    pub fn enquire(&self, time: u64, set: u32, told: &mut Told, next: &mut View, ticket: &mut u64) -> u8 {
        let number = self.refusal(time, set);
        if number != 0 {
            return number;
        }
        let mut copy = self.clone();
        copy.serve(time, set, told);
        *next = copy.state.view();
        *ticket = self.ticket;
        0
    }
}
