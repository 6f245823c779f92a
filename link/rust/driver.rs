//! A driver as one would write it: it keeps one dispatcher for each core and calls it at every release and at every due time. It looks first, programs the
//! core's hardware by what it is shown, and then commits.
//!
//!     driver TASKS < RELEASES
//!
//! TASKS is a file with the task entries of every core, and the spacings behind them (./gateway input makes it of a plan without releases). A line of RELEASES
//! is `CORE TIME TASK`, a release, or `CORE TIME mark TASK VALUE`, a mark call; the times do not fall. What occurs is printed as `gateway` prints it, with the
//! core in front. It goes on for ever: late in its count a core goes on with a new dispatcher at an idle moment, and where none comes in time its releases are
//! held back until there is one. The status is 2 where what it reads is rubbish, and 1 where the dispatcher refuses it.

use gateway::{Answer, Dispatcher, Interval, LAST_TICK, Refusal, View};
use std::collections::BTreeMap;
use std::fmt::Display;
use std::io::{self, BufRead, BufWriter, Write};
use std::process::ExitCode;

const CORES: u64 = 64;
const TASKS: usize = 32;

/// The longest line.
const LINE: usize = 127;

/// A core that is idle after half of the ticks that it can count counts anew.
const ENOUGH: u64 = LAST_TICK / 2;

/// Of the driver's own clock: so that no sum of ticks runs over.
const MOST_TIME: u64 = u64::MAX / 2;

/// Why the driver stops: its status, and what it says.
struct Stop(u8, String);

fn rubbish(what: impl Display) -> Stop {
    Stop(2, what.to_string())
}

// ---- What it prints

fn task(task: Option<u8>) -> String {
    task.map_or("-".to_string(), |task| task.to_string())
}

fn print_interval(out: &mut impl Write, number: u8, base: u64, i: &Interval) -> io::Result<()> {
    let (begin, end) = (base + i.begin, base + i.end);
    let (executed, copied_out, chosen, promoted) = (task(i.task), task(i.copied_out), task(i.chosen), task(i.promoted));
    let (work, fate) = (i.work as u8, i.fate as u8);
    writeln!(out, "{number} I {begin} {end} {} {executed} {work} {copied_out} {chosen} {fate} {promoted}", i.half)
}

/// In the order in which things occur: the job done, an interval that ended before the releases, those skipped, an interval that ended after them. A
/// release that waits is told when its job is done.
fn print_answer(out: &mut impl Write, number: u8, base: u64, now: u64, a: &Answer) -> io::Result<()> {
    if let Some(j) = a.done {
        writeln!(out, "{number} J {} {} {} {} {}", j.task, base + j.release, base + j.start, base + j.completion, j.blocked)?;
    }
    if let Some(i) = a.closed.filter(|i| !i.after_releases) {
        print_interval(out, number, base, &i)?;
    }
    for task in (0..TASKS).filter(|task| a.skipped >> task & 1 == 1) {
        writeln!(out, "{number} S {task} {now}")?;
    }
    if let Some(i) = a.closed.filter(|i| i.after_releases) {
        print_interval(out, number, base, &i)?;
    }
    Ok(())
}

// ---- A core

struct Core {
    dispatcher: Dispatcher,
    /// The tick of the driver's clock that is tick 0 of the dispatcher.
    base: u64,
    /// The next due time, in ticks of the driver's clock.
    due: Option<u64>,
    /// Releases of each task that are to be handed in.
    held: [u64; TASKS],
    /// One of them came now.
    has_release: bool,
    /// Of each task the last release that was handed in and not skipped, in ticks of the driver's clock.
    last: [Option<u64>; TASKS],
    /// What the core's hardware was told to do.
    programmed: View,
}

impl Core {
    /// A core begins with a copy of a dispatcher that is opened.
    fn begun(opened: &Dispatcher) -> Core {
        let (dispatcher, programmed) = (opened.clone(), opened.now());
        Core { dispatcher, base: 0, due: None, held: [0; TASKS], has_release: false, last: [None; TASKS], programmed }
    }

    /// With no due time nothing is pending and nothing waits, and a new dispatcher can take over, which is told the marks: at once those that were set, and at
    /// once those that were taken away. Of the last releases it knows nothing: see `too_soon`.
    fn count_anew(&mut self, opened: &Dispatcher, now: u64) -> Result<(), Refusal> {
        let (marked, mut fresh) = (self.dispatcher.marked(), opened.clone());
        let (set, taken_away) = (marked & !fresh.marked(), fresh.marked() & !marked);
        fresh.mark_all(set, true)?;
        fresh.mark_all(taken_away, false)?;
        (self.dispatcher, self.base) = (fresh, now);
        Ok(())
    }

    fn holds(&self) -> bool {
        self.held.iter().any(|&count| count > 0)
    }

    /// One release of each task that has some, as a set.
    fn hand_in(&mut self) -> u32 {
        let mut set = 0;
        for (task, count) in self.held.iter_mut().enumerate().filter(|(_, count)| **count > 0) {
            *count -= 1;
            set |= 1 << task;
        }
        set
    }

    /// The releases of a set that come sooner than the spacing after one that a dispatcher before this one had; of its own it knows.
    fn too_soon(&self, set: u32, now: u64) -> u32 {
        let comes_sooner = |task: usize| {
            let before = self.last[task].filter(|&last| last < self.base);
            before.zip(self.dispatcher.spacing(task as u8)).is_some_and(|(last, spacing)| now - last < u64::from(spacing))
        };
        (0..TASKS).filter(|&task| set >> task & 1 == 1 && comes_sooner(task)).fold(0, |soon, task| soon | 1 << task)
    }

    /// What the engine and the processor are to do, before the dispatcher goes on. Here it is kept; link/hardware.c has the commands that follow from what was
    /// programmed before and this, and hardware that carries them out.
    fn program(&mut self, next: View) {
        self.programmed = next;
    }

    /// Looks first, programs the hardware, and then commits. No other call of this driver comes between: one that has several threads looks again where its
    /// commit is refused by `Refusal::OLD_TICKET`.
    fn look_and_commit(&mut self, tick: u64, set: u32) -> Result<Answer, Refusal> {
        let shown = self.dispatcher.enquire(tick, set)?;
        self.program(shown.next);
        let answer = self.dispatcher.commit(shown.ticket, tick, set)?;
        assert_eq!((answer, self.dispatcher.now()), (shown.answer, self.programmed), "the dispatcher goes on with what the hardware was told");
        Ok(answer)
    }

    /// One call. Where the count is over nothing is handed in, and what is due goes on.
    fn instant(&mut self, now: u64) -> Result<Answer, Refusal> {
        let tick = now - self.base;
        let set = if tick > LAST_TICK { 0 } else { self.hand_in() };
        let soon = self.too_soon(set, now);
        let mut answer = self.look_and_commit(tick, set & !soon)?;
        answer.skipped |= soon;
        for task in (0..TASKS).filter(|task| (set & !answer.skipped) >> task & 1 == 1) {
            self.last[task] = Some(now);
        }
        // a second release of a task has a tick of its own, also where the first was skipped and nothing is due
        let second = (tick < LAST_TICK && self.holds()).then_some(now + 1);
        self.due = answer.due.map(|due| self.base + due).into_iter().chain(second).min();
        Ok(answer)
    }

    fn call(&mut self, number: u8, opened: &Dispatcher, now: u64, out: &mut impl Write) -> Result<(), Stop> {
        loop {
            let refused = |refusal| Stop(1, format!("core {number}, tick {now}: {refusal}"));
            if self.due.is_none() && now - self.base > ENOUGH {
                self.count_anew(opened, now).map_err(refused)?;
            }
            let answer = self.instant(now).map_err(refused)?;
            print_answer(out, number, self.base, now, &answer).map_err(cannot_print)?;
            // if so, it is the idle moment for which they were held back
            if self.due.is_some() || !self.holds() {
                return Ok(());
            }
        }
    }

    /// Whether it is to be called: it is due, or a release came that is not held back.
    fn is_called(&self, now: u64) -> bool {
        let is_over = self.due.is_some() && now - self.base > LAST_TICK;
        self.due == Some(now) || self.has_release && !is_over
    }
}

fn cannot_print(_: io::Error) -> Stop {
    rubbish("what occurs cannot be printed")
}

// ---- What it reads

struct Event {
    core: u8,
    time: u64,
    task: u8,
    mark: Option<bool>,
}

/// None where a word is no number; one that is too large is the largest that there is.
fn number(word: &str) -> Option<u64> {
    word.bytes().all(|byte| byte.is_ascii_digit()).then(|| word.parse().unwrap_or(u64::MAX))
}

fn numbers(words: &[&str]) -> Option<Vec<u64>> {
    words.iter().map(|word| number(word)).collect()
}

fn event(line: &str) -> Result<Option<Event>, &'static str> {
    let words: Vec<&str> = line.split([' ', '\t', '\r']).filter(|word| !word.is_empty()).collect();
    let read = match words[..] {
        [] => return Ok(None),
        [core, time, "mark", task, value] => numbers(&[core, time, task, value]),
        [_, _, _] => numbers(&words),
        _ => None,
    };
    let Some(&[core, time, task, ref mark @ ..]) = read.as_deref() else {
        return Err("neither CORE TIME TASK nor CORE TIME mark TASK VALUE");
    };
    match mark.first() {
        _ if core >= CORES => Err("there are cores 0 to 63"),
        _ if time > MOST_TIME => Err("a time over 9223372036854775807"),
        _ if task >= TASKS as u64 => Err("there are tasks 0 to 31"),
        Some(2..) => Err("a mark is 0 or 1"),
        mark => Ok(Some(Event { core: core as u8, time, task: task as u8, mark: mark.map(|&value| value == 1) })),
    }
}

/// The lines of standard input, with their numbers.
struct Lines<R> {
    input: R,
    number: u64,
}

impl<R: BufRead> Lines<R> {
    fn stop(&self, what: &str) -> Stop {
        rubbish(format!("line {}: {what}", self.number))
    }

    fn next_event(&mut self) -> Result<Option<Event>, Stop> {
        loop {
            let mut line = Vec::new();
            let most = LINE as u64 + 1;
            let read = io::Read::take(&mut self.input, most).read_until(b'\n', &mut line);
            if read.map_err(|_| rubbish("the releases cannot be read"))? == 0 {
                return Ok(None);
            }
            self.number += 1;
            if line.pop_if(|&mut byte| byte == b'\n').is_none() && line.len() > LINE {
                return Err(self.stop("it is too long"));
            }
            if let Some(event) = event(&String::from_utf8_lossy(&line)).map_err(|what| self.stop(what))? {
                return Ok(Some(event));
            }
        }
    }
}

struct Driver {
    /// A core begins with a copy of it.
    opened: Dispatcher,
    cores: BTreeMap<u8, Core>,
}

impl Driver {
    fn take(&mut self, event: Event) {
        let core = self.cores.entry(event.core).or_insert_with(|| Core::begun(&self.opened));
        let held = &mut core.held[usize::from(event.task)];
        let Some(value) = event.mark else {
            *held += 1;
            core.has_release = true;
            return;
        };
        let busy = (*held > 0).then_some(Refusal { number: Refusal::TASK_BUSY, place: None });
        if let Err(refusal) = busy.map_or_else(|| core.dispatcher.mark(event.task, value), Err) {
            eprintln!("driver: core {}, tick {}: the mark of task {}: {refusal}", event.core, event.time, event.task);
        }
    }

    /// The next tick on which a core is due.
    fn due(&self) -> Option<u64> {
        self.cores.values().filter_map(|core| core.due).min()
    }

    fn call(&mut self, now: u64, out: &mut impl Write) -> Result<(), Stop> {
        for (&number, core) in &mut self.cores {
            if core.is_called(now) {
                core.call(number, &self.opened, now, out)?;
            }
            core.has_release = false;
        }
        Ok(())
    }
}

fn drive() -> Result<(), Stop> {
    let words: Vec<String> = std::env::args().collect();
    let [_, path] = &words[..] else {
        return Err(rubbish("usage: driver TASKS < RELEASES"));
    };
    let entries = std::fs::read(path).map_err(|why| rubbish(format!("{path}: {why}")))?;
    let opened = Dispatcher::open(&entries).map_err(|refusal| Stop(1, format!("the tasks: {refusal}")))?;
    let mut driver = Driver { opened, cores: BTreeMap::new() };
    let mut out = BufWriter::new(io::stdout().lock());
    let mut lines = Lines { input: io::stdin().lock(), number: 0 };
    let mut next = lines.next_event()?;
    let mut last = 0;
    while let Some(now) = driver.due().into_iter().chain(next.as_ref().map(|event| event.time)).min() {
        if now < last {
            return Err(lines.stop("the times fall"));
        }
        last = now;
        while let Some(event) = next.take_if(|event| event.time == now) {
            driver.take(event);
            next = lines.next_event()?;
        }
        driver.call(now, &mut out)?;
    }
    out.flush().map_err(cannot_print)
}

fn main() -> ExitCode {
    let Err(Stop(status, what)) = drive() else {
        return ExitCode::SUCCESS;
    };
    eprintln!("driver: {what}");
    ExitCode::from(status)
}
