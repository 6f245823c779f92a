//! An instant of a dispatcher that is kept, a commit and an enquiry, proved and plain, on the same calls.

use crate::gateway::{Dispatcher, Shown, Told};
use crate::inputs;
use crate::plain;

/// A dispatcher's opening entries, and the calls that its releases and due times make: time and set.
pub struct Calls {
    pub entries: Vec<u8>,
    pub calls: Vec<(u64, u32)>,
}

fn as_plain(told: &Told) -> plain::Told {
    plain::Told {
        flags: told.flags.map(|word| word as u8),
        skipped: told.skipped as u32,
        due: if told.flags[2] == 0 { u64::MAX } else { told.due },
        job: (told.job_times, told.job_bytes.map(|word| word as u8)),
        interval: (told.interval_times, told.interval_bytes.map(|word| word as u8)),
    }
}

fn differ(name: &str, time: u64, proved: impl std::fmt::Debug, plain: impl std::fmt::Debug) -> ! {
    eprintln!("{name}: at {time} they answer and tell {proved:?} and {plain:?}");
    std::process::exit(1);
}

/// What an enquiry tells and shows, and its ticket.
#[derive(Clone, Copy, Default)]
pub struct Proved {
    pub told: Told,
    pub shown: Shown,
    pub ticket: u64,
}

#[derive(Clone, Copy, Default)]
pub struct Plain {
    pub told: plain::Told,
    pub next: plain::View,
    pub ticket: u64,
}

fn as_view(shown: &Shown) -> plain::View {
    plain::View { ticks: shown.ticks, tasks: shown.tasks, units: shown.units }
}

/// Both dispatchers held to each other at an enquiry, and at a commit by another ticket, which is refused.
fn hold_enquiry(name: &str, proved: &mut Dispatcher, plain: &mut plain::Dispatcher, time: u64, set: u32) {
    let (mut one, mut other) = (Proved::default(), Plain::default());
    let numbers = (enquire(proved, time, set, &mut one), enquire_plain(plain, time, set, &mut other));
    // what a flag does not announce is as it was: of both it is nothing
    let told = if numbers.0 == 0 { as_plain(&one.told) } else { other.told };
    let (first, second) = ((numbers.0, told, as_view(&one.shown), one.ticket), (numbers.1, other.told, other.next, other.ticket));
    if first != second {
        differ(name, time, first, second);
    }
    let old = proved.ticket().wrapping_sub(1);
    let numbers = (proved.commit_into(old, time, set, &mut one.told), plain.commit(old, time, set, &mut other.told));
    if numbers != (20, 20) {
        differ(name, time, numbers.0, numbers.1);
    }
}

/// The calls of an input, with both dispatchers held to each other at each of them, at one that is refused before it, and at the enquiries of both.
pub fn calls(name: &str, input: &[u8]) -> Calls {
    let (entries, rest) = input.split_at(inputs::head(input));
    let mut proved = Dispatcher::open(entries).expect("the tasks are in order");
    let mut plain = plain::Dispatcher::open(entries);
    let (mut told, mut other) = (Told::default(), plain::Told::default());
    let mut releases = rest.chunks(10).map(|entry| (u64::from_le_bytes(entry[2..].try_into().unwrap()), entry[1])).peekable();
    let (mut calls, mut due) = (Vec::new(), u64::MAX);
    loop {
        let now = due.min(releases.peek().map_or(u64::MAX, |release| release.0));
        if now == u64::MAX {
            return Calls { entries: entries.to_vec(), calls };
        }
        let mut set = 0;
        while let Some((_, task)) = releases.next_if(|release| release.0 == now) {
            set |= 1 << task;
        }
        let late = due.saturating_add(1);
        for (time, set) in [(late, set), (now, set)] {
            hold_enquiry(name, &mut proved, &mut plain, time, set);
            let numbers = (proved.instant_into(time, set, &mut told), plain.instant(time, set, &mut other));
            if numbers.0 != numbers.1 || as_plain(&told) != other && numbers.0 == 0 {
                differ(name, time, (numbers.0, told), (numbers.1, other));
            }
            if time == now {
                break;
            }
        }
        due = other.due;
        calls.push((now, set));
    }
}

/// All calls on a dispatcher that is opened before.
pub fn proved(opened: &Dispatcher, calls: &[(u64, u32)], told: &mut Told) -> u8 {
    let mut dispatcher = opened.clone();
    calls.iter().fold(0, |found, &(time, set)| found | dispatcher.instant_into(time, set, told))
}

/// The same, and after each call what goes on.
pub fn viewed(opened: &Dispatcher, calls: &[(u64, u32)], told: &mut Told, shown: &mut Shown) -> u8 {
    let mut dispatcher = opened.clone();
    calls.iter().fold(0, |found, &(time, set)| {
        let number = dispatcher.instant_into(time, set, told);
        dispatcher.now_into(shown);
        found | number | shown.units[5]
    })
}

pub fn plain(opened: &plain::Dispatcher, calls: &[(u64, u32)], told: &mut plain::Told) -> u8 {
    let mut dispatcher = opened.clone();
    calls.iter().fold(0, |found, &(time, set)| found | dispatcher.instant(time, set, told))
}

/// The same calls as commits: the ticket of each is the number of those before it.
pub fn committed(opened: &Dispatcher, calls: &[(u64, u32)], told: &mut Told) -> u8 {
    let mut dispatcher = opened.clone();
    (0..).zip(calls).fold(0, |found, (ticket, &(time, set))| found | dispatcher.commit_into(ticket, time, set, told))
}

pub fn committed_plain(opened: &plain::Dispatcher, calls: &[(u64, u32)], told: &mut plain::Told) -> u8 {
    let mut dispatcher = opened.clone();
    (0..).zip(calls).fold(0, |found, (ticket, &(time, set))| found | dispatcher.commit(ticket, time, set, told))
}

/// A dispatcher before a call, and the call.
pub struct Looked<D> {
    dispatcher: D,
    time: u64,
    set: u32,
}

/// As many of the calls as there may be states that stay near the processor, with the dispatcher before each.
pub fn looked<D: Clone>(opened: &D, calls: &[(u64, u32)], mut serve: impl FnMut(&mut D, u64, u32)) -> Vec<Looked<D>> {
    const MOST: usize = 16;
    let (mut dispatcher, mut found) = (opened.clone(), Vec::new());
    for (at, &(time, set)) in calls.iter().enumerate() {
        if at % calls.len().div_ceil(MOST) == 0 {
            found.push(Looked { dispatcher: dispatcher.clone(), time, set });
        }
        serve(&mut dispatcher, time, set);
    }
    found
}

fn enquire(dispatcher: &Dispatcher, time: u64, set: u32, lent: &mut Proved) -> u8 {
    dispatcher.enquire_into(time, set, &mut lent.told, &mut lent.shown, &mut lent.ticket)
}

fn enquire_plain(dispatcher: &plain::Dispatcher, time: u64, set: u32, lent: &mut Plain) -> u8 {
    dispatcher.enquire(time, set, &mut lent.told, &mut lent.next, &mut lent.ticket)
}

/// How often each of them is enquired about in turn.
pub const ROUNDS: usize = 64;

pub fn enquired(all: &[Looked<Dispatcher>], lent: &mut Proved) -> u8 {
    let each = |found, looked: &Looked<Dispatcher>| found | enquire(&looked.dispatcher, looked.time, looked.set, lent);
    std::iter::repeat_n(all, ROUNDS).flatten().fold(0, each)
}

pub fn enquired_plain(all: &[Looked<plain::Dispatcher>], lent: &mut Plain) -> u8 {
    let each = |found, looked: &Looked<plain::Dispatcher>| found | enquire_plain(&looked.dispatcher, looked.time, looked.set, lent);
    std::iter::repeat_n(all, ROUNDS).flatten().fold(0, each)
}
