//! Times the proved functions against plain Rust, in one run: that of records, that which reads them, that of waveforms, and an instant of a
//! dispatcher that is kept, a commit and an enquiry; and such an instant with a view after it against one without.
//! For each input the ratio proved/plain of the times, its median and spread over the repetitions. Both must give the same number, value and
//! bytes, and at each instant the same answer.

#[allow(dead_code, unused_imports)] // of the wrapper only what is timed is used
#[path = "../link/rust/gateway.rs"]
mod gateway;
mod inputs;
mod instants;
mod plain;

use gateway::Outcome;
use inputs::Stored;
use std::hint::black_box;
use std::time::{Duration, Instant};

const REPETITIONS: usize = 15;
// More bytes than any waveform takes.
const LONG: usize = 1 << 22;
const SLICE: Duration = Duration::from_millis(8);

/// What is timed: the proved function and the plain one on one input, with the slice that they are lent. The plain one also tells how many
/// instants it ran.
struct Work<'a> {
    name: String,
    proved: Box<dyn Fn(&mut [u8]) -> Outcome + 'a>,
    plain: Box<dyn Fn(&mut [u8]) -> (u8, usize, u64) + 'a>,
}

fn recording(name: String, input: &[u8]) -> Work<'_> {
    Work {
        name,
        proved: Box::new(|out| gateway::record(black_box(input), out)),
        plain: Box::new(|out| plain::record(black_box(input), out)),
    }
}

fn reading(name: String, stored: &Stored) -> Work<'_> {
    Work {
        name,
        proved: Box::new(|out| gateway::read(black_box(&stored.tasks), black_box(&stored.record), out)),
        plain: Box::new(|out| plain::read(black_box(&stored.tasks), black_box(&stored.record), out)),
    }
}

fn drawing(name: String, input: &[u8]) -> Work<'_> {
    Work {
        name,
        proved: Box::new(|out| gateway::waveform(black_box(input), out)),
        plain: Box::new(|out| plain::waveform(black_box(input), out)),
    }
}

fn number_and_value(outcome: Outcome) -> (u8, usize) {
    match outcome {
        Outcome::Written(length) => (0, length),
        Outcome::TooShort(needed) => (13, needed),
        Outcome::Refused(refusal) => (refusal.number, refusal.place.unwrap_or(0)),
    }
}

impl Work<'_> {
    /// Both on one slice; the instants of the run, and the value told. Stops the program where they differ.
    fn compare(&self, room: usize) -> (u64, usize) {
        let mut one = vec![0xa5; room];
        let mut other = vec![0xa5; room];
        let told = number_and_value((self.proved)(&mut one));
        let (number, value, instants) = (self.plain)(&mut other);
        if told != (number, value) || one != other {
            let (name, answer) = (&self.name, (number, value));
            eprintln!("{name}: the proved function tells {told:?}, the plain one {answer:?}; bytes alike: {}", one == other);
            std::process::exit(1);
        }
        (instants, value)
    }

    /// The comparisons, the times and the ratios, printed as one row.
    fn measure(&self) -> Times {
        self.compare_all(1 << 19);
        self.measure_in(1 << 19)
    }

    /// On a slice that is long enough, and at the lengths of slices at which the answer changes; the value told.
    fn compare_all(&self, room: usize) -> usize {
        let (_, needed) = self.compare(room);
        self.compare(needed);
        self.compare(needed.saturating_sub(1));
        needed
    }

    /// The times and the ratios with a slice of this length, printed as one row.
    fn measure_in(&self, room: usize) -> Times {
        let mut out = vec![0; room];
        let (instants, _) = self.compare(room);
        alternate(&self.name, instants, &mut out[..], |out| (self.proved)(out), |out| (self.plain)(out))
    }
}

/// The two timed one after the other, again and again, on what both are lent; printed as one row.
fn alternate<S: ?Sized, T, U>(name: &str, instants: u64, lent: &mut S, proved: impl Fn(&mut S) -> T, plain: impl Fn(&mut S) -> U) -> Times {
    let once = timed(4, || plain(lent));
    let turns = (SLICE.as_secs_f64() / once).ceil().max(1.0) as u32;
    let (mut ratios, mut slow, mut fast) = (Vec::new(), Vec::new(), Vec::new());
    for _ in 0..REPETITIONS {
        let p = timed(turns, || proved(lent));
        let q = timed(turns, || plain(lent));
        ratios.push(p / q);
        slow.push(p);
        fast.push(q);
    }
    let times = Times { proved: median(&mut slow), plain: median(&mut fast), ratio: median(&mut ratios) };
    let each = |seconds: f64| seconds * 1e9 / instants.max(1) as f64;
    println!(
        "{name:40} {instants:6} {:9.2} {:9.2} {:7.1} {:7.1} {:6.2} {:6.2} .. {:.2}",
        times.proved * 1e6,
        times.plain * 1e6,
        each(times.proved),
        each(times.plain),
        times.ratio,
        ratios[0],
        ratios[REPETITIONS - 1],
    );
    times
}

/// Medians: of both functions' seconds, and of their ratio.
struct Times {
    proved: f64,
    plain: f64,
    ratio: f64,
}

/// Seconds for each of `turns` calls.
fn timed<T>(turns: u32, mut call: impl FnMut() -> T) -> f64 {
    let began = Instant::now();
    for _ in 0..turns {
        black_box(call());
    }
    began.elapsed().as_secs_f64() / f64::from(turns)
}

fn median(values: &mut [f64]) -> f64 {
    values.sort_by(f64::total_cmp);
    values[values.len() / 2]
}

fn heading(what: &str) {
    println!(
        "{what:40} {:>6} {:>9} {:>9} {:>7} {:>7} {:>6} least .. most",
        "inst.", "proved us", "plain us", "ns/inst", "ns/inst", "ratio"
    );
}

/// The record function on inputs that are run; the largest ratio.
fn records() -> f64 {
    for (name, input) in inputs::refused() {
        recording(name.to_string(), &input).compare(4096);
    }
    heading("input");
    let mut rows = Vec::new();
    for tasks in [4, 32] {
        for releases in [64, 512, 4096] {
            rows.push((format!("record, {releases} releases, {tasks} tasks"), inputs::mixed(tasks, releases)));
        }
    }
    for tasks in [4, 32] {
        rows.push((format!("instants with releases, {tasks} tasks"), inputs::dense(tasks)));
        rows.push((format!("instants mostly without, {tasks} tasks"), inputs::sparse(tasks)));
        rows.push((format!("every second one waits, {tasks} tasks"), inputs::waiting(tasks)));
        rows.push((format!("equal priorities, {tasks} tasks"), inputs::equal(tasks)));
        rows.push((format!("spacing on every task, {tasks} tasks"), inputs::spaced(tasks)));
    }
    rows.iter().map(|(name, input)| recording(name.clone(), input).measure().ratio).fold(0.0, f64::max)
}

/// The reader on the records of the same inputs; the largest ratio.
fn true_records() -> f64 {
    heading("stored record");
    let mut worst: f64 = 0.0;
    for tasks in [4, 32] {
        for releases in [64, 512, 4096] {
            let stored = recorded(tasks, releases);
            for (name, other) in inputs::refused_records(&stored) {
                reading(name.to_string(), &other).compare(1 << 16);
            }
            let name = format!("read, {releases} releases, {tasks} tasks");
            worst = worst.max(reading(name, &stored).measure().ratio);
        }
        for (name, input) in [("equal priorities", inputs::equal(tasks)), ("spacing on every task", inputs::spaced(tasks))] {
            worst = worst.max(reading(format!("read, {name}, {tasks} tasks"), &stored(&input)).measure().ratio);
        }
    }
    worst
}

fn recorded(tasks: u8, releases: usize) -> Stored {
    stored(&inputs::mixed(tasks, releases))
}

fn stored(input: &[u8]) -> Stored {
    inputs::stored(input, |input, out| number_and_value(gateway::record(input, out)).1)
}

/// The reader on records that are made to cost much: how many times the time of a true one of the same length the worst takes. Where none is as
/// long, the time for each byte is what is compared.
fn hostile_records() -> f64 {
    heading("hostile record");
    let truth = recorded(32, 4096);
    let true_time = reading("a true one".to_string(), &truth).measure().proved / truth.record.len() as f64;
    let mut worst: f64 = 0.0;
    for (name, stored) in inputs::hostile(&truth) {
        let times = reading(name.to_string(), &stored).measure();
        let as_much = times.proved / stored.record.len() as f64 / true_time;
        println!("    {} bytes, {as_much:.2} times a true one of that length", stored.record.len());
        worst = worst.max(as_much);
    }
    worst
}

/// The waveforms of the inputs that are recorded; the largest ratio. First with slices just as long as they are, for which both make the run twice; then
/// with more room than any dump of so many releases takes, for which the plain one makes it once.
fn waveforms() -> (f64, f64) {
    for (name, input) in inputs::refused() {
        drawing(name.to_string(), &input).compare(4096);
    }
    heading("waveform");
    let (mut exact, mut spare): (f64, f64) = (0.0, 0.0);
    for (kind, worst) in [("waveform", &mut exact), ("with room", &mut spare)] {
        for tasks in [4, 32] {
            for releases in [64, 512, 4096] {
                let input = inputs::mixed(tasks, releases);
                let work = drawing(format!("{kind}, {releases} releases, {tasks} tasks"), &input);
                let needed = work.compare_all(LONG);
                *worst = worst.max(work.measure_in(if kind == "waveform" { needed } else { LONG }).ratio);
            }
        }
    }
    (exact, spare)
}

/// The inputs whose calls are made one by one.
fn called(tasks: u8) -> [(&'static str, Vec<u8>); 4] {
    [
        ("with releases", inputs::dense(tasks)),
        ("mostly without", inputs::sparse(tasks)),
        ("equal priorities", inputs::equal(tasks)),
        ("spacing on every task", inputs::spaced(tasks)),
    ]
}

/// Calls on a dispatcher that is kept, with nothing around them, as a function measures them; the largest ratio.
fn by_calls(heading_of: &str, kind: &str, measure: impl Fn(&str, &[u8]) -> Times) -> f64 {
    heading(heading_of);
    let mut worst: f64 = 0.0;
    for tasks in [4, 32] {
        for (name, input) in called(tasks) {
            worst = worst.max(measure(&format!("{kind}, {name}, {tasks} tasks"), &input).ratio);
        }
    }
    worst
}

/// The instants by themselves with a view after each, against the same without: how much of an instant a view takes at most.
fn views() -> f64 {
    println!("{:40} here `proved` is with a view after each, and `plain` the proved function without", "an instant and a view");
    heading("");
    let mut worst: f64 = 0.0;
    for tasks in [4, 32] {
        for (name, input) in [("with releases", inputs::dense(tasks)), ("mostly without", inputs::sparse(tasks))] {
            let made = instants::calls(name, &input);
            let opened = gateway::Dispatcher::open(&made.entries).expect("it was opened before");
            let times = alternate(
                &format!("viewed, {name}, {tasks} tasks"),
                made.calls.len() as u64,
                &mut (gateway::Told::default(), gateway::Shown::default()),
                |lent| instants::viewed(&opened, black_box(&made.calls), &mut lent.0, &mut lent.1),
                |lent| instants::proved(&opened, black_box(&made.calls), &mut lent.0),
            );
            worst = worst.max(times.ratio - 1.0);
        }
    }
    worst
}

fn measure_instants(name: &str, input: &[u8]) -> Times {
    let made = instants::calls(name, input);
    let opened = gateway::Dispatcher::open(&made.entries).expect("it was opened before");
    let plain_opened = plain::Dispatcher::open(&made.entries);
    alternate(
        name,
        made.calls.len() as u64,
        &mut (gateway::Told::default(), plain::Told::default()),
        |told| instants::proved(&opened, black_box(&made.calls), &mut told.0),
        |told| instants::plain(&plain_opened, black_box(&made.calls), &mut told.1),
    )
}

/// The same calls as commits.
fn measure_commits(name: &str, input: &[u8]) -> Times {
    let made = instants::calls(name, input);
    let opened = gateway::Dispatcher::open(&made.entries).expect("it was opened before");
    let plain_opened = plain::Dispatcher::open(&made.entries);
    alternate(
        name,
        made.calls.len() as u64,
        &mut (gateway::Told::default(), plain::Told::default()),
        |told| instants::committed(&opened, black_box(&made.calls), &mut told.0),
        |told| instants::committed_plain(&plain_opened, black_box(&made.calls), &mut told.1),
    )
}

/// Enquiries, each of a dispatcher as it is before one of the calls.
fn measure_enquiries(name: &str, input: &[u8]) -> Times {
    let made = instants::calls(name, input);
    let opened = gateway::Dispatcher::open(&made.entries).expect("it was opened before");
    let plain_opened = plain::Dispatcher::open(&made.entries);
    let (mut told, mut other) = (gateway::Told::default(), plain::Told::default());
    let proved = instants::looked(&opened, &made.calls, |d, time, set| assert_eq!(d.instant_into(time, set, &mut told), 0));
    let plain = instants::looked(&plain_opened, &made.calls, |d, time, set| assert_eq!(d.instant(time, set, &mut other), 0));
    alternate(
        name,
        (proved.len() * instants::ROUNDS) as u64,
        &mut (instants::Proved::default(), instants::Plain::default()),
        |lent| instants::enquired(black_box(&proved), &mut lent.0),
        |lent| instants::enquired_plain(black_box(&plain), &mut lent.1),
    )
}

fn main() {
    let worst = records().max(true_records());
    let hostile = hostile_records();
    let (exact, spare) = waveforms();
    let by_itself = by_calls("an instant by itself", "kept", measure_instants);
    let commit = by_calls("a commit by itself", "committed", measure_commits);
    let enquiry = by_calls("an enquiry by itself", "enquired", measure_enquiries);
    let view = views();
    println!("the largest median ratio is {worst:.2}");
    println!("a hostile record takes at most {hostile:.2} times a true one of its length");
    println!("the largest median ratio of a waveform is {exact:.2}, and with room to spare {spare:.2}");
    println!("the largest median ratio of an instant by itself is {by_itself:.2}");
    println!("the largest median ratio of a commit is {commit:.2}, and of an enquiry {enquiry:.2}");
    println!("a view takes at most {view:.2} of an instant");
}
