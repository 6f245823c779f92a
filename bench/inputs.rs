//! The inputs and the stored records that are timed, made from a fixed seed, and some that are refused.

struct Random(u64);

impl Random {
    /// A number below `limit`.
    fn below(&mut self, limit: u64) -> u64 {
        self.0 = self.0.wrapping_mul(6364136223846793005).wrapping_add(1442695040888963407);
        (self.0 >> 33) % limit
    }
}

fn task(number: u8, priority: u8, mark: u8, lengths: [u32; 3]) -> Vec<u8> {
    let mut entry = vec![1, number, priority, mark];
    for length in lengths {
        entry.extend(length.to_le_bytes());
    }
    entry
}

fn spacing(task: u8, ticks: u32) -> Vec<u8> {
    let mut entry = vec![3, task];
    entry.extend(ticks.to_le_bytes());
    entry
}

/// An entry of a kind that has a task and a time.
fn timed(kind: u8, task: u8, time: u64) -> Vec<u8> {
    let mut entry = vec![kind, task];
    entry.extend(time.to_le_bytes());
    entry
}

fn release(task: u8, time: u64) -> Vec<u8> {
    timed(2, task, time)
}

fn skipped(task: u8, time: u64) -> Vec<u8> {
    timed(18, task, time)
}

/// Tasks 0 to `tasks` - 1, every second one marked, with phases of up to `longest` ticks, and all priorities different.
fn tasks(tasks: u8, longest: u64, random: &mut Random) -> Vec<u8> {
    tasks_sharing(32, tasks, longest, random)
}

/// The same with as many priorities as is said.
fn tasks_sharing(priorities: u8, tasks: u8, longest: u64, random: &mut Random) -> Vec<u8> {
    let mut input = Vec::new();
    for n in 0..tasks {
        // the priorities are no order of the numbers
        let priority = n.wrapping_mul(11) % 32 % priorities;
        let lengths = [(); 3].map(|()| 1 + random.below(longest) as u32);
        input.extend(task(n, priority, n % 2, lengths));
    }
    input
}

/// Releases of random tasks, so near each other that some share a time, some wait and some are skipped.
pub fn mixed(number: u8, releases: usize) -> Vec<u8> {
    mixed_sharing(32, number, releases)
}

/// As many releases as there may be, with many tasks of each priority: every choice is one between equals.
pub fn equal(number: u8) -> Vec<u8> {
    mixed_sharing(number.div_ceil(8).max(2), number, 4096)
}

fn mixed_sharing(priorities: u8, number: u8, releases: usize) -> Vec<u8> {
    let mut random = Random(releases as u64);
    let mut input = tasks_sharing(priorities, number, 12, &mut random);
    let mut all = std::collections::BTreeSet::new();
    let mut time = 0;
    while all.len() < releases {
        all.insert((time, random.below(u64::from(number)) as u8));
        time += random.below(17);
    }
    input.extend(all.into_iter().flat_map(|(time, task)| release(task, time)));
    input
}

/// A release at every tick and phases of 40 to 60 ticks: nearly every instant has a release.
pub fn dense(number: u8) -> Vec<u8> {
    let mut random = Random(1);
    let mut input = Vec::new();
    for n in 0..number {
        let lengths = [(); 3].map(|()| 40 + random.below(20) as u32);
        input.extend(task(n, (n.wrapping_mul(11)) % 32, n % 2, lengths));
    }
    for time in 0..4096 {
        input.extend(release(random.below(u64::from(number)) as u8, time));
    }
    input
}

/// Releases so far apart that every job is done before the next: one instant in four or five has a release.
pub fn sparse(number: u8) -> Vec<u8> {
    let mut random = Random(2);
    let mut input = tasks(number, 12, &mut random);
    for k in 0..4096 {
        input.extend(release(random.below(u64::from(number)) as u8, k * 100));
    }
    input
}

/// Tasks released twice within two ticks and then for long not at all: every second release waits, and is taken at the completion.
pub fn waiting(number: u8) -> Vec<u8> {
    let mut random = Random(3);
    let mut input = tasks(number, 12, &mut random);
    for k in 0..2048 {
        let task = random.below(u64::from(number)) as u8;
        input.extend([release(task, k * 150), release(task, k * 150 + 1)].concat());
    }
    input
}

/// A spacing on every task, and as many releases as there may be, each at the edge of its task's: of four one comes a tick sooner, and is skipped.
pub fn spaced(number: u8) -> Vec<u8> {
    let mut random = Random(4);
    let mut input = tasks(number, 12, &mut random);
    let mut all = std::collections::BTreeSet::new();
    for n in 0..number {
        let ticks = u64::from(number) * (8 + random.below(8));
        input.extend(spacing(n, ticks as u32));
        let mut last = random.below(ticks);
        for _ in 0..4096 {
            all.insert((last, n));
            let next = last + ticks;
            match random.below(4) {
                0 => {
                    all.insert((next - 1, n));
                    last = next;
                }
                later => last = next + later - 1,
            }
        }
    }
    input.extend(all.into_iter().take(4096).flat_map(|(time, task)| release(task, time)));
    input
}

/// The length of an input's head: of what stands before its releases.
pub fn head(input: &[u8]) -> usize {
    let mut at = 0;
    while at < input.len() && input[at] != 2 {
        at += if input[at] == 1 { 16 } else { 6 };
    }
    at
}

pub fn refused() -> Vec<(&'static str, Vec<u8>)> {
    let good = mixed(4, 64);
    let one = || task(1, 1, 1, [1, 1, 1]);
    let behind = |bytes: Vec<u8>| [one(), bytes].concat();
    let with = |bytes: Vec<u8>| [good.clone(), bytes].concat();
    vec![
        ("nothing", Vec::new()),
        ("a release cut short", good[..good.len() - 3].to_vec()),
        ("a task cut short", good[..37].to_vec()),
        ("another kind", with(vec![9])),
        ("a task behind the releases", with(task(9, 9, 0, [1, 1, 1]))),
        ("a task twice", [task(1, 1, 0, [1, 1, 1]), task(1, 2, 0, [1, 1, 1])].concat()),
        ("a priority twice", [task(1, 1, 0, [1, 1, 1]), task(2, 1, 0, [1, 1, 1])].concat()),
        ("a mark over 1", task(1, 1, 2, [1, 1, 1])),
        ("a length of 0", task(1, 1, 1, [1, 0, 1])),
        ("an unknown task", with(release(9, 999_999_999))),
        ("a release out of order", with(release(0, 0))),
        ("a release too late", with(release(0, 1_000_000_001))),
        ("one release too many", { let mut i = mixed(4, 4096); i.extend(release(3, 999_999_999)); i }),
        ("tasks alone", one()),
        ("a spacing cut short", behind(spacing(1, 5)[..4].to_vec())),
        ("a spacing behind the releases", with(spacing(1, 5))),
        ("a spacing cut short behind the releases", with(spacing(1, 5)[..5].to_vec())),
        ("a task behind a spacing", behind([spacing(1, 5), one()].concat())),
        ("a spacing of an unknown task", behind(spacing(2, 0))),
        ("a spacing of no task", behind(spacing(255, 5))),
        ("a spacing of 0", behind(spacing(1, 0))),
        ("the longest spacing", behind(spacing(1, 1_000_000_000))),
        ("too long a spacing", behind(spacing(1, 1_000_000_001))),
        ("a second spacing", behind([spacing(1, 5), spacing(1, 5)].concat())),
    ]
}

/// Task entries and a record over them.
#[derive(Clone)]
pub struct Stored {
    pub tasks: Vec<u8>,
    pub record: Vec<u8>,
}

/// The record of an input, by a function that writes it.
pub fn stored(input: &[u8], write: impl Fn(&[u8], &mut [u8]) -> usize) -> Stored {
    let mut record = vec![0; 1 << 19];
    let length = write(input, &mut record);
    record.truncate(length);
    Stored { tasks: input[..head(input)].to_vec(), record }
}

/// Records that no list of releases yields, of a true one's tasks: made to cost much.
pub fn hostile(truth: &Stored) -> Vec<(&'static str, Stored)> {
    let with = |record: Vec<u8>| Stored { tasks: truth.tasks.clone(), record };
    let falling = |count: u64| (0..count).rev().flat_map(|time| skipped(1, time)).collect();
    let mut changed = truth.record.clone();
    *changed.last_mut().unwrap() ^= 1;
    vec![
        ("its last byte changed", with(changed)),
        ("its entries in falling order", with(reversed(&truth.record))),
        ("4,096 skipped, falling", with(falling(4096))),
        ("100,000 skipped, falling", with(falling(100_000))),
        ("2^20 bytes of one skipped", with(skipped(1, 7).repeat((1 << 20) / 10))),
    ]
}

/// The length of a record's entry of this kind.
fn length(kind: u8) -> usize {
    match kind { 16 => 27, 17 => 24, _ => 10 }
}

/// The entries of a record, the last one first.
fn reversed(record: &[u8]) -> Vec<u8> {
    let mut entries = Vec::new();
    let mut rest = record;
    while let Some(kind) = rest.first() {
        let (entry, behind) = rest.split_at(length(*kind));
        entries.push(entry);
        rest = behind;
    }
    entries.into_iter().rev().flatten().copied().collect()
}

/// The record with one bit changed in its first entry of a kind, this many bytes behind the kind.
fn changed_at(truth: &Stored, kind: u8, behind: usize) -> Stored {
    let mut stored = truth.clone();
    let mut at = 0;
    while at < stored.record.len() && stored.record[at] != kind {
        at += length(stored.record[at]);
    }
    if let Some(byte) = stored.record.get_mut(at + behind) {
        *byte ^= 1;
    }
    stored
}

/// Records that are refused, and some that are those of another list.
pub fn refused_records(truth: &Stored) -> Vec<(&'static str, Stored)> {
    let with = |more: &[u8]| Stored { record: [&truth.record, more].concat(), ..truth.clone() };
    let tasks = |tasks: Vec<u8>| Stored { tasks, ..truth.clone() };
    vec![
        ("no task", tasks(Vec::new())),
        ("a release among the tasks", tasks([&truth.tasks[..], &release(0, 0)].concat())),
        ("a task cut short", tasks(truth.tasks[..21].to_vec())),
        ("another table", tasks(truth.tasks[..16].to_vec())),
        ("a spacing more", tasks([&truth.tasks[..], &spacing(0, 1_000_000_000)].concat())),
        ("an entry of another kind", with(&[2])),
        ("an entry cut short", with(&[17, 0, 0])),
        ("an entry too many", with(&skipped(0, 0))),
        ("another time of a first release", changed_at(truth, 16, 2)),
        ("another time of a skipped one", changed_at(truth, 18, 2)),
        ("a skipped release too late", with(&skipped(0, 1_000_000_001))),
        ("an unknown task skipped", with(&skipped(32, 5))),
        ("nothing", Stored { record: Vec::new(), ..truth.clone() }),
    ]
}
