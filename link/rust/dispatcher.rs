//! A dispatcher by instants.

use super::Refusal;
use std::fmt;

mod raw {
    #[link(name = "gateway", kind = "static")]
    unsafe extern "C" {
        pub fn gateway_open_v5(
            entries: *const u8,
            length: usize,
            times: &mut [u64; 7],
            sets: &mut [u32; 8],
            codes: &mut [u8; 9],
            priority: &mut [u8; 32],
            columns: &mut [u32; 128],
            release: &mut [u64; 32],
            blocked: &mut [u8; 32],
            waits: &mut [u64; 32],
            ticket: &mut u64,
            place: &mut usize,
        ) -> u8;

        pub fn gateway_instant_v5(
            time: u64,
            set: u32,
            times: &mut [u64; 7],
            sets: &mut [u32; 8],
            codes: &mut [u8; 9],
            told: &mut super::Told,
            priority: &[u8; 32],
            columns: &[u32; 128],
            release: &mut [u64; 32],
            blocked: &mut [u8; 32],
            waits: &mut [u64; 32],
            ticket: &mut u64,
        ) -> u8;

        pub fn gateway_commit_v5(
            time: u64,
            set: u32,
            times: &mut [u64; 7],
            sets: &mut [u32; 8],
            codes: &mut [u8; 9],
            told: &mut super::Told,
            priority: &[u8; 32],
            columns: &[u32; 128],
            release: &mut [u64; 32],
            blocked: &mut [u8; 32],
            waits: &mut [u64; 32],
            ticket: &mut u64,
            given: u64,
        ) -> u8;

        pub fn gateway_enquire_v5(
            time: u64,
            set: u32,
            times: &[u64; 7],
            sets: &[u32; 8],
            codes: &[u8; 9],
            told: &mut super::Told,
            priority: &[u8; 32],
            columns: &[u32; 128],
            release: &[u64; 32],
            blocked: &[u8; 32],
            waits: &[u64; 32],
            ticket: &u64,
            given: &mut u64,
            ticks: &mut [u64; 4],
            tasks: &mut [u32; 3],
            units: &mut [u8; 6],
        ) -> u8;

        pub fn gateway_mark_v5(sets: &mut [u32; 8], ticket: &mut u64, task: u8, mark: u8) -> u8;

        pub fn gateway_marks_v5(sets: &mut [u32; 8], ticket: &mut u64, set: u32, mark: u8) -> u8;

        pub fn gateway_longest_interval_v5(sets: &[u32; 8], columns: &[u32; 128]) -> u64;

        pub fn gateway_completes_after_v5(sets: &[u32; 8], columns: &[u32; 128], task: u8, h: u32) -> u64;

        pub fn gateway_now_v5(
            times: &[u64; 7],
            sets: &[u32; 8],
            codes: &[u8; 9],
            ticks: &mut [u64; 4],
            tasks: &mut [u32; 3],
            units: &mut [u8; 6],
        );
    }
}

/// A set of tasks: bit n stands for task n.
pub type Set = u32;

/// A job that is done.
#[derive(Clone, Copy, Debug, PartialEq, Eq)]
pub struct Job {
    /// Whose it is.
    pub task: u8,
    /// When its release was handed in, also where that waited.
    pub release: u64,
    /// When its execution began.
    pub start: u64,
    /// When its copy-out ended.
    pub completion: u64,
    /// The intervals in which it was blocked, counted from the instant at which the release was taken.
    pub blocked: u8,
}

/// What the processor does in an interval.
#[derive(Clone, Copy, Debug, PartialEq, Eq)]
pub enum Work {
    /// Nothing.
    Idle,
    /// It executes the job that the engine copied in in the interval before.
    Execute,
    /// It copies in the job that was promoted, and executes it.
    CopyInAndExecute,
}

/// What became of an interval's copy-in.
#[derive(Clone, Copy, Debug, PartialEq, Eq)]
pub enum Fate {
    /// There was none.
    None,
    /// It was done, and its job is executed in the next interval.
    Done,
    /// A release came while it was under way, and it gave way.
    Cancelled,
    /// A release came when it was done, and it gave way: its job is to be copied in again.
    ThrownOut,
}

/// An interval that has ended.
#[derive(Clone, Copy, Debug, PartialEq, Eq)]
pub struct Interval {
    /// When it began.
    pub begin: u64,
    /// When it ended.
    pub end: u64,
    /// The processor's half of the local memory.
    pub half: u8,
    /// The task that the processor executed.
    pub task: Option<u8>,
    /// How it came to it.
    pub work: Work,
    /// The task that the engine copied out.
    pub copied_out: Option<u8>,
    /// The task whose copy-in the engine began.
    pub chosen: Option<u8>,
    /// What became of that copy-in.
    pub fate: Fate,
    /// The task that is given to the processor itself in the next interval.
    pub promoted: Option<u8>,
    /// It ended after the releases of its instant, not before them.
    pub after_releases: bool,
}

/// What occurred at an instant, and when the dispatcher is to be called next at the latest.
#[derive(Clone, Copy, Debug, PartialEq, Eq)]
pub struct Answer {
    /// The job that is done.
    pub done: Option<Job>,
    /// The interval that ended.
    pub closed: Option<Interval>,
    /// The tasks whose release was skipped now, since it came too soon or one of theirs waits.
    pub skipped: Set,
    /// The next due time. With none nothing is pending and nothing waits.
    pub due: Option<u64>,
}

/// What an instant would do, and the ticket by which it is committed.
#[derive(Clone, Copy, Debug, PartialEq, Eq)]
pub struct Enquiry {
    /// What would occur, and the due time that there would be.
    pub answer: Answer,
    /// What would go on after it: a driver programs its hardware by it, and then commits.
    pub next: View,
    /// The present ticket: as long as no commit, no instant and no mark call is served, a commit by it does just this.
    pub ticket: u64,
}

/// A phase under way.
#[derive(Clone, Copy, Debug, PartialEq, Eq)]
pub struct Phase {
    /// Whose it is.
    pub task: u8,
    /// When it ends.
    pub until: u64,
}

/// What goes on now, or would after an enquiry. A driver commands its hardware by the views before and after a call, as link/gateway.h says: an interval began where
/// [`View::begins_after`]; a copy goes on where it is the same phase in both; one that was under way, had not ended and is not the same was broken off.
#[derive(Clone, Copy, Debug, PartialEq, Eq)]
pub struct View {
    /// When the open interval began, where one is open.
    pub begin: Option<u64>,
    /// Of the open interval.
    pub work: Work,
    /// The task on the processor, from the interval's begin until its execution ends: first its own copy-in, where it makes one.
    pub processor: Option<Phase>,
    /// What the engine copies in.
    pub copy_in: Option<Phase>,
    /// What the engine copies out.
    pub copy_out: Option<Phase>,
    /// The processor's half, 0 before the first interval; the engine has the other one.
    pub half: u8,
    /// The tasks that have a pending job.
    pub pending: Set,
    /// The tasks of which a release waits.
    pub waiting: Set,
    /// The tasks that are latency-sensitive.
    pub marked: Set,
}

impl View {
    /// Whether an interval began between a view and this one.
    pub fn begins_after(&self, before: &View) -> bool {
        self.begin.is_some() && self.begin != before.begin
    }

    /// The task whose copy-in was under way in a view, had not ended at the time of the call, and is broken off.
    pub fn broken_off(&self, before: &View, time: u64) -> Option<u8> {
        before.copy_in.filter(|phase| phase.until > time && self.copy_in != before.copy_in).map(|phase| phase.task)
    }

    /// The copy-in that began between a view and this one.
    pub fn copy_in_begun(&self, before: &View) -> Option<Phase> {
        self.copy_in.filter(|_| self.copy_in != before.copy_in)
    }
}

/// The dispatcher of one core: plain memory, laid out as `gateway_dispatcher` of link/gateway.h.
#[repr(C)]
#[derive(Clone)]
pub struct Dispatcher {
    ticket: u64,
    times: [u64; 7],
    release: [u64; 32],
    waits: [u64; 32],
    sets: [u32; 8],
    columns: [u32; 128],
    codes: [u8; 9],
    priority: [u8; 32],
    blocked: [u8; 32],
    unused: [u8; 7],
}

const _: () = assert!(std::mem::size_of::<Dispatcher>() == 1200);
const _: () = assert!(std::mem::offset_of!(Dispatcher, sets) == 576 && std::mem::offset_of!(Dispatcher, codes) == 1120);

impl Dispatcher {
    /// Opens a dispatcher from task entries, 16 bytes each, and behind them the spacings, 6 bytes each, as an input has them.
    pub fn open(entries: &[u8]) -> Result<Dispatcher, Refusal> {
        let mut d = Dispatcher {
            ticket: 0,
            times: [0; 7],
            sets: [0; 8],
            codes: [0; 9],
            columns: [0; 128],
            priority: [0; 32],
            blocked: [0; 32],
            release: [0; 32],
            waits: [0; 32],
            unused: [0; 7],
        };
        let mut place = 0;
        // The slice and the arrays are live, and Rust lets no two of them overlap: the function asks no more.
        let number = unsafe {
            raw::gateway_open_v5(
                entries.as_ptr(),
                entries.len(),
                &mut d.times,
                &mut d.sets,
                &mut d.codes,
                &mut d.priority,
                &mut d.columns,
                &mut d.release,
                &mut d.blocked,
                &mut d.waits,
                &mut d.ticket,
                &mut place,
            )
        };
        match number {
            0 => Ok(d),
            number => Err(Refusal::at(number, place)),
        }
    }

    /// Hands in the releases of a set at a time. It is to be called at every release and at every due time. Of a task that has a pending job one release
    /// waits, and is taken at the instant at which that job is done, before the releases of that instant. Of a task with a spacing a release that comes
    /// sooner than that after the last one taken or set waiting is skipped before anything else is asked of it.
    ///
    /// It is an enquiry and its commit in one, and served it raises the ticket by one.
    #[inline]
    pub fn instant(&mut self, time: u64, set: Set) -> Result<Answer, Refusal> {
        let mut told = Told::default();
        match self.instant_into(time, set, &mut told) {
            0 => Ok(told.answer()),
            number => Err(Refusal::alone(number)),
        }
    }

    /// The same, with what is told in memory that the caller keeps: 0, or the number of the refusal.
    #[inline]
    pub fn instant_into(&mut self, time: u64, set: Set, told: &mut Told) -> u8 {
        // The arrays are live, and Rust lets no two of them overlap: the function asks no more.
        unsafe {
            raw::gateway_instant_v5(
                time,
                set,
                &mut self.times,
                &mut self.sets,
                &mut self.codes,
                told,
                &self.priority,
                &self.columns,
                &mut self.release,
                &mut self.blocked,
                &mut self.waits,
                &mut self.ticket,
            )
        }
    }

    /// What an instant with this time and set would do, or its refusal. Nothing changes, and several enquiries of one dispatcher may run at once.
    #[inline]
    pub fn enquire(&self, time: u64, set: Set) -> Result<Enquiry, Refusal> {
        let (mut told, mut shown, mut ticket) = (Told::default(), Shown::default(), 0);
        match self.enquire_into(time, set, &mut told, &mut shown, &mut ticket) {
            0 => Ok(Enquiry { answer: told.answer(), next: shown.view(), ticket }),
            number => Err(Refusal::alone(number)),
        }
    }

    /// The same, with what is told and shown, and the ticket, in memory that the caller keeps: 0, or the number of the refusal.
    #[inline]
    pub fn enquire_into(&self, time: u64, set: Set, told: &mut Told, shown: &mut Shown, ticket: &mut u64) -> u8 {
        // As above.
        unsafe {
            raw::gateway_enquire_v5(
                time,
                set,
                &self.times,
                &self.sets,
                &self.codes,
                told,
                &self.priority,
                &self.columns,
                &self.release,
                &self.blocked,
                &self.waits,
                &self.ticket,
                ticket,
                &mut shown.ticks,
                &mut shown.tasks,
                &mut shown.units,
            )
        }
    }

    /// Does what an enquiry with this time and set showed, by its ticket: [`Refusal::OLD_TICKET`] where another commit, instant or mark call was served since
    /// then, and otherwise exactly the instant. With another time or set it does what that instant would.
    #[inline]
    pub fn commit(&mut self, ticket: u64, time: u64, set: Set) -> Result<Answer, Refusal> {
        let mut told = Told::default();
        match self.commit_into(ticket, time, set, &mut told) {
            0 => Ok(told.answer()),
            number => Err(Refusal::alone(number)),
        }
    }

    /// The same, with what is told in memory that the caller keeps: 0, or the number of the refusal.
    #[inline]
    pub fn commit_into(&mut self, ticket: u64, time: u64, set: Set, told: &mut Told) -> u8 {
        // As above.
        unsafe {
            raw::gateway_commit_v5(
                time,
                set,
                &mut self.times,
                &mut self.sets,
                &mut self.codes,
                told,
                &self.priority,
                &self.columns,
                &mut self.release,
                &mut self.blocked,
                &mut self.waits,
                &mut self.ticket,
                ticket,
            )
        }
    }

    /// The present ticket: the number of commits, instants and mark calls that were served since the opening, modulo 2 to the 64th.
    pub fn ticket(&self) -> u64 {
        self.ticket
    }

    /// Changes a task's mark from now on, while it has no pending job and no release that waits. Served, it raises the ticket by one.
    pub fn mark(&mut self, task: u8, latency_sensitive: bool) -> Result<(), Refusal> {
        // As above.
        match unsafe { raw::gateway_mark_v5(&mut self.sets, &mut self.ticket, task, latency_sensitive.into()) } {
            0 => Ok(()),
            number => Err(Refusal::alone(number)),
        }
    }

    /// Changes the marks of all tasks of a set at once, while none of them has a pending job or a release that waits. It is as if each were changed by itself,
    /// but that the ticket rises by one, also where the set is empty.
    pub fn mark_all(&mut self, set: Set, latency_sensitive: bool) -> Result<(), Refusal> {
        // As above.
        match unsafe { raw::gateway_marks_v5(&mut self.sets, &mut self.ticket, set, latency_sensitive.into()) } {
            0 => Ok(()),
            number => Err(Refusal::alone(number)),
        }
    }

    /// What goes on now.
    #[inline]
    pub fn now(&self) -> View {
        let mut shown = Shown::default();
        self.now_into(&mut shown);
        shown.view()
    }

    /// The same, as numbers in memory that the caller keeps.
    #[inline]
    pub fn now_into(&self, shown: &mut Shown) {
        // As above.
        unsafe { raw::gateway_now_v5(&self.times, &self.sets, &self.codes, &mut shown.ticks, &mut shown.tasks, &mut shown.units) }
    }

    /// A figure to plan on: no interval lasts longer than this many ticks. It is the larger of the table's greatest L + C and the sum of its greatest L
    /// and its greatest U.
    pub fn longest_interval(&self) -> u64 {
        // As above.
        unsafe { raw::gateway_longest_interval_v5(&self.sets, &self.columns) }
    }

    /// By how many ticks after its taking a job of the task is done at the latest, where `h` other jobs that are not lower in priority execute between its
    /// taking and its own execution; by the mark that the task has now. Of a number that is no task of the table the answer means nothing.
    pub fn completes_after(&self, task: u8, h: u32) -> u64 {
        // As above.
        unsafe { raw::gateway_completes_after_v5(&self.sets, &self.columns, task, h) }
    }

    /// The spacing of a task, where it has one. A dispatcher that takes over from another knows no last release: whether the first one of a task comes too
    /// soon after one that the other served is for the driver to say.
    pub fn spacing(&self, task: u8) -> Option<u32> {
        self.columns[96..].get(usize::from(task)).copied().filter(|&ticks| ticks != 0)
    }

    /// The tasks that are latency-sensitive now.
    pub fn marked(&self) -> Set {
        self.sets[0]
    }

    /// The tasks that have a pending job.
    pub fn pending(&self) -> Set {
        self.sets[1]
    }
}

impl fmt::Debug for Dispatcher {
    fn fmt(&self, f: &mut fmt::Formatter<'_>) -> fmt::Result {
        let last = (self.codes[8] != 0).then_some(self.times[6]);
        f.debug_struct("Dispatcher")
            .field("tasks", &format_args!("{:#b}", self.sets[4]))
            .field("marked", &format_args!("{:#b}", self.sets[0]))
            .field("pending", &format_args!("{:#b}", self.sets[1]))
            .field("waiting", &format_args!("{:#b}", self.sets[5]))
            .field("last", &last)
            .field("ticket", &self.ticket)
            .finish_non_exhaustive()
    }
}

/// What an instant tells, a word for each number, as the library tells it: where a flag is 0, what belongs to it is as it was.
#[repr(C)]
#[derive(Clone, Copy, Debug, Default, PartialEq, Eq)]
pub struct Told {
    /// The next due time.
    pub due: u64,
    /// The tasks whose release was skipped.
    pub skipped: u64,
    /// A job is done; an interval closed, 1 before the releases, 2 after them; there is a due time.
    pub flags: [u64; 3],
    /// Release, execution start, completion.
    pub job_times: [u64; 3],
    /// Task, blocked intervals: the bytes of a job's entry.
    pub job_bytes: [u64; 2],
    /// Begin, end.
    pub interval_times: [u64; 2],
    /// Half, task, work, task copied out, task chosen, its fate, task promoted: the bytes of an interval's entry, but that no task is a number that
    /// no byte has, and its lowest byte is 255.
    pub interval_bytes: [u64; 7],
}

const _: () = assert!(std::mem::size_of::<Told>() == 19 * 8);

/// What goes on now, as numbers.
#[derive(Clone, Copy, Debug, Default, PartialEq, Eq)]
pub struct Shown {
    /// The open interval's begin; the ends of the phases of processor, copy-in and copy-out: 0 where there is none.
    pub ticks: [u64; 4],
    /// Pending, waiting, marked.
    pub tasks: [Set; 3],
    /// Whether an interval is open, its work; the tasks on the processor, copied in and copied out, 255 is no task; the processor's half.
    pub units: [u8; 6],
}

impl Shown {
    /// With the types that Rust has for it.
    #[inline]
    pub fn view(&self) -> View {
        let ([begin, until, in_until, out_until], [pending, waiting, marked]) = (self.ticks, self.tasks);
        let [is_open, work, processor, copy_in, copy_out, half] = self.units;
        View {
            begin: (is_open != 0).then_some(begin),
            work: work_of(work),
            processor: phase(processor, until),
            copy_in: phase(copy_in, in_until),
            copy_out: phase(copy_out, out_until),
            half,
            pending,
            waiting,
            marked,
        }
    }
}

fn task(number: u8) -> Option<u8> {
    (number != 255).then_some(number)
}

fn phase(number: u8, until: u64) -> Option<Phase> {
    task(number).map(|task| Phase { task, until })
}

fn work_of(number: u8) -> Work {
    [Work::Idle, Work::Execute, Work::CopyInAndExecute][usize::from(number.min(2))]
}

impl Told {
    /// With the types that Rust has for it.
    #[inline]
    pub fn answer(&self) -> Answer {
        Answer {
            done: (self.flags[0] != 0).then(|| self.job()),
            closed: (self.flags[1] != 0).then(|| self.interval()),
            skipped: self.skipped as Set,
            due: (self.flags[2] != 0).then_some(self.due),
        }
    }

    fn job(&self) -> Job {
        let ([release, start, completion], [task, blocked]) = (self.job_times, self.job_bytes.map(|word| word as u8));
        Job { task, release, start, completion, blocked }
    }

    fn interval(&self) -> Interval {
        let ([begin, end], [half, _, work, _, _, fate, _]) = (self.interval_times, self.interval_bytes.map(|word| word as u8));
        let [_, executed, _, copied_out, chosen, _, promoted] = self.interval_bytes.map(|word| u8::try_from(word).ok());
        Interval {
            begin,
            end,
            half,
            task: executed,
            work: work_of(work),
            copied_out,
            chosen,
            fate: [Fate::None, Fate::Done, Fate::Cancelled, Fate::ThrownOut][usize::from(fate.min(3))],
            promoted,
            after_releases: self.flags[1] == 2,
        }
    }
}
