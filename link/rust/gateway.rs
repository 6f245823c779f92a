//! The gateway's dispatcher, safe for Rust: the record of a whole file, the reading of a stored record, the waveform of a whole file, and a
//! dispatcher by instants. Link with libgateway.a. docs/DRIVER.md of the repository is the page for those who write a driver.
#![warn(missing_docs)]

#[path = "dispatcher.rs"]
mod dispatcher;
#[path = "refusal.rs"]
mod refusal;

pub use dispatcher::{Answer, Dispatcher, Enquiry, Fate, Interval, Job, Phase, Set, Shown, Told, View, Work};
pub use refusal::Refusal;

/// The last tick at which a release is taken: behind it, it is refused by [`Refusal::PAST_LAST_TICK`].
pub const LAST_TICK: u64 = 1_000_000_000;

/// The most bytes that open a dispatcher: of 32 tasks an entry of 16 bytes and a spacing of 6 each.
pub const LONGEST_OPENING: usize = 32 * (16 + 6);

mod raw {
    #[link(name = "gateway", kind = "static")]
    unsafe extern "C" {
        pub fn gateway_record(
            input: *const u8,
            input_length: usize,
            out: *mut u8,
            out_length: usize,
            told: *mut usize,
        ) -> u8;

        pub fn gateway_read(
            tasks: *const u8,
            tasks_length: usize,
            record: *const u8,
            record_length: usize,
            out: *mut u8,
            out_length: usize,
            told: *mut usize,
        ) -> u8;

        pub fn gateway_waveform(
            input: *const u8,
            input_length: usize,
            out: *mut u8,
            out_length: usize,
            told: *mut usize,
        ) -> u8;
    }
}

/// What comes of an input, or of task entries and a record, and a lent slice.
#[derive(Clone, Copy, Debug, PartialEq, Eq)]
pub enum Outcome {
    /// What was asked for stands in the front of the slice, with this length.
    Written(usize),
    /// The slice is too short for it: it has this length.
    TooShort(usize),
    /// What was handed in is refused.
    Refused(Refusal),
}

impl Outcome {
    /// By the number that a function answers, and what it tells.
    fn of(number: u8, told: usize) -> Outcome {
        match number {
            0 => Outcome::Written(told),
            Refusal::TOO_SHORT => Outcome::TooShort(told),
            number => Outcome::Refused(Refusal::at(number, told)),
        }
    }
}

/// Writes the record of `input` into the front of `out`. On a refusal, and where `out` is too short, `out` is as it was.
pub fn record(input: &[u8], out: &mut [u8]) -> Outcome {
    let mut told = 0;
    // The slices and the number are live, and Rust lets no two of them overlap that are written: the function asks no more.
    let number = unsafe { raw::gateway_record(input.as_ptr(), input.len(), out.as_mut_ptr(), out.len(), &mut told) };
    Outcome::of(number, told)
}

/// Writes the release entries that made `record`, over the task entries `tasks` and the spacings behind them, into the front of `out`. On a refusal, and where `out` is too
/// short, `out` is as it was. The place of a refused entry counts from the start of `tasks`, or of `record` where the tasks are in order.
pub fn read(tasks: &[u8], record: &[u8], out: &mut [u8]) -> Outcome {
    let mut told = 0;
    // As above.
    let number = unsafe {
        raw::gateway_read(
            tasks.as_ptr(),
            tasks.len(),
            record.as_ptr(),
            record.len(),
            out.as_mut_ptr(),
            out.len(),
            &mut told,
        )
    };
    Outcome::of(number, told)
}

/// Writes the waveform of `input`, a value change dump (IEEE 1364) for a viewer of waves, into the front of `out`. On a refusal, and where `out` is
/// too short, `out` is as it was. docs/WAVEFORM.md of the repository names the waves.
pub fn waveform(input: &[u8], out: &mut [u8]) -> Outcome {
    let mut told = 0;
    // As above.
    let number = unsafe { raw::gateway_waveform(input.as_ptr(), input.len(), out.as_mut_ptr(), out.len(), &mut told) };
    Outcome::of(number, told)
}
