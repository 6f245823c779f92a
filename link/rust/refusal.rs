//! Refusals, by document 01's numbers and in words.

use std::fmt;

/// Why something is refused: document 01's number, and, where it is refused at one of its entries, the place of the entry's kind byte.
#[derive(Clone, Copy, Debug, PartialEq, Eq)]
pub struct Refusal {
    /// One of the numbers below.
    pub number: u8,
    /// Where the entry stands that is refused.
    pub place: Option<usize>,
}

macro_rules! numbers {
    ($($name:ident = $number:literal: $reason:literal,)*) => {
        impl Refusal {
            $(#[doc = concat!(stringify!($number), ": ", $reason, ".")]
            pub const $name: u8 = $number;)*

            /// The reason in words.
            pub fn reason(&self) -> &'static str {
                match self.number {
                    $($number => $reason,)*
                    _ => "no refusal has this number",
                }
            }
        }
    };
}

// the names and words of link/gateway.h
numbers! {
    CUT_SHORT = 1: "an entry is cut short",
    OTHER_KIND = 2: "an entry of a kind that does not belong there",
    TASK_AFTER_RELEASE = 3: "a task or a spacing after a release, or a task after a spacing",
    BAD_TASK = 4: "a task number over 31 or given before",
    SAME_PRIORITY = 5: "a priority given before, which is no longer refused",
    BAD_MARK = 6: "a mark over 1",
    BAD_LENGTH = 7: "a length outside 1 to 1,000,000",
    RELEASE_OF_NO_TASK = 8: "a release or a spacing of a task that is not in the table",
    RELEASE_NOT_AFTER = 9: "a release that is not after the one before",
    PAST_LAST_TICK = 10: "a release time over 1,000,000,000",
    TOO_MANY_RELEASES = 11: "a 4,097th release",
    NO_ENTRY = 12: "there is no entry",
    TOO_SHORT = 13: "the slice that is lent is too short",
    INSTANT_NOT_AFTER = 14: "an instant that is not after the last",
    DUE_TIME_MISSED = 15: "a phase ends before the instant",
    UNKNOWN_TASK = 16: "a task that is not in the table",
    TASK_BUSY = 17: "a mark change while a job is pending or a release waits",
    NO_LIST = 18: "no list of releases of these tasks makes this record",
    BAD_SPACING = 19: "a spacing outside 1 to 1,000,000,000, or a second one for a task",
    OLD_TICKET = 20: "a ticket that is not the present one",
}

impl Refusal {
    pub(super) fn alone(number: u8) -> Refusal {
        Refusal { number, place: None }
    }

    /// By what a function tells that goes through entries: the two that are about no entry have no place.
    pub(super) fn at(number: u8, place: usize) -> Refusal {
        Refusal { number, place: (number != Refusal::NO_ENTRY && number != Refusal::NO_LIST).then_some(place) }
    }
}

impl fmt::Display for Refusal {
    fn fmt(&self, f: &mut fmt::Formatter<'_>) -> fmt::Result {
        write!(f, "{} (refusal {})", self.reason(), self.number)?;
        match self.place {
            Some(place) => write!(f, " at byte {place}"),
            None => Ok(()),
        }
    }
}

impl std::error::Error for Refusal {}
