//! What the calls answer.

use core::error::Error;
use core::fmt;

/// Why a call was refused: the number of the cause, and the record it was found
/// at, 0 if it is none's.
#[derive(Clone, Copy, Debug, PartialEq, Eq, Hash)]
pub struct Refusal {
    pub number: u32,
    pub record: u32,
}

impl Refusal {
    /// The cause in words, those of `hub_cause` in the header.
    ///
    /// ```
    /// let refusal = birnsket::validate(&[0; 7]).unwrap_err();
    /// assert_eq!(refusal.cause(), "itinerary length no multiple of 8, or over 8,192");
    /// ```
    pub fn cause(&self) -> &'static str {
        match self.number {
            1 => "itinerary length no multiple of 8, or over 8,192",
            2 => "kind over 5, byte 3 not 0, a client over 999, or a gone record not all 0",
            3 => "label wrong for its kind",
            4 => "name over 63, or not 0 on a copier",
            5 => "parent over the record count, or a record of kind 0",
            6 => "climbing doesn't reach 0",
            7 => "policy not 64 bytes, a byte over 2, or byte 0 not 0",
            8 => "table not 1,544 bytes, bit 0 of a row of I set, or row 0 of H not 0",
            9 => "the table doesn't hold for itinerary and policy",
            10 => "actor 0, over the count, or no capability",
            11 => "actor inactive, or in/out without an ambient as parent",
            12 => "partner unfit for any cause, 0 and over the count included",
            13 => "script no multiple of 4 or over 4,096, or answers not one byte a step",
            14 => "sheet not as long as the itinerary",
            15 => "list buffer shorter than the list",
            16 => "over 1,024 records together, or a buffer not of the joined length",
            17 => "number 0, over the count, or no active copier",
            18 => "fewer gone records than records beneath the copier",
            _ => "unknown cause",
        }
    }
}

impl fmt::Display for Refusal {
    fn fmt(&self, out: &mut fmt::Formatter<'_>) -> fmt::Result {
        write!(out, "refused {} {}: {}", self.number, self.record, self.cause())
    }
}

impl Error for Refusal {}

/// Whether a call was done, by the first two fields of its result.
pub(crate) fn done(number: u32, record: u32) -> Result<(), Refusal> {
    match number {
        0 => Ok(()),
        _ => Err(Refusal { number, record }),
    }
}

/// What stands above a record.
#[derive(Clone, Copy, Debug, Default, PartialEq, Eq, Hash)]
pub struct Above {
    /// The container: the label of the nearest ambient, 0 if there is none.
    pub label: u8,
    /// The number of the nearest boundary ambient, 0 if there is none.
    pub boundary: u16,
}

/// The screen's finding, with the lowest label that shows it.
#[derive(Clone, Copy, Debug, PartialEq, Eq, Hash)]
pub enum Verdict {
    Exposed(u8),
    /// 0 if the environment is suspect.
    Hinted(u8),
    Sealed,
}

impl Verdict {
    pub(crate) fn of(code: u32, label: u32) -> Verdict {
        // A verdict's label is at most 63.
        match code {
            1 => Verdict::Exposed(label as u8),
            2 => Verdict::Hinted(label as u8),
            3 => Verdict::Sealed,
            // An archive of another major version: no verdict is better than a wrong one.
            _ => panic!("birnsket: a verdict that this version doesn't have"),
        }
    }
}

/// How many in, out and open steps a run did.
#[derive(Clone, Copy, Debug, Default, PartialEq, Eq, Hash)]
pub struct Counts {
    pub ins: u32,
    pub outs: u32,
    pub opens: u32,
}

/// How many pairs of actor and partner would be answered by 0, 10, 11 and 12.
#[derive(Clone, Copy, Debug, Default, PartialEq, Eq, Hash)]
pub struct Tally {
    /// Those in the list.
    pub done: u32,
    /// The actor is no capability.
    pub no_capability: u32,
    /// The actor is inactive, or an in or out without an ambient as parent.
    pub inactive: u32,
    /// The partner is unfit for that actor.
    pub unfit: u32,
}

/// What the screen shows: the verdict and how many bits of the least table are one,
/// both before the run; the steps done, and the records not gone at the end.
#[derive(Clone, Copy, Debug, PartialEq, Eq, Hash)]
pub struct Screen {
    pub verdict: Verdict,
    pub bits: u32,
    pub counts: Counts,
    pub records: u32,
}
