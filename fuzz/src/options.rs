//! The command line.

use crate::buffers::Buffer;
use crate::rooms::{Lending, Side};
use crate::tally;

pub const USAGE: &str =
    "usage: fuzz [--seed N] [--calls M] [--only CALL] [--exact] [--trace] [--spoil-start BUFFER | --spoil-end BUFFER]
  CALL is validate, climb, sheet, step, copy, moves, run, check, join, make, verdict, exposed, row or screen
  BUFFER is itinerary, policy, table, script, answers, sheet, list, second, third, fourth or joined";

pub struct Options {
    pub seed: u64,
    pub calls: u64,
    /// The name of the only call to make.
    pub only: Option<&'static str>,
    pub lending: Lending,
    /// Each call is told before it is made, for runs that end by a signal.
    pub trace: bool,
}

impl Options {
    pub fn read(words: &[String]) -> Option<Options> {
        let mut options =
            Options { seed: 1, calls: 100_000, only: None, lending: Lending::default(), trace: false };
        let mut words = words.iter();
        while let Some(word) = words.next() {
            match word.as_str() {
                "--seed" => options.seed = words.next()?.parse().ok()?,
                "--calls" => options.calls = words.next()?.parse().ok()?,
                "--only" => options.only = Some(tally::call_named(words.next()?)?),
                "--exact" => options.lending.exact = true,
                "--trace" => options.trace = true,
                "--spoil-start" => {
                    options.lending.spoilt = Some((Buffer::named(words.next()?)?, Side::Start))
                }
                "--spoil-end" => options.lending.spoilt = Some((Buffer::named(words.next()?)?, Side::End)),
                _ => return None,
            }
        }
        Some(options)
    }
}
