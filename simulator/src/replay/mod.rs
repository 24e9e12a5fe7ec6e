//! Replay files: seeded calls with the answers and buffers expected of them.

pub mod bench;
pub mod client_cases;
pub mod climb_cases;
pub mod copier_cases;
pub mod copier_words;
pub mod copy_cases;
pub mod copy_words;
pub mod counts;
pub mod exposed_cases;
pub mod itinerary_cases;
pub mod join_cases;
pub mod join_words;
pub mod moves_cases;
pub mod player;
pub mod screen_cases;
pub mod stream;
pub mod table_cases;
pub mod writer;

use crate::random::Random;
use counts::Counts;
use stream::Call;
use writer::Writer;

/// A set of cases: its name on the command line, what writes it, and its calls.
pub type Section = (&'static str, fn(&mut Writer, &mut Random, Size), &'static [Call]);

pub const SECTIONS: [Section; 6] = [
    ("itinerary", itinerary_cases::write, &itinerary_cases::CALLS),
    ("table", table_cases::write, &table_cases::CALLS),
    ("screen", screen_cases::write, &screen_cases::CALLS),
    ("moves", moves_cases::write, &moves_cases::CALLS),
    ("join", join_cases::write, &join_cases::CALLS),
    ("copy", copy_cases::write, &copy_cases::CALLS),
];

/// How much is written: everything, or a sample of a few dozen kilobytes.
#[derive(Clone, Copy, Debug, PartialEq, Eq)]
pub enum Size {
    Whole,
    Sample,
}

impl Size {
    /// How often something is done that a whole file has `whole` of.
    pub fn times(self, whole: usize) -> usize {
        match self {
            Size::Whole => whole,
            Size::Sample => whole.div_ceil(20),
        }
    }

    /// The same for what takes kilobytes each time.
    pub fn large_times(self, whole: usize) -> usize {
        match self {
            Size::Whole => whole,
            Size::Sample => 0,
        }
    }
}

/// The bytes of one replay file and what was counted on the way.
pub fn file(section: &Section, seed: u64, size: Size) -> (Vec<u8>, Counts) {
    let mut writer = Writer::new();
    (section.1)(&mut writer, &mut Random::new(seed), size);
    writer.finish()
}
