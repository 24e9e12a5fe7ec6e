//! What a call of copy met, in words.

use super::stream::{Buffer, Buffers};
use crate::answer::Answer;
use crate::copies::{beneath, copy, gone};
use crate::law::{Law, MISTAKES};
use crate::record::{Itinerary, Kind, Record, MOST_RECORDS};

/// The words for an answer, each behind its number.
pub fn met(number: u16, before: &Buffers, answer: &Answer) -> Vec<String> {
    let Ok(itinerary) = Itinerary::read(before.get(Buffer::Itinerary)) else { return Vec::new() };
    let asked = Asked { below: beneath(&itinerary, number), gone: gone(&itinerary), itinerary, number };
    let mut words = match answer.number {
        0 => asked.done(),
        17 => asked.no_active_copier(),
        18 => asked.too_few(),
        _ => Vec::new(),
    };
    words.extend(asked.mistakes());
    words.into_iter().map(|word| format!("{:2} {word}", answer.number)).collect()
}

/// An itinerary, the number given, what stands beneath that number, and the gone records.
struct Asked {
    itinerary: Itinerary,
    number: u16,
    below: Vec<u16>,
    gone: Vec<u16>,
}

/// Words for which something is so.
fn so(words: &[(&'static str, bool)]) -> Vec<String> {
    words.iter().filter(|&&(_, so)| so).map(|(word, _)| word.to_string()).collect()
}

impl Asked {
    fn record(&self, number: u16) -> Record {
        self.itinerary.get(number).copied().unwrap_or(Record::GONE)
    }

    /// Whether something is so of a record beneath.
    fn any(&self, wanted: impl Fn(u16, Record) -> bool) -> bool {
        self.below.iter().any(|&number| wanted(number, self.record(number)))
    }

    fn done(&self) -> Vec<String> {
        let (below, gone) = (self.below.len(), self.gone.len());
        let parent = self.record(self.number).parent;
        let own = self.below.iter().filter(|&&number| self.record(number).parent == self.number).count();
        let is_copier = |number: u16| self.itinerary.is(Kind::Copier, number);
        let full = self.itinerary.count() == MOST_RECORDS;
        so(&[
            ("nothing beneath", below == 0),
            ("nothing beneath and nothing gone", below == 0 && gone == 0),
            ("just enough gone records", below > 0 && below == gone),
            ("a gone record left", below > 0 && below < gone),
            ("in the environment", below > 0 && parent == 0),
            ("in an ambient", below > 0 && parent != 0),
            ("in an ambient with a higher number", below > 0 && parent > self.number),
            ("several children of its own", own > 1),
            ("deeper than its own children", below > own),
            ("a copier beneath", self.any(|number, _| is_copier(number))),
            (
                "beneath a copier beneath",
                self.any(|_, record| record.parent != self.number && is_copier(record.parent)),
            ),
            ("a capability beneath", self.any(|_, record| record.kind.is_capability())),
            ("clients beneath", self.any(|_, record| record.client > 255 && record.client % 256 > 0)),
            ("parent with a higher number", self.any(|number, record| record.parent > number)),
            ("a gone record before an original", below > 0 && self.gone[0] < self.below[0]),
            ("originals and gone records in turn", self.in_turn()),
            ("1,024 records", full && below > 0),
            ("511 copied", below == 511),
            ("the last gone record of 1,024", full && below > 0 && below == gone),
        ])
    }

    /// Some gone record stands between two that are copied into others.
    fn in_turn(&self) -> bool {
        let between = |pair: &[u16]| self.gone.iter().any(|&gone| pair[0] < gone && gone < pair[1]);
        self.below.windows(2).any(between)
    }

    fn no_active_copier(&self) -> Vec<String> {
        let (kind, above) = (self.record(self.number).kind, self.itinerary.above(self.number));
        let count = self.itinerary.count();
        let copier = kind == Kind::Copier;
        let is = |kind: Kind| above.iter().any(|&number| self.itinerary.is(kind, number));
        let parent_is_ambient = above.first().is_some_and(|&parent| self.itinerary.is_ambient(parent));
        so(&[
            ("number 0", self.number == 0),
            ("just over the count", usize::from(self.number) == count + 1),
            ("over 1,024", self.number > 1024),
            ("over the count by its high byte", self.number > 255 && usize::from(self.number % 256) <= count),
            ("gone", kind == Kind::Gone && (1..=count).contains(&self.number.into())),
            ("ambient", kind == Kind::Ambient),
            ("in", kind == Kind::In),
            ("out", kind == Kind::Out),
            ("open", kind == Kind::Open),
            (
                "copier beneath a capability",
                copier && above.iter().any(|&number| self.record(number).kind.is_capability()),
            ),
            ("copier beneath a copier", copier && is(Kind::Copier)),
            ("inactive by a record farther up", copier && parent_is_ambient),
            ("before 18", self.gone.len() < self.below.len()),
            ("inactive, with room", copier && !self.below.is_empty() && self.below.len() <= self.gone.len()),
        ])
    }

    fn too_few(&self) -> Vec<String> {
        let (below, gone) = (self.below.len(), self.gone.len());
        so(&[
            ("one too few", gone + 1 == below),
            ("none gone", gone == 0),
            ("some gone", gone > 0),
            ("children alone would do", self.children() <= gone),
            ("1,023 beneath", below == MOST_RECORDS - 1),
        ])
    }

    fn children(&self) -> usize {
        self.below.iter().filter(|&&number| self.record(number).parent == self.number).count()
    }

    /// The mistakes that this call would tell.
    fn mistakes(&self) -> Vec<String> {
        let outcome = |law: Law| {
            let mut after = self.itinerary.clone();
            (copy(law, &mut after, self.number), after)
        };
        let wanted = outcome(Law::Document);
        let told = MISTAKES.iter().filter(|&&(_, law)| outcome(law) != wanted);
        told.map(|(name, _)| format!("tells {name}")).collect()
    }
}

/// What the cases have to meet.
pub fn wanted() -> Vec<String> {
    WANTED.iter().map(|(number, word)| format!("{number:2} {word}")).collect()
}

const WANTED: [(u8, &str); 49] = [
    (0, "nothing beneath"),
    (0, "nothing beneath and nothing gone"),
    (0, "just enough gone records"),
    (0, "a gone record left"),
    (0, "in the environment"),
    (0, "in an ambient"),
    (0, "in an ambient with a higher number"),
    (0, "several children of its own"),
    (0, "deeper than its own children"),
    (0, "a copier beneath"),
    (0, "beneath a copier beneath"),
    (0, "a capability beneath"),
    (0, "clients beneath"),
    (0, "parent with a higher number"),
    (0, "a gone record before an original"),
    (0, "originals and gone records in turn"),
    (0, "1,024 records"),
    (0, "511 copied"),
    (0, "the last gone record of 1,024"),
    (0, "tells copies-under-the-copier"),
    (0, "tells copies-under-originals-parents"),
    (0, "tells highest-gone-first"),
    (0, "tells copier-copied-too"),
    (0, "tells children-alone"),
    (0, "tells copiers-beneath-empty"),
    (0, "tells copies-without-clients"),
    (17, "number 0"),
    (17, "just over the count"),
    (17, "over 1,024"),
    (17, "over the count by its high byte"),
    (17, "gone"),
    (17, "ambient"),
    (17, "in"),
    (17, "out"),
    (17, "open"),
    (17, "copier beneath a capability"),
    (17, "copier beneath a copier"),
    (17, "inactive by a record farther up"),
    (17, "before 18"),
    (17, "inactive, with room"),
    (17, "tells gone-before-active"),
    (17, "tells inactive-copiers-copy"),
    (18, "one too few"),
    (18, "none gone"),
    (18, "some gone"),
    (18, "children alone would do"),
    (18, "1,023 beneath"),
    (18, "tells children-alone"),
    (18, "tells copiers-beneath-empty"),
];
