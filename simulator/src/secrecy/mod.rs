//! The secrecy statement, checked by running on pairs of itineraries.
//!
//! Supposed: x and y of equal length, one table accepted for both under one
//! policy, the verdict sealed, equal sheets. Then, after every list of steps and
//! copies, refused ones included:
//! 1. each suspect ambient has a boundary ambient above it, in x and in y;
//!
//! and as long as no copy was in the list:
//! 2. the sheets are equal;
//! 3. each step whose actor stood on the sheet just before it got equal answers.
//!
//! A copy ends 2 and 3, since there may be gone records enough in x and not in y.

pub mod copying;
pub mod files;
pub mod pairs;
pub mod search;
pub mod sets;
pub mod shrink;
pub mod text;

use crate::copies;
use crate::law::Law;
use crate::record::{Itinerary, Kind};
use crate::steps;
use crate::table::{hidden, holds, least, sheet, verdict, Policy, Table, Verdict, BOUNDARY};

/// What may stand in the list.
#[derive(Clone, Copy, Debug, PartialEq, Eq)]
pub enum Event {
    /// Actor and partner.
    Step(u16, u16),
    /// The copier.
    Copy(u16),
}

impl Event {
    pub fn is_copy(self) -> bool {
        matches!(self, Event::Copy(_))
    }

    /// The actor of a step, or the copier.
    pub fn number(self) -> u16 {
        match self {
            Event::Step(number, _) | Event::Copy(number) => number,
        }
    }
}

#[derive(Clone, Debug, PartialEq, Eq)]
pub struct Case {
    pub x: Itinerary,
    pub y: Itinerary,
    pub policy: Policy,
    pub table: Table,
    pub events: Vec<Event>,
}

impl Case {
    /// The table that is least for x and y together.
    pub fn least_table(&self, law: Law) -> Table {
        least(law, &[&self.x, &self.y], &self.policy)
    }

    /// Whether the table is accepted for both itineraries.
    pub fn accepted(&self, law: Law) -> bool {
        let held = |itinerary: &Itinerary| holds(law, itinerary, &self.policy, &self.table);
        self.table.is_formed() && held(&self.x) && held(&self.y)
    }

    /// Whether everything that the statement supposes is so.
    pub fn supposed(&self, law: Law) -> bool {
        self.x.count() == self.y.count()
            && self.accepted(law)
            && verdict(&self.policy, &self.table) == Verdict::Sealed
            && sheet(&self.x, &self.table) == sheet(&self.y, &self.table)
    }

    /// Parts 1 and 2, about the two itineraries as they stand now, after a copy or before all copies.
    fn false_now(&self, x: &Itinerary, y: &Itinerary, copied: bool) -> Vec<u8> {
        let mut parts = Vec::new();
        if !self.guarded(x) || !self.guarded(y) {
            parts.push(1);
        }
        if !copied && sheet(x, &self.table) != sheet(y, &self.table) {
            parts.push(2);
        }
        parts
    }

    /// Each suspect ambient has a boundary ambient above it.
    fn guarded(&self, itinerary: &Itinerary) -> bool {
        let boundary = |number: u16| {
            let record = itinerary.get(number);
            record.is_some_and(|r| r.kind == Kind::Ambient && self.policy[r.label as usize] == BOUNDARY)
        };
        let suspect = |number: u16| {
            let record = itinerary.get(number);
            record.is_some_and(|r| r.kind == Kind::Ambient && self.table.suspect(r.label))
        };
        let mut suspects = itinerary.numbers().filter(|&number| suspect(number));
        suspects.all(|number| itinerary.above(number).into_iter().any(boundary))
    }

    /// The parts that are false at the first point of the list where one is;
    /// none if the statement is true of the case.
    pub fn false_parts(&self, law: Law) -> Vec<u8> {
        let (mut x, mut y) = (self.x.clone(), self.y.clone());
        let mut copied = false;
        let mut parts = self.false_now(&x, &y, copied);
        for &event in &self.events {
            if !parts.is_empty() {
                break;
            }
            let shown = on_sheet(&x, &self.table, event.number());
            let answers = (answer(law, &mut x, event), answer(law, &mut y, event));
            copied |= event.is_copy();
            parts = self.false_now(&x, &y, copied);
            if !copied && shown && answers.0 != answers.1 {
                parts.push(3);
            }
        }
        parts
    }
}

/// Does the step or the copy and gives its answer.
pub fn answer(law: Law, itinerary: &mut Itinerary, event: Event) -> u8 {
    match event {
        Event::Step(actor, partner) => steps::step(law, itinerary, actor, partner).err().unwrap_or(0),
        Event::Copy(copier) => copies::copy(law, itinerary, copier).err().unwrap_or(0),
    }
}

/// Whether the record stands on the sheet.
pub fn on_sheet(itinerary: &Itinerary, table: &Table, number: u16) -> bool {
    let stands = itinerary.get(number).is_some_and(|record| record.kind != Kind::Gone);
    stands && !hidden(itinerary, table, number)
}
