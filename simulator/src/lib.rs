//! An independent simulator of the bench hub's ambient screen, written from the
//! scope document and the change requests alone, for comparison by running.
//!
//! The functions below are the oracle: lent bytes in, an `Answer` out, and
//! the lent buffers left as the document says.

pub mod answer;
pub mod calls;
pub mod copies;
pub mod generate;
pub mod hub;
pub mod law;
pub mod random;
pub mod record;
pub mod replay;
pub mod secrecy;
pub mod steps;
pub mod table;
pub mod term;

pub use answer::Answer;
use law::Law;

/// Values: record count.
pub fn validate(itinerary: &[u8]) -> Answer {
    calls::validate(itinerary).into()
}

/// Values: container, number of the nearest boundary ambient above.
pub fn climb(itinerary: &[u8], policy: &[u8], number: u16) -> Answer {
    calls::climb(Law::Document, itinerary, policy, number).into()
}

/// Writes the observer's sheet.
pub fn sheet(itinerary: &[u8], table: &[u8], sheet: &mut [u8]) -> Answer {
    calls::sheet(itinerary, table, sheet).into()
}

/// Does one step in the lent itinerary.
pub fn step(itinerary: &mut [u8], actor: u16, partner: u16) -> Answer {
    calls::step(Law::Document, itinerary, actor, partner).into()
}

/// Values: how many records were copied. Copies what stands beneath a copier into gone records.
pub fn copy(itinerary: &mut [u8], number: u16) -> Answer {
    calls::copy(Law::Document, itinerary, number).into()
}

/// Values: how many pairs would answer 0, 10, 11 and 12. Writes the pairs of the first
/// sort at the beginning of the list.
pub fn moves(itinerary: &[u8], list: &mut [u8]) -> Answer {
    calls::moves(Law::Document, itinerary, list).into()
}

/// Values: ins, outs, opens. Writes itinerary and answers.
pub fn run(itinerary: &mut [u8], script: &[u8], answers: &mut [u8]) -> Answer {
    calls::run(Law::Document, itinerary, script, answers).into()
}

pub fn check(itinerary: &[u8], policy: &[u8], table: &[u8]) -> Answer {
    calls::check(Law::Document, itinerary, policy, table).into()
}

/// Checks the table for the four joined, and writes the joined bytes; an unused place has no bytes.
pub fn join(members: [&[u8]; 4], policy: &[u8], table: &[u8], joined: &mut [u8]) -> Answer {
    calls::join(Law::Document, members, policy, table, joined).into()
}

/// Values: bits set. Writes the table.
pub fn maker(itinerary: &[u8], policy: &[u8], table: &mut [u8]) -> Answer {
    calls::maker(Law::Document, itinerary, policy, table).into()
}

/// Values: 1 exposed, 2 hinted or 3 sealed, then the label (0 if sealed).
pub fn verdict(itinerary: &[u8], policy: &[u8], table: &[u8]) -> Answer {
    calls::verdict(Law::Document, itinerary, policy, table).into()
}

/// Values: 1 if a high label is in R, 0 if none is.
pub fn exposed(itinerary: &[u8], policy: &[u8], table: &[u8]) -> Answer {
    calls::exposed(Law::Document, itinerary, policy, table).into()
}

/// Values: offset and length of the row's part, 0 and 0 for the empty part.
pub fn row(table: &[u8], label: u16) -> Answer {
    calls::row(table, label).into()
}

/// Values: verdict code times 256 plus label, bits, ins, outs, opens, records not
/// gone. Writes itinerary and answers.
pub fn screen(itinerary: &mut [u8], policy: &[u8], script: &[u8], answers: &mut [u8]) -> Answer {
    calls::screen(Law::Document, itinerary, policy, script, answers).into()
}
