//! The observer's sheet.

use super::itinerary::{validate, Record, AMBIENT, RECORD};
use super::refuse;
use super::tables::{is_formed, Table};
use birnsket::Refusal;

#[derive(Clone, Copy, PartialEq, Eq)]
enum Mark {
    Unknown,
    Shown,
    Hidden,
}

/// Whether a record is hidden: climbs to a record whose mark is known or that is
/// suspect, then marks the records passed.
fn mark(itinerary: &[u8], suspects: u64, marks: &mut [Mark; 1025], number: u16) -> Mark {
    let mut at = number;
    let found = loop {
        if marks[usize::from(at)] != Mark::Unknown {
            break marks[usize::from(at)];
        }
        let record = Record::at(itinerary, at);
        if record.kind == AMBIENT && suspects >> record.label & 1 == 1 {
            marks[usize::from(at)] = Mark::Hidden;
            break Mark::Hidden;
        }
        at = record.parent;
    };
    at = number;
    while marks[usize::from(at)] == Mark::Unknown {
        marks[usize::from(at)] = found;
        at = Record::at(itinerary, at).parent;
    }
    found
}

/// Writes the sheet by climbs.
pub fn write_climbing(itinerary: &[u8], suspects: u64, sheet: &mut [u8]) {
    let mut marks = [Mark::Unknown; 1025];
    marks[0] = Mark::Shown;
    sheet.copy_from_slice(itinerary);
    for (place, record) in sheet.chunks_exact_mut(RECORD).enumerate() {
        if mark(itinerary, suspects, &mut marks, place as u16 + 1) == Mark::Hidden {
            record.fill(0);
        }
    }
}

pub fn sheet(itinerary: &[u8], table: &[u8], sheet: &mut [u8]) -> Result<(), Refusal> {
    validate(itinerary)?;
    if !is_formed(table) {
        return refuse(8);
    }
    if sheet.len() != itinerary.len() {
        return refuse(14);
    }
    write_climbing(itinerary, Table::read(table).suspects, sheet);
    Ok(())
}
