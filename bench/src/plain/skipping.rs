//! Calls that climb no more than they must where every parent has a lower number than
//! its child, as in a file that was written by hand. Elsewhere they do as the others.

use super::itinerary::{self, above, Record, AMBIENT, RECORD};
use super::refuse;
use super::sheet::write_climbing;
use super::steps::act;
use super::tables::{is_formed, is_policy, Table};
use birnsket::{Above, Refusal};

pub fn validate(itinerary: &[u8]) -> Result<u32, Refusal> {
    itinerary::validate_skipping(itinerary).map(|(count, _)| count)
}

pub fn climb(itinerary: &[u8], policy: &[u8], number: u16) -> Result<Above, Refusal> {
    validate(itinerary)?;
    if !is_policy(policy) {
        return refuse(7);
    }
    Ok(above(itinerary, policy, number))
}

pub fn step(itinerary: &mut [u8], actor: u16, partner: u16) -> Result<(), Refusal> {
    validate(itinerary)?;
    act(itinerary, actor, partner).or_else(|number| refuse(u32::from(number)))
}

/// A record is hidden as its parent is, which was looked at before it, or by itself.
fn write_in_order(itinerary: &[u8], suspects: u64, sheet: &mut [u8]) {
    let mut hidden = [false; 1025];
    sheet.copy_from_slice(itinerary);
    for (place, bytes) in sheet.chunks_exact_mut(RECORD).enumerate() {
        let record = Record::read(bytes);
        let suspect = record.kind == AMBIENT && suspects >> record.label & 1 == 1;
        hidden[place + 1] = suspect || hidden[usize::from(record.parent)];
        if hidden[place + 1] {
            bytes.fill(0);
        }
    }
}

pub fn sheet(itinerary: &[u8], table: &[u8], sheet: &mut [u8]) -> Result<(), Refusal> {
    let (_, in_order) = itinerary::validate_skipping(itinerary)?;
    if !is_formed(table) {
        return refuse(8);
    }
    if sheet.len() != itinerary.len() {
        return refuse(14);
    }
    let suspects = Table::read(table).suspects;
    if in_order {
        write_in_order(itinerary, suspects, sheet);
    } else {
        write_climbing(itinerary, suspects, sheet);
    }
    Ok(())
}
