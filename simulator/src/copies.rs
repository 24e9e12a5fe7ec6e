//! Copying what stands beneath a copier: the calculus's `!P = P | !P`, from left to right.

use crate::law::Law;
use crate::record::{Itinerary, Kind, Record};

/// Whether the number is that of a copier above which all records are ambients.
fn is_active_copier(law: Law, itinerary: &Itinerary, number: u16) -> bool {
    let inactive_too = law == Law::InactiveCopiersCopy;
    itinerary.is(Kind::Copier, number) && (inactive_too || itinerary.is_under_ambients(number))
}

/// The numbers of the copiers that are active, whether there are gone records for a copy or not.
pub fn active_copiers(itinerary: &Itinerary) -> Vec<u16> {
    itinerary.numbers().filter(|&number| is_active_copier(Law::Document, itinerary, number)).collect()
}

/// The numbers of the records that the record stands above, at any depth.
pub fn beneath(itinerary: &Itinerary, number: u16) -> Vec<u16> {
    itinerary.numbers().filter(|&below| itinerary.above(below).contains(&number)).collect()
}

pub fn gone(itinerary: &Itinerary) -> Vec<u16> {
    itinerary.numbers().filter(|&number| itinerary.is(Kind::Gone, number)).collect()
}

/// The numbers of the records to copy, and of those that the copies go into, both as they are taken in pairs.
fn originals_and_places(law: Law, itinerary: &Itinerary, number: u16) -> (Vec<u16>, Vec<u16>) {
    let (mut originals, mut places) = (beneath(itinerary, number), gone(itinerary));
    let parent = |number: u16| itinerary.get(number).map_or(0, |record| record.parent);
    match law {
        Law::HighestGoneFirst => places.reverse(),
        Law::ChildrenAlone => originals.retain(|&below| parent(below) == number),
        Law::CopiersBeneathEmpty => originals.retain(|&below| {
            let nearest = itinerary.above(below).into_iter().find(|&above| itinerary.is(Kind::Copier, above));
            nearest == Some(number)
        }),
        Law::CopierCopiedToo => {
            originals.push(number);
            originals.sort();
        }
        _ => {}
    }
    (originals, places)
}

/// The copy of a record: with the parent's copy as its parent, or with the copier's parent if it is the copier's own
/// child.
fn copied(law: Law, itinerary: &Itinerary, number: u16, pairs: &[(u16, u16)], original: &Record) -> Record {
    let copy = pairs.iter().find(|&&(original_parent, _)| original_parent == original.parent);
    let outer = itinerary.get(number).map_or(0, |copier| copier.parent);
    let parent = match copy {
        _ if law == Law::CopiesUnderOriginalsParents => original.parent,
        Some(&(_, copy_of_parent)) => copy_of_parent,
        None if law == Law::CopiesUnderTheCopier => number,
        None => outer,
    };
    let client = if law == Law::CopiesWithoutClients { 0 } else { original.client };
    Record { parent, client, ..*original }
}

/// Copies all records beneath an active copier; gives how many, or the answer 17 or 18.
pub fn copy(law: Law, itinerary: &mut Itinerary, number: u16) -> Result<u16, u8> {
    let (originals, places) = originals_and_places(law, itinerary, number);
    let active = is_active_copier(law, itinerary, number);
    let too_few = places.len() < originals.len();
    match (active, too_few) {
        (false, true) if law == Law::GoneBeforeActive => return Err(18),
        (false, _) => return Err(17),
        (true, true) => return Err(18),
        (true, false) => {}
    }
    let pairs: Vec<(u16, u16)> = originals.into_iter().zip(places).collect();
    let before = itinerary.clone();
    for &(original, place) in &pairs {
        if let (Some(original), Some(gone)) = (before.get(original), itinerary.get_mut(place)) {
            *gone = copied(law, &before, number, &pairs, original);
        }
    }
    Ok(pairs.len() as u16)
}
