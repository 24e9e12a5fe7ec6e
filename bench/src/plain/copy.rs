//! The copy of what is beneath a copier.

use super::itinerary::{validate, Record, COPIER, RECORD};
use super::refuse;
use super::steps::all_ambients;
use birnsket::Refusal;

#[derive(Clone, Copy, PartialEq, Eq)]
enum Mark {
    Unknown,
    Beneath,
    Beside,
}

/// What the parent alone says of a record's mark.
fn by_parent(copier: u16, marks: &[Mark; 1025], parent: u16) -> Mark {
    if parent == copier {
        Mark::Beneath
    } else {
        marks[usize::from(parent)]
    }
}

/// Whether a record is beneath the copier: climbs to a record whose parent decides it, then marks the records passed.
fn mark(itinerary: &[u8], copier: u16, marks: &mut [Mark; 1025], number: u16) -> Mark {
    let mut at = Record::at(itinerary, number).parent;
    let mut found = by_parent(copier, marks, at);
    while found == Mark::Unknown {
        at = Record::at(itinerary, at).parent;
        found = by_parent(copier, marks, at);
    }
    let mut passed = number;
    while passed != at {
        marks[usize::from(passed)] = found;
        passed = Record::at(itinerary, passed).parent;
    }
    found
}

/// Lists the records beneath the copier, from the lowest up; how many there are.
fn list_beneath(itinerary: &[u8], copier: u16, list: &mut [u16; 1024]) -> usize {
    let mut marks = [Mark::Unknown; 1025];
    marks[0] = Mark::Beside;
    let mut count = 0;
    for place in 0..itinerary.len() / RECORD {
        let number = place as u16 + 1;
        if mark(itinerary, copier, &mut marks, number) == Mark::Beneath {
            list[count] = number;
            count += 1;
        }
    }
    count
}

/// The same of those that are gone.
fn list_gone(itinerary: &[u8], list: &mut [u16; 1024]) -> usize {
    let mut count = 0;
    for (place, bytes) in itinerary.chunks_exact(RECORD).enumerate() {
        if bytes[0] == 0 {
            list[count] = place as u16 + 1;
            count += 1;
        }
    }
    count
}

/// Puts the copies, each with the parent that its original's parent leads to.
fn write(itinerary: &mut [u8], copier: u16, originals: &[u16], places: &[u16]) {
    let mut leads = [0; 1025];
    for (&original, &place) in originals.iter().zip(places) {
        leads[usize::from(original)] = place;
    }
    leads[usize::from(copier)] = Record::at(itinerary, copier).parent;
    for (&original, &place) in originals.iter().zip(places) {
        let (from, to) = (RECORD * usize::from(original - 1), RECORD * usize::from(place - 1));
        let mut bytes = [0; RECORD];
        bytes.copy_from_slice(&itinerary[from..from + RECORD]);
        let parent: u16 = leads[usize::from(Record::read(&bytes).parent)];
        bytes[4..6].copy_from_slice(&parent.to_le_bytes());
        itinerary[to..to + RECORD].copy_from_slice(&bytes);
    }
}

pub fn copy(itinerary: &mut [u8], number: u16) -> Result<u32, Refusal> {
    validate(itinerary)?;
    let copier = Record::at(itinerary, number);
    if copier.kind != COPIER || !all_ambients(itinerary, copier.parent) {
        return refuse(17);
    }
    let (mut originals, mut places) = ([0; 1024], [0; 1024]);
    let below = list_beneath(itinerary, number, &mut originals);
    let gone = list_gone(itinerary, &mut places);
    if gone < below {
        return refuse(18);
    }
    write(itinerary, number, &originals[..below], &places[..gone]);
    Ok(below as u32)
}

#[cfg(test)]
mod tests {
    use super::*;
    use simulator::copies::active_copiers;
    use simulator::generate::damage::damage;
    use simulator::generate::trees::{tree, Mix};
    use simulator::random::Random;

    /// The rows' copies are all done.
    #[test]
    fn copies_are_the_simulators() {
        let random = &mut Random::new(4);
        let mut numbers = [0; 19];
        for round in 0..3_000 {
            let mix = Mix::copying(random);
            let itinerary = tree(random, &mix);
            let mut bytes = itinerary.bytes();
            if round % 3 == 0 {
                let cause = random.between(1, 6) as u8;
                damage(random, &mut bytes, cause);
            }
            let any = random.below(itinerary.count() + 2) as u16;
            let number =
                random.choose(&active_copiers(&itinerary)).filter(|_| random.chance(80)).unwrap_or(any);
            let (mut wanted, mut got) = (bytes.clone(), bytes);
            let answer = simulator::copy(&mut wanted, number);
            let refusal = Refusal { number: answer.number.into(), record: answer.record.into() };
            let expected = if answer.number == 0 { Ok(answer.values[0]) } else { Err(refusal) };
            assert_eq!((copy(&mut got, number), got), (expected, wanted));
            numbers[usize::from(answer.number)] += 1;
        }
        assert!((0..7).chain([17, 18]).all(|number| numbers[number] > 20), "{numbers:?}");
    }
}
