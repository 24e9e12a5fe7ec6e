//! Records, validation and climbing.

use super::refuse;
use super::tables::{is_policy, BOUNDARY};
use birnsket::{Above, Refusal};

pub const RECORD: usize = 8;
pub const AMBIENT: u8 = 1;
pub const IN: u8 = 2;
pub const OUT: u8 = 3;
pub const OPEN: u8 = 4;
pub const COPIER: u8 = 5;
const LAST_CLIENT: u16 = 999;

#[derive(Clone, Copy)]
pub struct Record {
    pub kind: u8,
    pub label: u8,
    pub name: u8,
    pub parent: u16,
    pub client: u16,
}

impl Record {
    pub const GONE: Record = Record { kind: 0, label: 0, name: 0, parent: 0, client: 0 };

    pub fn read(bytes: &[u8]) -> Record {
        let parent = u16::from_le_bytes([bytes[4], bytes[5]]);
        let client = u16::from_le_bytes([bytes[6], bytes[7]]);
        Record { kind: bytes[0], label: bytes[1], name: bytes[2], parent, client }
    }

    /// Record `number`, gone for 0 and over the count.
    pub fn at(itinerary: &[u8], number: u16) -> Record {
        let start = RECORD * usize::from(number);
        match start.checked_sub(RECORD).and_then(|start| itinerary.get(start..start + RECORD)) {
            Some(bytes) => Record::read(bytes),
            None => Record::GONE,
        }
    }
}

/// All records, from number 1 up.
pub fn records(itinerary: &[u8]) -> impl Iterator<Item = Record> + '_ {
    itinerary.chunks_exact(RECORD).map(Record::read)
}

/// The first of 2 to 5 that a record breaks.
fn fault(itinerary: &[u8], bytes: &[u8]) -> Option<u32> {
    let record = Record::read(bytes);
    let spare = bytes[3];
    if record.kind == 0 {
        let empty = record.label | record.name | spare == 0 && record.parent | record.client == 0;
        return if empty { None } else { Some(2) };
    }
    if record.kind > COPIER || spare != 0 || record.client > LAST_CLIENT {
        return Some(2);
    }
    let (labels, last_name) = match record.kind {
        AMBIENT => (1..=63, 63),
        COPIER => (0..=0, 0),
        _ => (64..=127, 63),
    };
    if !labels.contains(&record.label) {
        return Some(3);
    }
    if record.name > last_name {
        return Some(4);
    }
    if record.parent != 0 && Record::at(itinerary, record.parent).kind == 0 {
        return Some(5);
    }
    None
}

/// Whether climbing from `number` reaches the environment. `known` marks numbers
/// that do, so that no record is climbed from twice; a record right under one of
/// them is settled at once.
fn reaches(itinerary: &[u8], known: &mut [bool; 1025], number: u16) -> bool {
    if known[usize::from(Record::at(itinerary, number).parent)] {
        known[usize::from(number)] = true;
        return true;
    }
    let mut at = number;
    let mut left = itinerary.len() / RECORD;
    while !known[usize::from(at)] {
        if left == 0 {
            return false;
        }
        left -= 1;
        at = Record::at(itinerary, at).parent;
    }
    at = number;
    while !known[usize::from(at)] {
        known[usize::from(at)] = true;
        at = Record::at(itinerary, at).parent;
    }
    true
}

/// Refusals 1 to 5; then whether every parent has a lower number than its child.
#[inline(always)]
fn read_through(itinerary: &[u8]) -> Result<bool, Refusal> {
    if !itinerary.len().is_multiple_of(RECORD) || itinerary.len() > 8192 {
        return refuse(1);
    }
    let mut in_order = true;
    for (place, bytes) in itinerary.chunks_exact(RECORD).enumerate() {
        if let Some(number) = fault(itinerary, bytes) {
            return Err(Refusal { number, record: place as u32 + 1 });
        }
        in_order &= usize::from(Record::read(bytes).parent) <= place;
    }
    Ok(in_order)
}

/// The number of records, or refusal 6.
#[inline(always)]
fn climb_all(itinerary: &[u8]) -> Result<u32, Refusal> {
    let count = (itinerary.len() / RECORD) as u16;
    let mut known = [false; 1025];
    known[0] = true;
    match (1..=count).find(|&number| !reaches(itinerary, &mut known, number)) {
        Some(record) => Err(Refusal { number: 6, record: u32::from(record) }),
        None => Ok(u32::from(count)),
    }
}

/// The number of records, or the first of refusals 1 to 6.
pub fn validate(itinerary: &[u8]) -> Result<u32, Refusal> {
    read_through(itinerary)?;
    climb_all(itinerary)
}

/// The same without a climb where every parent has a lower number, and so reaches the
/// environment; says whether that is so.
pub fn validate_skipping(itinerary: &[u8]) -> Result<(u32, bool), Refusal> {
    if read_through(itinerary)? {
        return Ok(((itinerary.len() / RECORD) as u32, true));
    }
    Ok((climb_all(itinerary)?, false))
}

/// What is not yet decided among the nearest labels.
const UNDECIDED: u8 = 255;

/// The label of the nearest ambient from `number` on upwards: climbs to a number that
/// is decided or to an ambient, then notes the label for the records passed.
fn nearest(itinerary: &[u8], labels: &mut [u8; 1025], number: u16) -> u8 {
    let mut at = number;
    let found = loop {
        if labels[usize::from(at)] != UNDECIDED {
            break labels[usize::from(at)];
        }
        let record = Record::at(itinerary, at);
        if record.kind == AMBIENT {
            labels[usize::from(at)] = record.label;
            break record.label;
        }
        at = record.parent;
    };
    at = number;
    while labels[usize::from(at)] == UNDECIDED {
        labels[usize::from(at)] = found;
        at = Record::at(itinerary, at).parent;
    }
    found
}

/// The label of the nearest ambient from each number on upwards.
pub fn nearest_labels(itinerary: &[u8]) -> [u8; 1025] {
    let mut labels = [UNDECIDED; 1025];
    labels[0] = 0;
    for number in 1..=(itinerary.len() / RECORD) as u16 {
        nearest(itinerary, &mut labels, number);
    }
    labels
}

/// Container and nearest boundary ambient of a record.
pub fn above(itinerary: &[u8], policy: &[u8], number: u16) -> Above {
    let mut above = Above::default();
    let mut at = Record::at(itinerary, number).parent;
    while at != 0 {
        let record = Record::at(itinerary, at);
        if record.kind == AMBIENT {
            if above.label == 0 {
                above.label = record.label;
            }
            if policy[usize::from(record.label)] == BOUNDARY {
                above.boundary = at;
                break;
            }
        }
        at = record.parent;
    }
    above
}

pub fn climb(itinerary: &[u8], policy: &[u8], number: u16) -> Result<Above, Refusal> {
    validate(itinerary)?;
    if !is_policy(policy) {
        return refuse(7);
    }
    Ok(above(itinerary, policy, number))
}

#[cfg(test)]
mod tests {
    use super::*;
    use simulator::generate::damage::{damage, spoil_client};
    use simulator::generate::trees::{tree, Mix};
    use simulator::random::Random;

    /// The rows' inputs are all good.
    #[test]
    fn validation_is_the_simulators() {
        let random = &mut Random::new(2);
        let mut numbers = [0; 7];
        for round in 0..4_000 {
            let mix = Mix { gone: 15, clients: 80, ..Mix::lively(random) };
            let mut bytes = tree(random, &mix).bytes();
            match round % 4 {
                0 => {}
                1 => drop(spoil_client(random, &mut bytes, round % 8 == 1)),
                _ => {
                    let cause = random.between(1, 6) as u8;
                    damage(random, &mut bytes, cause);
                }
            }
            let answer = simulator::validate(&bytes);
            let refusal = Refusal { number: answer.number.into(), record: answer.record.into() };
            let wanted = if answer.number == 0 { Ok(answer.values[0]) } else { Err(refusal) };
            assert_eq!(validate(&bytes), wanted);
            assert_eq!(validate_skipping(&bytes).map(|(count, _)| count), wanted);
            numbers[usize::from(answer.number)] += 1;
        }
        assert!(numbers.iter().all(|&times| times > 50), "{numbers:?}");
    }
}
