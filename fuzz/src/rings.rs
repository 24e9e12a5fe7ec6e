//! Itineraries in which climbing goes round for ever.

use simulator::generate::clients;
use simulator::random::Random;
use simulator::record::{Itinerary, Kind, Record, MOST_RECORDS};

fn link(random: &mut Random, parent: u16) -> Record {
    let (name, client) = (random.below(64) as u8, clients::draw(random, 50));
    match random.below(9) {
        0 => Record { kind: Kind::Copier, label: 0, name: 0, parent, client },
        1 | 2 => {
            let kind = random.pick(&[Kind::In, Kind::Out, Kind::Open]);
            Record { kind, label: 64 + random.below(64) as u8, name, parent, client }
        }
        _ => Record { kind: Kind::Ambient, label: random.between(1, 63) as u8, name, parent, client },
    }
}

/// A ring, a tail that leads into it, and records beside that reach the environment, with shuffled numbers or in order.
fn ring(random: &mut Random, round: usize, tail: usize, beside: usize) -> Itinerary {
    let count = round + tail + beside;
    let mut numbers: Vec<u16> = (1..=count as u16).collect();
    match random.below(3) {
        0 => {}
        1 => numbers.reverse(),
        _ => random.shuffle(&mut numbers),
    }
    let mut records = vec![Record::GONE; count];
    for place in 0..count {
        let parent = match place {
            0 => numbers[round - 1],
            _ if place == round + tail => 0,
            // The tail starts anywhere on the ring.
            _ if place == round => numbers[random.below(round)],
            _ => numbers[place - 1],
        };
        records[numbers[place] as usize - 1] = link(random, parent);
    }
    Itinerary { records }
}

/// Rings of 1 to 1,023, short ones and long ones, with few records beside or many.
pub fn some_ring(random: &mut Random) -> Itinerary {
    let round = if random.chance(40) { random.between(1, 8) } else { random.between(1, MOST_RECORDS - 1) };
    let most = MOST_RECORDS - round;
    let tail = random.below(most.min(4));
    let beside = if random.chance(50) { random.below(most - tail + 1) } else { 0 };
    ring(random, round, tail, beside)
}

pub fn full_ring(random: &mut Random) -> Itinerary {
    ring(random, MOST_RECORDS, 0, 0)
}

/// A tail of up to 1,023 into a ring; half of them fill the itinerary.
pub fn tail_into_ring(random: &mut Random) -> Itinerary {
    let round = if random.chance(50) { random.between(1, 3) } else { random.between(1, MOST_RECORDS - 1) };
    let most = MOST_RECORDS - round;
    let tail = if random.chance(50) { most } else { random.between(1, most) };
    ring(random, round, tail, 0)
}
