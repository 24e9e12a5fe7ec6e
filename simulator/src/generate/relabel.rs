//! Other labels and names for what was drawn with small ones, so that the last
//! label, the last capability label and the last name are in use as well.

use crate::random::Random;
use crate::record::{Itinerary, Kind};
use crate::table::{Policy, H_START, S_START};

pub struct Relabel {
    labels: [u8; 128],
    names: [u8; 64],
}

impl Relabel {
    /// Everything stays as it is.
    pub fn none() -> Relabel {
        Relabel { labels: std::array::from_fn(|k| k as u8), names: std::array::from_fn(|k| k as u8) }
    }

    /// Any order of ambient labels, capability labels and names; label 0 stays 0.
    pub fn any(random: &mut Random) -> Relabel {
        let mut relabel = Relabel::none();
        random.shuffle(&mut relabel.labels[1..64]);
        random.shuffle(&mut relabel.labels[64..]);
        random.shuffle(&mut relabel.names);
        last_into(random, &mut relabel.labels[1..64], 63);
        last_into(random, &mut relabel.labels[64..], 127);
        last_into(random, &mut relabel.names, 63);
        relabel
    }

    /// None half of the time.
    pub fn draw(random: &mut Random) -> Relabel {
        if random.chance(50) {
            Relabel::none()
        } else {
            Relabel::any(random)
        }
    }

    pub fn itinerary(&self, itinerary: &Itinerary) -> Itinerary {
        let mut changed = itinerary.clone();
        for record in &mut changed.records {
            record.label = self.labels[record.label as usize];
            if !matches!(record.kind, Kind::Gone | Kind::Copier) {
                record.name = self.names[record.name as usize];
            }
        }
        changed
    }

    pub fn policy(&self, policy: &Policy) -> Policy {
        let mut changed = *policy;
        for label in 0..64 {
            changed[self.labels[label] as usize] = policy[label];
        }
        changed
    }

    /// The same for a bit of the table.
    pub fn bit(&self, bit: usize) -> usize {
        let label = |k: usize| self.labels[k] as usize;
        if bit >= S_START {
            S_START + label(bit - S_START)
        } else if bit >= H_START {
            let (row, name) = ((bit - H_START) / 64, (bit - H_START) % 64);
            H_START + label(row) * 64 + self.names[name] as usize
        } else {
            label(bit / 128) * 128 + label(bit % 128)
        }
    }
}

/// Puts the last number among the first four, which small draws use.
fn last_into(random: &mut Random, numbers: &mut [u8], last: u8) {
    let first = random.below(4);
    if let Some(place) = numbers.iter().position(|&number| number == last) {
        numbers.swap(first, place);
    }
}
