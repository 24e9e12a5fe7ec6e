//! Sets of four itineraries to be joined; an unused place is one of no records.

use super::trees::{tree, Mix};
use crate::random::Random;
use crate::record::{join, Itinerary};

pub type Set = [Itinerary; 4];

pub const UNUSED: Itinerary = Itinerary { records: Vec::new() };

/// Each place with a tree of its own mix; now and then one is unused.
pub fn drawn(random: &mut Random, mix: fn(&mut Random) -> Mix) -> Set {
    std::array::from_fn(|_| {
        if random.chance(20) {
            return UNUSED;
        }
        let mix = mix(random);
        tree(random, &mix)
    })
}

/// Trees with that many records each.
pub fn of_counts(random: &mut Random, counts: [usize; 4], mix: &Mix) -> Set {
    counts.map(|records| tree(random, &Mix { records, ..*mix }))
}

/// That itinerary at one place, the others unused.
pub fn alone(itinerary: &Itinerary, place: usize) -> Set {
    let mut set = [UNUSED; 4];
    set[place] = itinerary.clone();
    set
}

/// The same records in the same order, cut into members elsewhere: two neighbours are one, and a place is unused.
pub fn regrouped(random: &mut Random, set: &Set) -> Set {
    let [first, second, third, fourth] = set;
    let both = |one: &Itinerary, other: &Itinerary| join(&[one.clone(), other.clone()]);
    match random.below(3) {
        0 => [both(first, second), UNUSED, third.clone(), fourth.clone()],
        1 => [first.clone(), both(second, third), fourth.clone(), UNUSED],
        _ => [UNUSED, first.clone(), second.clone(), both(third, fourth)],
    }
}
