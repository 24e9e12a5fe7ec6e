//! Client numbers, good and refused.

use crate::random::Random;
use crate::record::{Itinerary, Kind, LAST_CLIENT};

/// Next to a bound, or with a byte of zeros or ones.
pub const GOOD: [u16; 9] = [1, 2, 255, 256, 257, 511, 768, 998, LAST_CLIENT];

/// The first that are refused, ones that are right in their low byte or low ten bits, and ones that
/// only their high byte tells of.
pub const REFUSED: [u16; 10] = [1000, 1001, 1023, 1024, 1279, 2023, 4096, 32768, 33767, 65535];

/// Any but 0.
pub fn any(random: &mut Random) -> u16 {
    match random.below(6) {
        0 => LAST_CLIENT,
        1 => random.pick(&GOOD),
        _ => random.between(1, usize::from(LAST_CLIENT)) as u16,
    }
}

/// A client for that share of what is asked, 0 for the rest.
pub fn draw(random: &mut Random, share: usize) -> u16 {
    if random.chance(share) {
        any(random)
    } else {
        0
    }
}

/// Gives that share of the records that stand a client, 0 to the others; draws nothing for a share of 0.
pub fn give(random: &mut Random, share: usize, itinerary: &mut Itinerary) {
    for record in itinerary.records.iter_mut().filter(|record| record.kind != Kind::Gone) {
        record.client = if share == 0 { 0 } else { draw(random, share) };
    }
}

/// The same itinerary with other clients.
pub fn given(random: &mut Random, share: usize, itinerary: &Itinerary) -> Itinerary {
    let mut changed = itinerary.clone();
    give(random, share, &mut changed);
    changed
}
