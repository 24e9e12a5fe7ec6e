//! Policies, good and refused.

use super::trees::{tree, Mix};
use crate::law::Law;
use crate::random::Random;
use crate::record::{Itinerary, Kind};
use crate::table::{least, verdict, Policy, BOUNDARY, HIGH, LOW, POLICY_LENGTH};

/// These labels high, these boundaries, the others low.
pub fn of(high: &[u8], boundaries: &[u8]) -> Policy {
    let mut policy = [LOW; POLICY_LENGTH];
    high.iter().for_each(|&label| policy[label as usize] = HIGH);
    boundaries.iter().for_each(|&label| policy[label as usize] = BOUNDARY);
    policy
}

/// Label 1 boundary, 2 high, others low: the examples' policy.
pub fn usual() -> Policy {
    of(&[2], &[1])
}

/// Low, high and boundary in turn.
pub fn by_turns() -> Policy {
    std::array::from_fn(|label| label as u8 % 3)
}

/// The usual one, one that differs from it in a few labels, or any.
pub fn good(random: &mut Random) -> Policy {
    let mut policy = usual();
    match random.below(4) {
        0 => {}
        1 => {
            for class in policy[3..8].iter_mut() {
                *class = random.pick(&[LOW, LOW, LOW, HIGH, BOUNDARY]);
            }
        }
        2 => {
            for class in policy[1..8].iter_mut() {
                *class = random.pick(&[LOW, LOW, HIGH, BOUNDARY]);
            }
        }
        _ => {
            for class in policy[1..].iter_mut() {
                *class = random.pick(&[LOW, LOW, LOW, LOW, HIGH, BOUNDARY]);
            }
        }
    }
    policy
}

/// A policy in which some ambients of the environment are boundaries, so that the
/// verdict is not exposed too easily.
pub fn telling(random: &mut Random, itinerary: &Itinerary) -> Policy {
    let mut policy = good(random);
    for record in &itinerary.records {
        if record.kind == Kind::Ambient && record.parent == 0 && random.chance(50) {
            policy[record.label as usize] = BOUNDARY;
        }
    }
    policy
}

/// A small itinerary and a policy, with the verdict of that code for the made
/// table if a few tries find one.
pub fn with_verdict(random: &mut Random, code: u16) -> (Itinerary, Policy) {
    let mut tries = 40;
    loop {
        let mix = if random.chance(50) { Mix::lively(random) } else { Mix::small(random) };
        let itinerary = tree(random, &mix);
        let policy = telling(random, &itinerary);
        let table = least(Law::Document, &[&itinerary], &policy);
        tries -= 1;
        if tries == 0 || verdict(&policy, &table).numbers().0 == code {
            return (itinerary, policy);
        }
    }
}

/// A policy that is refused: its length, a class over 2, or the environment's class.
pub fn bad(random: &mut Random) -> Vec<u8> {
    let mut policy = good(random).to_vec();
    match random.below(3) {
        0 => policy.resize(random.pick(&[0, 1, 63, 65, 72, 80]), 0),
        1 => policy[random.below(POLICY_LENGTH)] = random.pick(&[3, 4, 128, 255]),
        _ => policy[0] = random.pick(&[1, 2]),
    }
    policy
}
