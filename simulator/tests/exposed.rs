//! Exposed says of every input what the verdict says: the same refusals, and yes
//! exactly when the verdict is exposed.

use simulator::generate::damage::damage;
use simulator::generate::examples::{c, environment_suspect, in_parallel, nested};
use simulator::generate::policies::{bad, good, of, telling, usual};
use simulator::generate::relabel::Relabel;
use simulator::generate::tables::{above_made, any_bit, bad_length, forbidden_bit, full, noise};
use simulator::generate::trees::{tree, Mix};
use simulator::law::Law;
use simulator::random::Random;
use simulator::record::Itinerary;
use simulator::table::{least, Policy};

const EXPOSED: u32 = 1;

/// What exposed says of the made table.
fn of_made(itinerary: &Itinerary, policy: &Policy) -> bool {
    let table = least(Law::Document, &[itinerary], policy);
    let answer = simulator::exposed(&itinerary.bytes(), policy, &table.bytes);
    assert_eq!((answer.number, answer.record, answer.values[1..].iter().sum()), (0, 0, 0));
    answer.values[0] == 1
}

#[test]
fn a_high_label_in_row_0() {
    let all: Vec<u8> = (1..64).collect();
    for label in 1..64 {
        assert!(of_made(&in_parallel(&all), &of(&[label], &[])), "{label}");
    }
    assert!(!of_made(&in_parallel(&all), &of(&[], &[])));
}

#[test]
fn a_high_label_rows_away() {
    let all: Vec<u8> = (1..64).collect();
    let back: Vec<u8> = (1..64).rev().collect();
    for label in 1..64 {
        assert!(of_made(&nested(&all), &of(&[label], &[])), "{label}");
        assert!(of_made(&nested(&back), &of(&[label], &[])), "{label} in the other order");
    }
}

#[test]
fn a_high_label_behind_a_boundary() {
    let all: Vec<u8> = (1..64).collect();
    for boundary in 1..63 {
        assert!(!of_made(&nested(&all), &of(&[63], &[boundary])), "{boundary}");
        assert!(of_made(&nested(&all), &of(&[63, boundary], &[boundary + 1])), "{boundary}");
    }
}

#[test]
fn hinted_and_sealed_are_no() {
    assert!(!of_made(&c(), &usual()));
    assert!(!of_made(&environment_suspect(), &usual()));
    assert!(!of_made(&nested(&[1, 2]), &usual()));
    assert!(!of_made(&in_parallel(&[]), &usual()));
}

/// A table: the made one or one above it, some with a bit turned, full, noise, or malformed.
fn any_table(random: &mut Random, itinerary: &Itinerary, policy: &Policy) -> Vec<u8> {
    let mut table = match random.below(10) {
        0..=4 => least(Law::Document, &[itinerary], policy),
        5..=7 => above_made(random, &Relabel::none(), itinerary, policy),
        8 => full(),
        _ => noise(random),
    };
    match random.below(12) {
        0..=2 => {
            let bit = any_bit(random);
            table.bytes[bit / 8] ^= 1 << (bit % 8);
        }
        3 => table.set(forbidden_bit(random)),
        4 => return vec![0; bad_length(random)],
        _ => {}
    }
    table.bytes.to_vec()
}

#[test]
fn exposed_is_the_verdicts_being_exposed() {
    let random = &mut Random::new(11);
    let mut met = [0; 10];
    let mut verdicts = [0; 4];
    for _ in 0..3_000 {
        let mix = if random.chance(50) { Mix::lively(random) } else { Mix::small(random) };
        let itinerary = tree(random, &mix);
        let policy = if random.chance(50) { good(random) } else { telling(random, &itinerary) };
        let table = any_table(random, &itinerary, &policy);
        let mut bytes = itinerary.bytes();
        if random.chance(20) {
            let cause = random.between(1, 6);
            damage(random, &mut bytes, cause as u8);
        }
        let policy = if random.chance(5) { bad(random) } else { policy.to_vec() };
        let verdict = simulator::verdict(&bytes, &policy, &table);
        let exposed = simulator::exposed(&bytes, &policy, &table);
        assert_eq!((exposed.number, exposed.record), (verdict.number, verdict.record));
        let yes = verdict.number == 0 && verdict.values[0] == EXPOSED;
        assert_eq!(exposed.values, [u32::from(yes), 0, 0, 0, 0, 0]);
        met[verdict.number as usize] += 1;
        verdicts[verdict.values[0] as usize] += 1;
    }
    assert!(met.iter().all(|&times| times > 10), "{met:?}");
    assert!(verdicts[1..].iter().all(|&times| times > 100), "{verdicts:?}");
}
