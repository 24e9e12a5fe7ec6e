//! The climb: the container, and the nearest boundary ambient above.

use simulator::generate::damage::damage;
use simulator::generate::examples::{between, nested};
use simulator::generate::policies::{bad, good, of, usual};
use simulator::generate::trees::{tree, Mix};
use simulator::law::Law;
use simulator::random::Random;
use simulator::record::{Itinerary, Kind, Record};

/// Container and boundary of a record, in an itinerary and a policy that pass.
fn climb(itinerary: &Itinerary, policy: &[u8], number: u16) -> (u32, u32) {
    let answer = simulator::climb(&itinerary.bytes(), policy, number);
    assert_eq!((answer.number, answer.record, answer.values[2..].iter().sum()), (0, 0, 0));
    (answer.values[0], answer.values[1])
}

/// Those of all records, in their order.
fn climbs(itinerary: &Itinerary, policy: &[u8]) -> Vec<(u32, u32)> {
    itinerary.numbers().map(|number| climb(itinerary, policy, number)).collect()
}

#[test]
fn the_nearest_boundary() {
    assert_eq!(climbs(&nested(&[1, 2, 3]), &usual()), [(0, 0), (1, 1), (2, 1)]);
    assert_eq!(climbs(&nested(&[1, 3, 1, 3]), &usual()), [(0, 0), (1, 1), (3, 1), (1, 3)]);
}

#[test]
fn the_record_itself_does_not_count() {
    assert_eq!(climbs(&nested(&[1]), &usual()), [(0, 0)]);
    assert_eq!(climbs(&nested(&[3, 1]), &usual()), [(0, 0), (3, 0)]);
    assert_eq!(climbs(&nested(&[1, 1, 1]), &usual()), [(0, 0), (1, 1), (1, 2)]);
}

#[test]
fn high_and_low_are_no_boundaries() {
    assert_eq!(climbs(&nested(&[2, 3, 4]), &usual()), [(0, 0), (2, 0), (3, 0)]);
    let high: Vec<u8> = (1..64).collect();
    assert_eq!(climbs(&nested(&[1, 2]), &of(&high, &[])), [(0, 0), (1, 0)]);
}

#[test]
fn capabilities_are_passed() {
    let wanted = [(0, 0), (1, 1), (1, 1), (1, 1), (2, 1), (2, 1), (3, 1), (3, 1)];
    assert_eq!(climbs(&between(), &usual()), wanted);
    let wanted = [(0, 0), (1, 0), (1, 0), (1, 0), (2, 4), (2, 4), (3, 6), (3, 6)];
    assert_eq!(climbs(&between(), &of(&[1], &[2, 3])), wanted);
}

#[test]
fn numbers_without_a_record_give_two_zeros() {
    let mut itinerary = nested(&[1, 2]);
    itinerary.records.push(Record::GONE);
    for number in [0, 3, 4, 1025, 65535] {
        assert_eq!(climb(&itinerary, &usual(), number), (0, 0), "{number}");
    }
}

#[test]
fn validation_comes_before_the_policy() {
    let random = &mut Random::new(12);
    let mut met = [0; 8];
    for _ in 0..2_000 {
        let mix = Mix::small(random);
        let mut bytes = tree(random, &mix).bytes();
        if random.chance(50) {
            let cause = random.between(1, 6);
            damage(random, &mut bytes, cause as u8);
        }
        let refused = random.chance(50);
        let policy = if refused { bad(random) } else { good(random).to_vec() };
        let validated = simulator::validate(&bytes);
        let answer = simulator::climb(&bytes, &policy, random.below(14) as u16);
        let wanted = match (validated.number, refused) {
            (0, true) => (7, 0),
            (number, _) => (number, validated.record),
        };
        assert_eq!((answer.number, answer.record), wanted);
        assert!(answer.number == 0 || answer.values == [0; 6]);
        met[answer.number as usize] += 1;
    }
    assert!(met.iter().all(|&times| times > 10), "{met:?}");
}

/// The boundary is the parent where that is one, and else the parent's boundary.
#[test]
fn nothing_nearer_is_a_boundary() {
    let random = &mut Random::new(13);
    let mut found = 0;
    for _ in 0..500 {
        let mix = Mix { top: 5, ..Mix::small(random) };
        let itinerary = tree(random, &mix);
        let policy = good(random);
        for number in itinerary.numbers() {
            let (container, boundary) = climb(&itinerary, &policy, number);
            assert_eq!(container, u32::from(itinerary.container(Law::Document, number)));
            let parent = itinerary.records[number as usize - 1].parent;
            let above = itinerary.get(parent).copied().unwrap_or(Record::GONE);
            let is_boundary = above.kind == Kind::Ambient && policy[above.label as usize] == 2;
            let wanted = if is_boundary { parent.into() } else { climb(&itinerary, &policy, parent).1 };
            assert_eq!(boundary, wanted);
            found += usize::from(boundary != 0);
        }
    }
    assert!(found > 300, "{found}");
}
