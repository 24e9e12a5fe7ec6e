//! More cases of the climb: what stands above, numbers without a record, refusals.
//! They stand behind those of the other calls on an itinerary, which draw the same
//! with and without them.

use super::stream::{Buffer, Call};
use super::writer::Writer;
use super::Size;
use crate::generate::damage::damage;
use crate::generate::examples::{between, copiers, nested, recurring};
use crate::generate::policies;
use crate::generate::relabel::Relabel;
use crate::generate::trees::{chain, tree, turned_round, Links, Mix};
use crate::random::Random;
use crate::record::{Itinerary, Kind, Record, MOST_RECORDS};
use crate::table::{Policy, POLICY_LENGTH};

pub fn write(writer: &mut Writer, random: &mut Random, size: Size) {
    by_hand(writer);
    for _ in 0..size.times(120) {
        let mix = Mix { top: 5, ..Mix::small(random) };
        drawn(writer, random, &mix);
    }
    for _ in 0..size.times(10) {
        let mix = Mix { top: 3, ..Mix::medium(random) };
        drawn(writer, random, &mix);
    }
    for round in 0..size.times(210) {
        refused(writer, random, round);
    }
    policies_refused(writer);
    full(writer, random, size);
}

fn put(writer: &mut Writer, itinerary: &Itinerary, policy: &[u8]) {
    writer.put(Buffer::Itinerary, &itinerary.bytes());
    writer.put(Buffer::Policy, policy);
}

/// From every number up to two over the count, and from far ones.
fn from_all(writer: &mut Writer) {
    let count = (writer.get(Buffer::Itinerary).len() / 8) as u16;
    for number in (0..=count + 2).chain([1024, 1025, 32769, 65535]) {
        writer.call(Call::Climb, number, 0);
    }
}

/// Boundaries right above, farther up, several, none, and the record itself; with
/// capabilities and copiers between, high and low labels, and a gone record.
fn by_hand(writer: &mut Writer) {
    let upward: Vec<u8> = (1..64).collect();
    let cases: [(Itinerary, Policy); 19] = [
        (nested(&[1, 2]), policies::usual()),
        (nested(&[2, 1]), policies::usual()),
        (nested(&[1, 3, 4, 5]), policies::usual()),
        (nested(&[1, 3, 1, 4, 5]), policies::usual()),
        (nested(&[1, 1, 1]), policies::usual()),
        (nested(&[3, 4, 5, 1]), policies::usual()),
        (nested(&[1, 2, 2, 3]), policies::usual()),
        (nested(&[3, 2, 2, 3]), policies::usual()),
        (nested(&[1, 2, 3]), policies::of(&[1, 2, 3], &[])),
        (nested(&[1, 2, 3]), policies::of(&[], &[])),
        (nested(&upward), policies::of(&[], &[63])),
        (nested(&upward), policies::of(&upward, &[1])),
        (nested(&upward), policies::of(&[], &upward)),
        (between(), policies::usual()),
        (between(), policies::of(&[1], &[2, 3])),
        (recurring(), policies::usual()),
        (recurring(), policies::of(&[1], &[2, 3])),
        (copiers(), policies::usual()),
        (copiers(), policies::of(&[], &[2, 3])),
    ];
    for (itinerary, policy) in cases {
        put(writer, &itinerary, &policy);
        from_all(writer);
        let mut reversed = turned_round(&itinerary);
        reversed.records.insert(0, Record::GONE);
        reversed.records.iter_mut().filter(|record| record.parent != 0).for_each(|record| record.parent += 1);
        put(writer, &reversed, &policy);
        from_all(writer);
    }
}

/// A random tree under three policies, the last of which has many boundaries.
fn drawn(writer: &mut Writer, random: &mut Random, mix: &Mix) {
    let relabel = Relabel::draw(random);
    let itinerary = relabel.itinerary(&tree(random, mix));
    let mut many = policies::of(&[], &[]);
    for class in many[1..].iter_mut() {
        *class = random.pick(&[0, 1, 2, 2]);
    }
    for policy in [policies::good(random), policies::telling(random, &itinerary), many] {
        put(writer, &itinerary, &relabel.policy(&policy));
        from_all(writer);
    }
}

/// Causes 1 to 7, each alone, then with others behind it.
fn refused(writer: &mut Writer, random: &mut Random, round: usize) {
    let cause = 1 + round % 7;
    let mix = Mix { records: random.between(2, 8), ..Mix::lively(random) };
    let itinerary = tree(random, &mix);
    let mut bytes = itinerary.bytes();
    if cause < 7 {
        damage(random, &mut bytes, cause as u8);
    }
    let with_policy = cause == 7 || round % 2 == 1;
    let policy = if with_policy { policies::bad(random) } else { policies::good(random).to_vec() };
    writer.put(Buffer::Itinerary, &bytes);
    writer.put(Buffer::Policy, &policy);
    let over = bytes.len() / 8 + 1;
    for number in [0, random.between(1, over), over] {
        writer.call(Call::Climb, number as u16, 0);
    }
}

/// Every length around that of a policy, every label with a class too high, and each
/// class that the environment may not have.
fn policies_refused(writer: &mut Writer) {
    writer.put(Buffer::Itinerary, &nested(&[1, 2]).bytes());
    let usual = policies::usual();
    for length in [0, 1, 2, 8, 32, 62, 63, 65, 66, 72, 79, 80] {
        let mut policy = usual.to_vec();
        policy.resize(length, 0);
        refused_policy(writer, &policy);
    }
    for label in 0..POLICY_LENGTH {
        let mut policy = usual;
        policy[label] = [3, 4, 130, 255][label % 4];
        refused_policy(writer, &policy);
    }
    for class in [1, 2, 3, 255] {
        let mut policy = usual;
        policy[0] = class;
        refused_policy(writer, &policy);
    }
}

fn refused_policy(writer: &mut Writer, policy: &[u8]) {
    writer.put(Buffer::Policy, policy);
    for number in [0, 2] {
        writer.call(Call::Climb, number, 0);
    }
}

/// Itineraries of 1,024 records: chains with one boundary far away or none, and trees.
fn full(writer: &mut Writer, random: &mut Random, size: Size) {
    for reversed in [false, true] {
        for links in
            [Links::Ambients, Links::Capabilities, Links::Turns].into_iter().take(size.large_times(3))
        {
            let mut itinerary = chain(MOST_RECORDS, links, reversed);
            let top = if reversed { MOST_RECORDS - 1 } else { 0 };
            itinerary.records[top] = Record { kind: Kind::Ambient, label: 63, name: 0, parent: 0, client: 0 };
            for policy in [policies::of(&[], &[63]), policies::of(&[63], &[])] {
                put(writer, &itinerary, &policy);
                from_some(writer);
            }
        }
    }
    for _ in 0..size.large_times(6) {
        let mix = Mix { labels: 63, top: 2, ..Mix::full(random) };
        let itinerary = tree(random, &mix);
        put(writer, &itinerary, &policies::telling(random, &itinerary));
        for _ in 0..40 {
            let number = random.between(1, MOST_RECORDS);
            writer.call(Call::Climb, number as u16, 0);
        }
    }
}

fn from_some(writer: &mut Writer) {
    for number in [0, 1, 2, 3, 511, 512, 513, 1022, 1023, 1024, 1025, 65535] {
        writer.call(Call::Climb, number, 0);
    }
}
