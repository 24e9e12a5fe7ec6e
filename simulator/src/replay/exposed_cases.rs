//! Cases of exposed. They stand behind those of the older calls on a table, which
//! so stay as they were stored.

use super::stream::{Buffer, Call};
use super::writer::Writer;
use super::Size;
use crate::generate::damage::damage;
use crate::generate::examples;
use crate::generate::policies;
use crate::generate::relabel::Relabel;
use crate::generate::tables::{above_made, any_bit, bad_length, forbidden_bit, full, noise};
use crate::generate::trees::{tree, Mix};
use crate::law::Law;
use crate::random::Random;
use crate::record::Itinerary;
use crate::table::{least, Policy, Table};

pub fn write(writer: &mut Writer, random: &mut Random, size: Size) {
    by_hand(writer);
    for _ in 0..size.times(60) {
        chain(writer, random);
    }
    for round in 0..size.times(180) {
        let (itinerary, policy) = policies::with_verdict(random, 1 + round as u16 % 3);
        drawn(writer, random, &itinerary, &policy);
    }
    for round in 0..size.times(180) {
        refused(writer, random, round);
    }
    for _ in 0..size.large_times(4) {
        dense_tables(writer, random);
    }
    for _ in 0..size.large_times(3) {
        let mix = Mix { labels: 63, orders: 6, names: 4, capabilities: 20, ..Mix::full(random) };
        let itinerary = tree(random, &mix);
        put(writer, &itinerary, &policies::telling(random, &itinerary));
        ask(writer);
    }
}

/// Itinerary, policy, and the table made for both.
fn put(writer: &mut Writer, itinerary: &Itinerary, policy: &Policy) {
    writer.put(Buffer::Itinerary, &itinerary.bytes());
    writer.put(Buffer::Policy, policy);
    writer.put(Buffer::Table, &least(Law::Document, &[itinerary], policy).bytes);
}

fn ask(writer: &mut Writer) {
    writer.call(Call::Exposed, 0, 0);
}

/// In row 0, rows away, behind a boundary, and with no high label at all.
fn by_hand(writer: &mut Writer) {
    let upward: Vec<u8> = (1..64).collect();
    let downward: Vec<u8> = (1..64).rev().collect();
    let cases: [(Itinerary, &[u8], &[u8]); 18] = [
        (examples::in_parallel(&upward), &[1], &[]),
        (examples::in_parallel(&upward), &[63], &[]),
        (examples::in_parallel(&downward), &[32], &[1, 2, 3]),
        (examples::in_parallel(&upward), &[], &[]),
        (examples::nested(&[1, 2, 3, 4, 5]), &[5], &[]),
        (examples::nested(&[5, 4, 3, 2, 1]), &[1], &[]),
        (examples::nested(&upward), &[63], &[]),
        (examples::nested(&downward), &[1], &[]),
        (examples::nested(&upward), &[63], &[62]),
        (examples::nested(&downward), &[1], &[63]),
        (examples::nested(&[1, 2, 3, 4, 5]), &[5], &[3]),
        (examples::nested(&[1, 2, 3, 4, 5]), &[5, 2], &[3]),
        (examples::nested(&[1, 2, 3, 2, 4]), &[4], &[3]),
        (examples::nested(&[1, 2]), &[2], &[1]),
        (examples::environment_suspect(), &[2], &[1]),
        (examples::c(), &[2], &[1]),
        (examples::in_parallel(&[]), &[2], &[1]),
        (examples::nested(&[7]), &upward, &[]),
    ];
    for (itinerary, high, boundaries) in cases {
        put(writer, &itinerary, &policies::of(high, boundaries));
        ask(writer);
    }
}

/// One ambient in the other and a high label at the end, first with no boundary on
/// the way, then with one, then with a way past it.
fn chain(writer: &mut Writer, random: &mut Random) {
    let mut labels: Vec<u8> = (1..64).collect();
    random.shuffle(&mut labels);
    let length = if random.chance(10) { 63 } else { random.between(2, 12) };
    labels.truncate(length);
    let itinerary = examples::nested(&labels);
    let high = labels[length - 1];
    put(writer, &itinerary, &policies::of(&[high], &[]));
    ask(writer);
    let boundary = random.below(length - 1);
    put(writer, &itinerary, &policies::of(&[high], &[labels[boundary]]));
    ask(writer);
    let mut around = itinerary;
    let mut more = around.records[boundary + 1];
    more.parent = random.below(boundary + 1) as u16;
    around.records.push(more);
    put(writer, &around, &policies::of(&[high], &[labels[boundary]]));
    ask(writer);
}

/// The made table, tables above it, ones with a bit turned, and another policy.
fn drawn(writer: &mut Writer, random: &mut Random, itinerary: &Itinerary, policy: &Policy) {
    let relabel = Relabel::draw(random);
    let (itinerary, policy) = (relabel.itinerary(itinerary), relabel.policy(policy));
    put(writer, &itinerary, &policy);
    ask(writer);
    let bits = Table::read(writer.get(Buffer::Table)).map_or(Vec::new(), |table| table.bits());
    for _ in 0..3 {
        let bit = match random.chance(50) {
            true => relabel.bit(any_bit(random)),
            false => random.choose(&bits).unwrap_or(forbidden_bit(random)),
        };
        writer.flip(bit);
        ask(writer);
        writer.flip(bit);
    }
    let above = above_made(random, &relabel, &itinerary, &policy);
    writer.put(Buffer::Table, &above.bytes);
    ask(writer);
    let mut other = policy;
    other[random.between(1, 63)] = random.below(3) as u8;
    put(writer, &itinerary, &other);
    ask(writer);
}

/// Causes 1 to 9, each alone and then with some of those behind it.
fn refused(writer: &mut Writer, random: &mut Random, round: usize) {
    let cause = 1 + round % 9;
    let more = |random: &mut Random| round >= 90 && random.chance(50);
    let mix = Mix { records: random.between(2, 8), ..Mix::lively(random) };
    let itinerary = tree(random, &mix);
    let policy = policies::good(random);
    put(writer, &itinerary, &policy);
    let mut bytes = itinerary.bytes();
    if cause <= 6 {
        damage(random, &mut bytes, cause as u8);
    }
    writer.put(Buffer::Itinerary, &bytes);
    if cause == 7 || cause < 7 && more(random) {
        writer.put(Buffer::Policy, &policies::bad(random));
    }
    if cause == 9 || cause < 9 && more(random) {
        lose_a_bit(writer, random);
    }
    if cause == 8 || cause < 8 && more(random) {
        spoil_table(writer, random);
    }
    ask(writer);
}

/// A bit less than the least table has, if it has one.
fn lose_a_bit(writer: &mut Writer, random: &mut Random) {
    let bits = Table::read(writer.get(Buffer::Table)).map_or(Vec::new(), |table| table.bits());
    if let Some(bit) = random.choose(&bits) {
        writer.flip(bit);
    }
}

fn spoil_table(writer: &mut Writer, random: &mut Random) {
    if random.chance(50) {
        let length = bad_length(random);
        writer.put(Buffer::Table, &vec![0; length]);
    } else {
        writer.flip(forbidden_bit(random));
    }
}

/// Each bit set, which holds for everything, and noise.
fn dense_tables(writer: &mut Writer, random: &mut Random) {
    for table in [full(), noise(random)] {
        writer.put(Buffer::Table, &table.bytes);
        for policy in [policies::good(random), policies::of(&[63], &[]), policies::of(&[], &[5])] {
            writer.put(Buffer::Policy, &policy);
            for itinerary in [examples::in_parallel(&[]), examples::nested(&[3, 2, 1])] {
                writer.put(Buffer::Itinerary, &itinerary.bytes());
                ask(writer);
            }
        }
    }
}
