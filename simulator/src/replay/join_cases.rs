//! Cases of the join: members that are good, and which of them is refused; too many records, and buffers of every wrong
//! length; tables that hold for some members; and causes together.

use super::stream::{Buffer, Call, MEMBERS};
use super::writer::Writer;
use super::Size;
use crate::generate::damage::damage;
use crate::generate::examples::{self, shared};
use crate::generate::policies;
use crate::generate::relabel::Relabel;
use crate::generate::sets::{alone, drawn, of_counts, Set, UNUSED};
use crate::generate::tables::{any_bit, bad_length, forbidden_bit, sparse};
use crate::generate::trees::{chain, Links, Mix};
use crate::law::Law;
use crate::random::Random;
use crate::record::{join, Itinerary, Kind, MOST_RECORDS, RECORD_LENGTH};
use crate::table::{close, least, Policy, Table};

pub const CALLS: [Call; 1] = [Call::Join];

pub fn write(writer: &mut Writer, random: &mut Random, size: Size) {
    by_hand(writer, random);
    for _ in 0..size.times(20) {
        one_set(writer, random);
    }
    for round in 0..size.times(48) {
        refused_member(writer, random, round);
    }
    clients(writer, random);
    copiers(writer, random);
    edges(writer, random);
    rooms(writer, random);
    too_many(writer, random);
    for round in 0..size.times(64) {
        in_order(writer, random, round);
    }
    if size == Size::Whole {
        full(writer, random);
    }
}

/// The members, policy, and the least table for what they are joined.
fn put(writer: &mut Writer, set: &Set, policy: &Policy) {
    put_members(writer, &set.each_ref().map(Itinerary::bytes));
    writer.put(Buffer::Policy, policy);
    writer.put(Buffer::Table, &least(Law::Document, &[&join(set)], policy).bytes);
}

fn put_members(writer: &mut Writer, members: &[Vec<u8>; 4]) {
    for (buffer, bytes) in MEMBERS.into_iter().zip(members) {
        writer.put(buffer, bytes);
    }
}

/// The length of the members together.
fn needed(writer: &Writer) -> usize {
    MEMBERS.map(|member| writer.get(member).len()).iter().sum()
}

/// Asks with a buffer of that many bytes, none of which is zero.
fn ask_with(writer: &mut Writer, random: &mut Random, room: usize) {
    writer.put(Buffer::Joined, &vec![random.byte().max(1); room]);
    writer.call(Call::Join, 0, 0);
}

/// Asks with a buffer that is right if the members are.
fn ask(writer: &mut Writer, random: &mut Random) {
    let room = needed(writer);
    ask_with(writer, random, room);
}

/// The examples together, in every place by themselves, and the same one four times.
fn by_hand(writer: &mut Writer, random: &mut Random) {
    let [a, b, d, e, ..] = examples::lettered();
    let (c, policy) = (examples::c(), policies::usual());
    for set in [
        [a.clone(), b.clone(), UNUSED, UNUSED],
        [b.clone(), a.clone(), UNUSED, UNUSED],
        [UNUSED, a.clone(), UNUSED, b.clone()],
        [b.clone(), b.clone(), b.clone(), b.clone()],
        [a, c.clone(), d, e],
        [UNUSED; 4],
    ] {
        put(writer, &set, &policy);
        ask(writer, random);
    }
    for itinerary in [b, c, shared(), examples::runs(&[(Kind::Gone, 3)])] {
        for place in 0..4 {
            put(writer, &alone(&itinerary, place), &policy);
            ask(writer, random);
        }
    }
}

/// The made table with bits turned, tables above it, ones made for the other three members, and another policy.
fn one_set(writer: &mut Writer, random: &mut Random) {
    let relabel = Relabel::draw(random);
    let mix = if random.chance(50) { Mix::small } else { Mix::lively };
    let set = drawn(random, mix);
    let policy = relabel.policy(&policies::telling(random, &join(&set)));
    let set = set.map(|member| relabel.itinerary(&member));
    put(writer, &set, &policy);
    ask(writer, random);
    let bits = Table::read(writer.get(Buffer::Table)).map_or(Vec::new(), |table| table.bits());
    for _ in 0..3 {
        let any = relabel.bit(any_bit(random));
        let bit = if random.chance(70) { random.choose(&bits).unwrap_or(any) } else { any };
        writer.flip(bit);
        ask(writer, random);
        writer.flip(bit);
    }
    for place in 0..4 {
        let others: Vec<&Itinerary> =
            (0..4).filter(|&other| other != place).map(|other| &set[other]).collect();
        writer.put(Buffer::Table, &least(Law::Document, &others, &policy).bytes);
        ask(writer, random);
    }
    let more = sparse(random, &relabel, 4);
    writer.put(Buffer::Table, &close(Law::Document, &[&join(&set)], &policy, &more).bytes);
    ask(writer, random);
    let mut other = policy;
    other[random.between(1, 63)] = random.below(3) as u8;
    writer.put(Buffer::Policy, &other);
    ask(writer, random);
}

/// A set of four with many records that can act, its policy and table.
fn lively(writer: &mut Writer, random: &mut Random) -> [Vec<u8>; 4] {
    let mix = Mix { gone: 10, ..Mix::lively(random) };
    let counts = [0; 4].map(|_| random.between(3, 9));
    let set = of_counts(random, counts, &mix);
    let policy = policies::good(random);
    put(writer, &set, &policy);
    set.map(|member| member.bytes())
}

/// Each cause in each member, first by itself and then with others behind it.
fn refused_member(writer: &mut Writer, random: &mut Random, round: usize) {
    let mut members = lively(writer, random);
    let (place, cause) = (round % 4, 1 + round / 4 % 6);
    damage(random, &mut members[place], cause as u8);
    if round >= 24 {
        for _ in 0..2 {
            let (other, cause) = (random.below(4), random.between(1, 6));
            damage(random, &mut members[other], cause as u8);
        }
        spoil(writer, random, round % 2 == 0, round % 3 > 0, false);
    }
    put_members(writer, &members);
    let room = needed(writer) / RECORD_LENGTH * RECORD_LENGTH;
    ask_with(writer, random, if round % 4 == 3 { room + RECORD_LENGTH } else { room });
}

/// A policy or a table that is refused, or a table that lacks a bit.
fn spoil(writer: &mut Writer, random: &mut Random, policy: bool, table: bool, lacks: bool) {
    if policy {
        writer.put(Buffer::Policy, &policies::bad(random));
    }
    if lacks {
        // What has to stand somewhere, whatever the policy and the rules.
        let bits = Table::read(writer.get(Buffer::Table)).map_or(Vec::new(), |table| table.bits());
        if let Some(&bit) = bits.first() {
            writer.flip(bit);
        }
    }
    match (table, random.chance(50)) {
        (true, true) if !lacks => {
            let length = bad_length(random);
            writer.put(Buffer::Table, &vec![0; length]);
        }
        (true, _) => writer.flip(forbidden_bit(random)),
        _ => {}
    }
}

/// Clients that are refused, and good ones, in each member behind others that have clients too.
fn clients(writer: &mut Writer, random: &mut Random) {
    let set = [0; 4].map(|_| shared());
    put(writer, &set, &policies::usual());
    ask(writer, random);
    let changes: [&[(usize, u8)]; 6] = [
        &[(14, 0xe8), (15, 3)],
        &[(22, 0), (23, 4)],
        &[(9, 0), (14, 0xe8), (15, 3)],
        &[(10, 64), (14, 0xff), (15, 0xff)],
        // The fifth record is gone.
        &[(38, 17)],
        &[(79, 3)],
    ];
    for place in 0..4 {
        for change in changes {
            let mut members = set.each_ref().map(Itinerary::bytes);
            change.iter().for_each(|&(at, byte)| members[place][at] = byte);
            put_members(writer, &members);
            ask(writer, random);
        }
    }
}

/// Copiers in each member, good and refused.
fn copiers(writer: &mut Writer, random: &mut Random) {
    let set = [examples::recurring(), examples::copiers(), examples::wash(), examples::recurring()];
    put(writer, &set, &policies::usual());
    ask(writer, random);
    // The first copier of each member is record 2, 6, 4 and 2.
    let changes: [&[(usize, u8)]; 6] =
        [&[(0, 6)], &[(1, 1)], &[(1, 64), (2, 1)], &[(2, 1)], &[(0, 4)], &[(4, 99)]];
    for (place, number) in [2, 6, 4, 2].into_iter().enumerate() {
        for change in changes {
            let mut members = set.each_ref().map(Itinerary::bytes);
            change.iter().for_each(|&(at, byte)| members[place][8 * number - 8 + at] = byte);
            put_members(writer, &members);
            ask(writer, random);
        }
    }
}

/// Parents that are records of another member only, lengths that are whole only together, and a member of 1,025 records.
fn edges(writer: &mut Writer, random: &mut Random) {
    let [a, b, ..] = examples::lettered().map(|itinerary| itinerary.bytes());
    for (place, parent) in [(0, 3), (0, 5), (1, 4), (1, 5), (2, 4), (3, 5), (3, 11)] {
        let mut members = [&b; 4].map(Vec::clone);
        members[place][12] = parent;
        put_members(writer, &members);
        ask(writer, random);
    }
    // Two records that would be a ring if numbers were those of the set.
    put_members(
        writer,
        &[[1, 1, 0, 0, 2, 0, 0, 0].to_vec(), vec![], [1, 1, 0, 0, 1, 0, 0, 0].to_vec(), vec![]],
    );
    ask(writer, random);
    for (first, second) in [(12, 4), (7, 1), (15, 9)] {
        for place in 0..3 {
            let mut members = [vec![], vec![], vec![], a.clone()];
            members[place] = a[..first].to_vec();
            members[place + 1] = a.iter().chain(&a).copied().take(second).collect();
            put_members(writer, &members);
            ask(writer, random);
        }
    }
    for place in 0..4 {
        let mut members = [vec![], a.clone(), vec![], vec![]];
        members[place] = vec![0; 8200];
        put_members(writer, &members);
        ask(writer, random);
        ask_with(writer, random, 8192);
    }
}

/// Every wrong length near the right one, and some far from it; few records, none, and 1,024, of which most are gone.
fn rooms(writer: &mut Writer, random: &mut Random) {
    let [a, b, d, ..] = examples::lettered();
    let gone = examples::runs(&[(Kind::Gone, MOST_RECORDS - 5)]);
    let policy = policies::usual();
    for set in [[a.clone(), UNUSED, b.clone(), d], [UNUSED; 4], [b, gone, UNUSED, a]] {
        put(writer, &set, &policy);
        let right = needed(writer);
        ask(writer, random);
        for less in [1, 2, 7, 8, 9, 16, right / 2, right] {
            if let Some(room) = right.checked_sub(less).filter(|&room| room != right) {
                ask_with(writer, random, room);
            }
        }
        for more in [1, 7, 8, 9, 16, 64, right + 24] {
            ask_with(writer, random, right + more);
        }
    }
}

/// 1,025 records together and more, with buffers of their length, of 8,192 bytes, and of a member's.
fn too_many(writer: &mut Writer, random: &mut Random) {
    let [a, ..] = examples::lettered();
    put(writer, &alone(&a, 0), &policies::usual());
    for counts in [
        [1024, 1, 0, 0],
        [1, 0, 0, 1024],
        [0, 512, 513, 0],
        [256, 256, 256, 257],
        [1024, 0, 1024, 0],
        [1024, 1024, 1024, 1024],
    ] {
        put_members(writer, &counts.map(|count| vec![0; count * RECORD_LENGTH]));
        let right = needed(writer);
        for room in [right, MOST_RECORDS * RECORD_LENGTH, right - RECORD_LENGTH, counts[1] * RECORD_LENGTH] {
            ask_with(writer, random, room);
        }
    }
    // The last that there may be.
    for counts in [[1024, 0, 0, 0], [0, 1, 1023, 0], [256; 4]] {
        put_members(writer, &counts.map(|count: usize| vec![0; count * RECORD_LENGTH]));
        ask(writer, random);
        let room = needed(writer) + RECORD_LENGTH;
        ask_with(writer, random, room);
    }
}

/// All of 1 to 6, 16, 7, 8 and 9 with each other: the first of them is answered.
fn in_order(writer: &mut Writer, random: &mut Random, round: usize) {
    let mut members = lively(writer, random);
    let [member, set, policy, table, lacks] = [1, 2, 4, 8, 16].map(|bit| round & bit != 0);
    spoil(writer, random, policy, table, lacks);
    if member {
        let (place, cause) = (random.below(4), if round % 8 == 7 { 6 } else { random.between(2, 6) });
        damage(random, &mut members[place], cause as u8);
    }
    let many = set && round & 32 != 0;
    if many {
        members[random.below(4)] = vec![0; MOST_RECORDS * RECORD_LENGTH];
    }
    put_members(writer, &members);
    let right = needed(writer);
    let room = match (set, many) {
        (true, false) => random.pick(&[right - 1, right + 1, right - 8, right + 8, 0]),
        (_, true) => random.pick(&[right, right, MOST_RECORDS * RECORD_LENGTH]),
        _ => right,
    };
    ask_with(writer, random, room);
}

/// 1,024 records together, or one less: trees, and chains in both orders; each with its table, and with a bit turned.
fn full(writer: &mut Writer, random: &mut Random) {
    let few = Mix { labels: 20, orders: 6, names: 10, capabilities: 30, clients: 70, ..Mix::full(random) };
    let mut sets: Vec<Set> = [[256; 4], [1, 1023, 0, 0], [300, 1, 423, 300]]
        .map(|counts| of_counts(random, counts, &few))
        .to_vec();
    sets.push([
        chain(255, Links::Turns, true),
        chain(257, Links::Ambients, true),
        chain(256, Links::Turns, false),
        chain(255, Links::Capabilities, true),
    ]);
    for set in sets {
        put(writer, &set, &policies::telling(random, &join(&set)));
        ask(writer, random);
        let bits = Table::read(writer.get(Buffer::Table)).map_or(Vec::new(), |table| table.bits());
        writer.flip(random.choose(&bits).unwrap_or(0));
        ask(writer, random);
    }
}
