//! Cases of check, maker, verdict and row, and behind them those of exposed and of clients.

use super::client_cases;
use super::copier_cases;
use super::exposed_cases;
use super::stream::{Buffer, Call};
use super::writer::Writer;
use super::Size;
use crate::generate::damage::damage;
use crate::generate::examples;
use crate::generate::policies;
use crate::generate::relabel::Relabel;
use crate::generate::tables::{above_made, any_bit, bad_length, forbidden_bit, full, noise, sparse};
use crate::generate::trees::{chain, tree, Links, Mix};
use crate::law::Law;
use crate::random::Random;
use crate::record::{Itinerary, MOST_RECORDS};
use crate::table::{least, s_bit, Policy, Table};

pub const CALLS: [Call; 5] = [Call::Check, Call::Maker, Call::Verdict, Call::Row, Call::Exposed];

pub fn write(writer: &mut Writer, random: &mut Random, size: Size) {
    rows(writer, random);
    environment_suspect(writer);
    for round in 0..size.times(640) {
        let (itinerary, policy) = policies::with_verdict(random, 1 + round as u16 % 3);
        let mix = Mix::small(random);
        let more = tree(random, &mix);
        one_itinerary(writer, random, &itinerary, &policy, &more);
    }
    for _ in 0..size.times(40) {
        let mix = Mix::medium(random);
        let itinerary = tree(random, &mix);
        let policy = policies::telling(random, &itinerary);
        let more = tree(random, &mix);
        one_itinerary(writer, random, &itinerary, &policy, &more);
    }
    for round in 0..size.times(320) {
        refused_inputs(writer, random, round);
    }
    for _ in 0..size.large_times(10) {
        dense_tables(writer, random);
    }
    large(writer, random, size);
    exposed_cases::write(writer, random, size);
    client_cases::write(writer, random, size, &CALLS);
    copier_cases::write(writer, random, size, &CALLS);
}

fn rows(writer: &mut Writer, random: &mut Random) {
    let mut lengths = vec![1544, 0, 1, 16, 1024, 1543, 1545, 1560];
    random.shuffle(&mut lengths);
    for length in lengths {
        writer.put(Buffer::Table, &vec![0; length]);
        for label in [0, 1, 2, 31, 62, 63, 64, 65, 127, 255, 256, 319, 65535] {
            writer.call(Call::Row, label, 0);
        }
    }
}

fn environment_suspect(writer: &mut Writer) {
    writer.put(Buffer::Table, &Table::empty().bytes);
    put(writer, &examples::environment_suspect(), &policies::usual());
    for call in [Call::Check, Call::Maker, Call::Check, Call::Verdict] {
        writer.call(call, 0, 0);
    }
}

fn put(writer: &mut Writer, itinerary: &Itinerary, policy: &Policy) {
    writer.put(Buffer::Itinerary, &itinerary.bytes());
    writer.put(Buffer::Policy, policy);
}

/// Maker, check and verdict about one itinerary, with tables of every sort; `more`
/// is another one that shares some of them.
fn one_itinerary(
    writer: &mut Writer,
    random: &mut Random,
    itinerary: &Itinerary,
    policy: &Policy,
    more: &Itinerary,
) {
    let relabel = Relabel::draw(random);
    let (itinerary, policy) = (relabel.itinerary(itinerary), relabel.policy(policy));
    put(writer, &itinerary, &policy);
    if writer.get(Buffer::Table).len() != 1544 || random.chance(10) {
        let bits = random.below(9);
        let mut garbage = sparse(random, &relabel, bits);
        // The maker looks at the length only, so forbidden bits are fine before it.
        garbage.set(forbidden_bit(random));
        writer.put(Buffer::Table, &garbage.bytes);
    }
    writer.call(Call::Maker, 0, 0);
    writer.call(Call::Check, 0, 0);
    writer.call(Call::Verdict, 0, 0);
    writer.call(Call::Row, random.below(66) as u16, 0);
    flipped(writer, random, &relabel, 12);
    hinted_0(writer);
    let both = least(Law::Document, &[&itinerary, &relabel.itinerary(more)], &policy);
    for table in [above_made(random, &relabel, &itinerary, &policy), both] {
        writer.put(Buffer::Table, &table.bytes);
        writer.call(Call::Check, 0, 0);
        writer.call(Call::Verdict, 0, 0);
        flipped(writer, random, &relabel, 3);
    }
    other_policy(writer, random);
    if random.chance(30) {
        let bits = random.between(1, 30);
        writer.put(Buffer::Table, &sparse(random, &relabel, bits).bytes);
        writer.call(Call::Check, 0, 0);
        writer.call(Call::Verdict, 0, 0);
    }
}

/// One bit at a time is turned, looked at, and turned back.
fn flipped(writer: &mut Writer, random: &mut Random, relabel: &Relabel, flips: usize) {
    let bits = Table::read(writer.get(Buffer::Table)).map_or(Vec::new(), |table| table.bits());
    for _ in 0..flips {
        let bit = match random.below(10) {
            0 => forbidden_bit(random),
            1..=4 => relabel.bit(any_bit(random)),
            _ => random.choose(&bits).unwrap_or(0),
        };
        writer.flip(bit);
        let call = random.pick(&[Call::Check, Call::Check, Call::Verdict]);
        writer.call(call, 0, 0);
        writer.flip(bit);
    }
}

/// S may hold the environment, which no rule asks about.
fn hinted_0(writer: &mut Writer) {
    let has = Table::read(writer.get(Buffer::Table)).is_some_and(|table| table.suspect(0));
    if !has {
        writer.flip(s_bit(0));
        writer.call(Call::Verdict, 0, 0);
        writer.flip(s_bit(0));
    }
}

/// The table as it stands, but another policy.
fn other_policy(writer: &mut Writer, random: &mut Random) {
    if let (true, Ok(mut policy)) = (random.chance(50), Policy::try_from(writer.get(Buffer::Policy))) {
        let label = if random.chance(70) { random.between(1, 6) } else { random.between(1, 63) };
        policy[label] = random.below(3) as u8;
        writer.put(Buffer::Policy, &policy);
        writer.call(Call::Check, 0, 0);
        writer.call(Call::Verdict, 0, 0);
    }
}

/// Causes 1 to 9 alone and together, for the three calls that have them.
fn refused_inputs(writer: &mut Writer, random: &mut Random, round: usize) {
    let mix = Mix { records: random.between(1, 8), ..Mix::small(random) };
    let itinerary = tree(random, &mix);
    let mut bytes = itinerary.bytes();
    let (bad_itinerary, bad_policy, bad_table) = (round % 3 == 0, round % 4 == 0, round % 5 < 3);
    if bad_itinerary {
        for _ in 0..random.between(1, 2) {
            let cause = random.between(1, 6);
            damage(random, &mut bytes, cause as u8);
        }
    }
    writer.put(Buffer::Itinerary, &bytes);
    let good = policies::good(random);
    let policy = if bad_policy { policies::bad(random) } else { good.to_vec() };
    writer.put(Buffer::Policy, &policy);
    let mut table = least(Law::Document, &[&itinerary], &good);
    let length = bad_length(random);
    match (bad_table, random.chance(50)) {
        (true, true) => writer.put(Buffer::Table, &vec![0; length]),
        (true, false) => {
            table.set(forbidden_bit(random));
            writer.put(Buffer::Table, &table.bytes);
        }
        _ => writer.put(Buffer::Table, &table.bytes),
    }
    for call in [Call::Check, Call::Verdict, Call::Maker] {
        writer.call(call, 0, 0);
    }
}

/// Noise, and every bit set, which holds for everything.
fn dense_tables(writer: &mut Writer, random: &mut Random) {
    writer.put(Buffer::Table, &full().bytes);
    for _ in 0..4 {
        let mix = Mix::small(random);
        let itinerary = tree(random, &mix);
        put(writer, &itinerary, &policies::good(random));
        writer.call(Call::Check, 0, 0);
        writer.call(Call::Verdict, 0, 0);
        flipped(writer, random, &Relabel::none(), 4);
    }
    writer.put(Buffer::Table, &noise(random).bytes);
    writer.call(Call::Check, 0, 0);
    writer.call(Call::Verdict, 0, 0);
    writer.call(Call::Maker, 0, 0);
}

/// Full itineraries; few different capabilities keep the naive rules bearable.
fn large(writer: &mut Writer, random: &mut Random, size: Size) {
    for round in 0..size.large_times(10) {
        let (labels, orders, names) = random.pick(&[(5, 4, 4), (20, 6, 10), (63, 8, 64), (63, 64, 6)]);
        let capabilities = if round < 5 { 30 } else { 5 };
        let mix = Mix { labels, orders, names, capabilities, ..Mix::full(random) };
        let itinerary = tree(random, &mix);
        large_itinerary(writer, random, &itinerary);
    }
    for reversed in [false, true] {
        for links in
            [Links::Ambients, Links::Capabilities, Links::Turns].into_iter().take(size.large_times(3))
        {
            large_itinerary(writer, random, &chain(MOST_RECORDS, links, reversed));
        }
    }
}

fn large_itinerary(writer: &mut Writer, random: &mut Random, itinerary: &Itinerary) {
    put(writer, itinerary, &policies::telling(random, itinerary));
    writer.call(Call::Maker, 0, 0);
    writer.call(Call::Check, 0, 0);
    writer.call(Call::Verdict, 0, 0);
    flipped(writer, random, &Relabel::none(), 2);
}
