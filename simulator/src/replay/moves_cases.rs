//! Cases of the list of moves: which pairs stand on it, how many answer what, how long
//! the buffer is, and what stays behind the list.

use super::stream::{Buffer, Call};
use super::writer::Writer;
use super::Size;
use super::{client_cases, copier_cases};
use crate::generate::damage::damage;
use crate::generate::examples::{self, far_down, in_a_mover, runs};
use crate::generate::relabel::Relabel;
use crate::generate::trees::{chain, tree, Links, Mix};
use crate::law::Law;
use crate::random::Random;
use crate::record::{Itinerary, Kind, MOST_RECORDS};
use crate::steps;

pub const CALLS: [Call; 1] = [Call::Moves];

/// The most bytes that a list has.
pub const LONGEST: usize = 1 << 20;
/// More room than any list needs.
const MORE: usize = 24;

pub fn write(writer: &mut Writer, random: &mut Random, size: Size) {
    by_hand(writer, random);
    lengths(writer);
    for round in 0..size.times(180) {
        let mix = if round % 3 == 0 { Mix::small(random) } else { Mix::lively(random) };
        drawn(writer, random, &mix);
    }
    for _ in 0..size.times(40) {
        let mix = Mix::crowded(random);
        drawn(writer, random, &mix);
    }
    for _ in 0..size.times(20) {
        let mix = Mix::medium(random);
        drawn(writer, random, &mix);
    }
    for _ in 0..size.times(40) {
        until_quiet(writer, random);
    }
    for round in 0..size.times(240) {
        refused(writer, random, round);
    }
    if size == Size::Whole {
        full(writer, random);
        longest(writer);
    }
    client_cases::write(writer, random, size, &CALLS);
    copier_cases::write(writer, random, size, &CALLS);
}

/// The pairs that the list has to have, none where the itinerary is refused.
fn pairs_now(writer: &Writer) -> Vec<(u16, u16)> {
    let itinerary = Itinerary::read(writer.get(Buffer::Itinerary));
    itinerary.map_or(Vec::new(), |itinerary| steps::moves(Law::Document, &itinerary).0)
}

/// Asks with a list buffer of that many bytes, none of which is zero.
fn ask(writer: &mut Writer, length: usize, filler: u8) {
    writer.put(Buffer::List, &vec![filler.max(1); length]);
    writer.call(Call::Moves, 0, 0);
}

/// No room at all, a byte too little, just enough, and more, a byte more than the list among that.
fn ask_around(writer: &mut Writer, random: &mut Random) {
    let needed = 4 * pairs_now(writer).len();
    let mut lengths = vec![0, needed, needed + random.between(1, 7)];
    if needed > 0 {
        lengths.extend([needed - 1, random.below(needed), needed - random.between(1, 4)]);
    }
    random.shuffle(&mut lengths);
    for length in lengths {
        ask(writer, length, random.byte());
    }
}

fn put(writer: &mut Writer, itinerary: &Itinerary) {
    writer.put(Buffer::Itinerary, &itinerary.bytes());
}

/// The examples and other small ones, with every room up to a few bytes more than enough.
fn by_hand(writer: &mut Writer, random: &mut Random) {
    let mut itineraries = examples::lettered().to_vec();
    itineraries.extend([
        examples::c(),
        examples::environment_suspect(),
        examples::between(),
        examples::in_parallel(&[]),
        runs(&[(Kind::Gone, 3)]),
        runs(&[(Kind::Ambient, 3)]),
        runs(&[(Kind::In, 2), (Kind::Out, 2)]),
        runs(&[(Kind::Open, 3)]),
        runs(&[(Kind::Open, 2), (Kind::Gone, 1), (Kind::Ambient, 3)]),
        in_a_mover(Kind::In, 3, 2),
        in_a_mover(Kind::Out, 3, 2),
        in_a_mover(Kind::Open, 3, 2),
        examples::wash(),
        examples::recurring(),
        examples::copiers(),
        runs(&[(Kind::Copier, 2), (Kind::Open, 1), (Kind::Ambient, 1)]),
    ]);
    for itinerary in itineraries {
        put(writer, &itinerary);
        for length in 0..=4 * pairs_now(writer).len() + 7 {
            ask(writer, length, random.byte());
        }
    }
    // Example G.
    for parent in [1, 2] {
        writer.put(Buffer::Itinerary, &[1, 1, 0, 0, parent, 0, 0, 0]);
        [0, 4].into_iter().for_each(|length| ask(writer, length, 0xee));
    }
}

/// Lengths of the itinerary at and around the limits.
fn lengths(writer: &mut Writer) {
    for length in [0, 1, 7, 8, 9, 15, 16, 8184, 8191, 8192, 8193, 8199, 8200, 8208, 8264] {
        writer.put(Buffer::Itinerary, &vec![0; length]);
        [0, 3, 16].into_iter().for_each(|length| ask(writer, length, 0xee));
    }
}

fn drawn(writer: &mut Writer, random: &mut Random, mix: &Mix) {
    let itinerary = tree(random, mix);
    put(writer, &Relabel::draw(random).itinerary(&itinerary));
    ask_around(writer, random);
}

/// Does moves of the list, one after the other, while there is one.
fn until_quiet(writer: &mut Writer, random: &mut Random) {
    let mix = Mix::lively(random);
    put(writer, &tree(random, &mix));
    loop {
        let pairs = pairs_now(writer);
        ask(writer, 4 * pairs.len() + random.below(8), random.byte());
        let Some((actor, partner)) = random.choose(&pairs) else { break };
        writer.call(Call::Step, actor, partner);
    }
}

/// Causes 1 to 6, one by one and several at once; before them the list would have been too long for its buffer,
/// just as long, or shorter.
fn refused(writer: &mut Writer, random: &mut Random, round: usize) {
    let mix = Mix { records: random.between(3, 8), ..Mix::lively(random) };
    put(writer, &tree(random, &mix));
    let needed = 4 * pairs_now(writer).len();
    let mut bytes = writer.get(Buffer::Itinerary).to_vec();
    damage(random, &mut bytes, 1 + (round % 6) as u8);
    if round % 4 == 3 {
        let more = random.between(1, 6);
        damage(random, &mut bytes, more as u8);
    }
    writer.put(Buffer::Itinerary, &bytes);
    for length in [0, needed.saturating_sub(1), needed + random.below(8)] {
        ask(writer, length, random.byte());
    }
}

/// Itineraries of 1,024 records in which few can act or none, in which all pairs get one answer, and random ones.
fn full(writer: &mut Writer, random: &mut Random) {
    let whole = |kind| runs(&[(kind, MOST_RECORDS)]);
    for itinerary in [
        whole(Kind::Gone),
        whole(Kind::Ambient),
        whole(Kind::Copier),
        whole(Kind::Out),
        whole(Kind::Open),
        chain(MOST_RECORDS, Links::Capabilities, true),
        chain(MOST_RECORDS, Links::LastActs(Kind::Out), true),
        far_down(514, 510),
    ] {
        put(writer, &itinerary);
        ask_around(writer, random);
    }
    for names in [64, 8] {
        let mix = Mix { names, suited: 50, gone: 10, capabilities: 40, top: 10, ..Mix::full(random) };
        put(writer, &tree(random, &mix));
        let needed = 4 * pairs_now(writer).len();
        ask(writer, needed.saturating_sub(1), random.byte());
        ask(writer, needed + random.between(1, 7), random.byte());
    }
    let mut ring = chain(MOST_RECORDS, Links::Ambients, false);
    ring.records[0].parent = MOST_RECORDS as u16;
    put(writer, &ring);
    [0, 16].into_iter().for_each(|length| ask(writer, length, random.byte()));
}

/// The longest list, 262,144 pairs: half of the records can open each of the other half. And the longest of ins and
/// outs.
fn longest(writer: &mut Writer) {
    let half = MOST_RECORDS / 2;
    for itinerary in [
        runs(&[(Kind::Ambient, half), (Kind::Open, half)]),
        runs(&[(Kind::Open, half), (Kind::Ambient, half)]),
    ] {
        put(writer, &itinerary);
        for length in [LONGEST - 1, LONGEST, LONGEST + MORE, LONGEST / 2, 0] {
            ask(writer, length, 0xee);
        }
    }
    // Each actor's partners stand in two runs.
    put(writer, &runs(&[(Kind::Ambient, half / 2), (Kind::Open, half), (Kind::Ambient, half / 2)]));
    [LONGEST - 1, LONGEST].into_iter().for_each(|length| ask(writer, length, 0xee));
    for itinerary in [in_a_mover(Kind::In, half, half - 1), in_a_mover(Kind::Out, 1, MOST_RECORDS - 2)] {
        put(writer, &itinerary);
        let needed = 4 * pairs_now(writer).len();
        for length in [needed - 1, needed, needed + 5] {
            ask(writer, length, 0xee);
        }
    }
}
