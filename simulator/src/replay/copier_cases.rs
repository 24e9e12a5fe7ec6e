//! Cases of copiers, for every call that reads an itinerary: where they stand, their labels and names, and the kind behind
//! theirs.

use super::bench::Bench;
use super::stream::{Buffer, Call};
use super::writer::Writer;
use super::Size;
use crate::generate::examples::{recurring, RECURRING_STEPS};
use crate::generate::trees::{tree, Mix};
use crate::random::Random;
use crate::record::Kind;

/// The calls of a file that read an itinerary.
pub fn write(writer: &mut Writer, random: &mut Random, size: Size, calls: &[Call]) {
    let calls: Vec<Call> = calls.iter().copied().filter(|&call| call != Call::Row).collect();
    let bench = Bench::of(recurring(), &RECURRING_STEPS, &calls);
    bench.put(writer);
    if calls.contains(&Call::Step) {
        steps(writer);
        bench.put(writer);
    }
    by_hand(writer, &bench);
    in_order(writer, &bench);
    for _ in 0..size.times(20) {
        drawn(writer, random, &calls);
    }
}

/// Copiers as actors and partners, actors beneath them, and one that a step sets free.
fn steps(writer: &mut Writer) {
    writer.put(Buffer::Itinerary, &recurring().bytes());
    for (actor, partner) in
        [(2, 1), (9, 10), (4, 5), (3, 5), (7, 1), (14, 10), (12, 13), (12, 9), (12, 11), (14, 10), (13, 10)]
    {
        writer.call(Call::Step, actor, partner);
    }
}

/// Numbers of the recurring bench's copiers, and of an ambient, an open and an out.
const COPIERS: [usize; 5] = [2, 4, 6, 9, 13];
const OTHERS: [usize; 3] = [8, 3, 7];

/// Each kind for a copier and copiers for the others; labels and names at the bounds of the other kinds.
fn by_hand(writer: &mut Writer, bench: &Bench) {
    bench.ask(writer, &bench.itinerary.bytes());
    for (place, number) in COPIERS.into_iter().enumerate() {
        bench.ask(writer, &bench.with_bytes(number, &[(0, [6, 7, 133, 255, 4][place])]));
        bench.ask(writer, &bench.with_bytes(number, &[(1, [1, 63, 64, 127, 128][place])]));
        bench.ask(writer, &bench.with_bytes(number, &[(2, [1, 2, 63, 64, 255][place])]));
    }
    for number in OTHERS {
        for kind in [Kind::Copier as u8, 6] {
            bench.ask(writer, &bench.with_bytes(number, &[(0, kind)]));
        }
        bench.ask(writer, &bench.with_bytes(number, &[(0, Kind::Copier as u8), (1, 0), (2, 0)]));
    }
}

/// Several faults of one copier: the first by its number.
fn in_order(writer: &mut Writer, bench: &Bench) {
    let (kind, label, name, parent) = ((0, 6), (1, 64), (2, 1), (4, 15));
    for faults in [
        &[kind, label, name, parent][..],
        &[label, name, parent],
        &[label, name],
        &[label, parent],
        &[name, parent],
        &[parent],
        &[name, (3, 1)],
        &[label, (6, 0xe8), (7, 3)],
    ] {
        bench.ask(writer, &bench.with_bytes(6, faults));
    }
    // A ring of two copiers, and a good parent that is one.
    bench.ask(writer, &bench.with_bytes(4, &[(4, 6)]));
    bench.ask(writer, &bench.with_bytes(9, &[(4, 13)]));
}

/// A drawn bench with copiers.
fn drawn(writer: &mut Writer, random: &mut Random, calls: &[Call]) {
    let mix = Mix { copiers: 20, ..Mix::lively(random) };
    let bench = Bench::drawn(random, calls, &mix);
    bench.put(writer);
    bench.ask(writer, &tree(random, &mix).bytes());
    bench.ask(writer, &bench.itinerary.bytes());
}
