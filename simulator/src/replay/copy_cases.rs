//! Cases of the copy: which numbers are active copiers, gone records enough, one too few and more, where copies go and
//! stand, and what is looked at before.

use super::copier_cases;
use super::stream::{Buffer, Call};
use super::writer::Writer;
use super::Size;
use crate::copies::{active_copiers, beneath, gone};
use crate::generate::clients::{self, GOOD, REFUSED};
use crate::generate::damage::{damage, spoil_client};
use crate::generate::examples::{self, copiers, recurring, wash, WASH};
use crate::generate::policies;
use crate::generate::relabel::Relabel;
use crate::generate::scripts::{any_number, done_copy, done_step};
use crate::generate::trees::{beneath_a_copier, chain, tree, turned_round, Links, Mix};
use crate::law::Law;
use crate::random::Random;
use crate::record::{Itinerary, Kind, Record, MOST_RECORDS, RECORD_LENGTH};
use crate::table::least;

pub const CALLS: [Call; 1] = [Call::Copy];

pub fn write(writer: &mut Writer, random: &mut Random, size: Size) {
    by_hand(writer);
    for _ in 0..size.times(200) {
        every_number(writer, random);
    }
    for _ in 0..size.times(120) {
        rooms(writer, random);
    }
    for _ in 0..size.times(60) {
        with_steps(writer, random);
    }
    for _ in 0..size.times(40) {
        accepted_still(writer, random);
    }
    for round in 0..size.times(240) {
        refused(writer, random, round);
    }
    clients_copied(writer, random, size);
    copier_cases::write(writer, random, size, &CALLS);
    if size == Size::Whole {
        full(writer, random);
    }
}

fn put(writer: &mut Writer, itinerary: &Itinerary) {
    writer.put(Buffer::Itinerary, &itinerary.bytes());
}

fn ask(writer: &mut Writer, number: u16) {
    writer.call(Call::Copy, number, 0);
}

fn now(writer: &Writer) -> Itinerary {
    Itinerary::read(writer.get(Buffer::Itinerary)).unwrap_or(Itinerary { records: Vec::new() })
}

/// All numbers of records and some others.
fn numbers(itinerary: &Itinerary) -> Vec<u16> {
    let count = itinerary.count() as u16;
    (0..=count + 2).chain([1024, 1025, 32768, 65535]).chain((1..=count).map(|number| 256 + number)).collect()
}

/// The same with other gone records: those left out, or more at the end.
fn with_gone(itinerary: &Itinerary, wanted: usize) -> Itinerary {
    let mut changed = itinerary.clone();
    changed.records.resize(itinerary.count() + wanted.saturating_sub(gone(itinerary).len()), Record::GONE);
    let surplus = gone(&changed).len() - wanted;
    for number in gone(&changed).into_iter().rev().take(surplus) {
        changed.records[usize::from(number) - 1] =
            Record { kind: Kind::Ambient, label: 5, name: 4, parent: 0, client: 0 };
    }
    changed
}

/// Each number of each of these, asked for in the itinerary as it was.
fn by_hand(writer: &mut Writer) {
    let copier = Record { kind: Kind::Copier, ..Record::GONE };
    let ambient = |parent: u16| Record { kind: Kind::Ambient, label: 1, name: 0, parent, client: 0 };
    let mut itineraries = examples::lettered().to_vec();
    itineraries.extend([wash(), recurring(), copiers(), examples::shared(), examples::between()]);
    itineraries.extend([4, 6, 0].map(|wanted| with_gone(&wash(), wanted)));
    itineraries.extend([3, 8, 20].map(|wanted| with_gone(&recurring(), wanted)));
    itineraries.extend([0, 2].map(|wanted| with_gone(&copiers(), wanted)));
    itineraries.extend(
        [
            vec![],
            vec![copier],
            vec![copier, Record::GONE],
            vec![copier, copier],
            vec![copier, ambient(1), Record::GONE],
            vec![Record::GONE, copier, ambient(2)],
            vec![ambient(3), Record::GONE, copier],
            vec![Record::GONE, ambient(3), copier, Record::GONE, ambient(3), Record::GONE],
        ]
        .map(|records| Itinerary { records }),
    );
    for itinerary in itineraries {
        for number in numbers(&itinerary) {
            put(writer, &itinerary);
            ask(writer, number);
        }
    }
}

/// A drawn itinerary and all of its numbers in any order, each from the state before it.
fn every_number(writer: &mut Writer, random: &mut Random) {
    let mix = if random.chance(30) { Mix::small(random) } else { Mix::copying(random) };
    let itinerary = Relabel::draw(random).itinerary(&tree(random, &mix));
    put(writer, &itinerary);
    let mut numbers: Vec<u16> = (0..=itinerary.count() as u16 + 1).collect();
    random.shuffle(&mut numbers);
    for number in numbers {
        ask(writer, number);
    }
}

/// A drawn itinerary in which the copier with the most beneath it has gone records just enough, one less, and more or
/// less than that.
fn rooms(writer: &mut Writer, random: &mut Random) {
    let mix = Mix { gone: 25, ..Mix::copying(random) };
    let itinerary = tree(random, &mix);
    let count = |copier: &u16| beneath(&itinerary, *copier).len();
    let Some(copier) = active_copiers(&itinerary).into_iter().max_by_key(count) else { return };
    let needed = count(&copier);
    for room in [needed, needed.saturating_sub(1), needed + random.between(1, 3), random.below(needed + 1)] {
        put(writer, &with_gone(&itinerary, room));
        ask(writer, copier);
        ask(writer, copier);
    }
}

/// Copies and steps in turn, those of copied records among them, while there are any.
fn with_steps(writer: &mut Writer, random: &mut Random) {
    let mix = Mix { suited: 95, behind: 10, ..Mix::copying(random) };
    put(writer, &tree(random, &mix));
    for _ in 0..16 {
        let state = now(writer);
        match (done_copy(random, &state), done_step(random, &state)) {
            (Some(copier), step) if step.is_none() || random.chance(50) => ask(writer, copier),
            (_, Some((actor, partner))) => {
                writer.call(Call::Step, actor, partner);
            }
            _ => break,
        }
        if random.chance(20) {
            ask(writer, any_number(random, &state));
        }
    }
}

/// A table that is accepted before a copy is accepted behind it.
fn accepted_still(writer: &mut Writer, random: &mut Random) {
    let mix = Mix { gone: 50, ..Mix::copying(random) };
    let itinerary = tree(random, &mix);
    let policy = policies::telling(random, &itinerary);
    put(writer, &itinerary);
    writer.put(Buffer::Policy, &policy);
    writer.put(Buffer::Table, &least(Law::Document, &[&itinerary], &policy).bytes);
    while let Some(copier) = done_copy(random, &now(writer)) {
        ask(writer, copier);
        writer.call(Call::Check, 0, 0);
        if beneath(&now(writer), copier).is_empty() {
            break;
        }
    }
}

/// Causes 1 to 6, one by one and several at once, before 17, 18 and a copy that would be done.
fn refused(writer: &mut Writer, random: &mut Random, round: usize) {
    let mix = Mix { gone: random.pick(&[10, 60]), ..Mix::copying(random) };
    let itinerary = tree(random, &mix);
    let mut bytes = itinerary.bytes();
    damage(random, &mut bytes, 1 + (round % 6) as u8);
    if round % 4 == 3 {
        let more = random.between(1, 6);
        damage(random, &mut bytes, more as u8);
    }
    writer.put(Buffer::Itinerary, &bytes);
    let copier = random.choose(&active_copiers(&itinerary)).unwrap_or(1);
    for number in [copier, any_number(random, &itinerary)] {
        ask(writer, number);
    }
}

/// Each good client and each refused one on a record beneath the copier, on the copier, and on a gone record.
fn clients_copied(writer: &mut Writer, random: &mut Random, size: Size) {
    let with = |changes: &[(usize, u8)]| {
        let mut bytes = wash().bytes();
        changes.iter().for_each(|&(at, byte)| bytes[at] = byte);
        bytes
    };
    let asked = |writer: &mut Writer, bytes: &[u8]| {
        writer.put(Buffer::Itinerary, bytes);
        ask(writer, WASH);
    };
    let clients = [0].iter().chain(&GOOD).chain(&REFUSED).map(|client| client.to_le_bytes());
    for (round, [low, high]) in clients.enumerate() {
        for number in [[2, 5, 6, 9, 10][round % 5], usize::from(WASH), 3] {
            let at = number * RECORD_LENGTH - 2;
            asked(writer, &with(&[(at, low), (at + 1, high)]));
        }
    }
    // Client 1,000 on the packet, beside what 3 to 5 refuse in it or in the copier.
    for other in [(9, 0), (10, 64), (12, 14), (25, 1), (26, 1), (28, 3)] {
        asked(writer, &with(&[(14, 0xe8), (15, 3), other]));
    }
    for _ in 0..size.times(40) {
        let mix = Mix { clients: 90, ..Mix::copying(random) };
        let itinerary = tree(random, &mix);
        let copier = random.choose(&active_copiers(&itinerary)).unwrap_or(1);
        let mut kinds = vec![itinerary.bytes(), itinerary.without_clients().bytes()];
        kinds.push(clients::given(random, 100, &itinerary).bytes());
        let mut spoilt = itinerary.bytes();
        let on_gone = random.chance(50);
        if spoil_client(random, &mut spoilt, on_gone) {
            kinds.push(spoilt);
        }
        for bytes in kinds {
            writer.put(Buffer::Itinerary, &bytes);
            ask(writer, copier);
        }
    }
}

/// 1,024 records: all others beneath the copier, half of them with gone records for the copies, and random ones.
fn full(writer: &mut Writer, random: &mut Random) {
    for (count, links, reversed) in [
        (511, Links::Ambients, false),
        (512, Links::Turns, false),
        (MOST_RECORDS - 1, Links::Capabilities, true),
        (511, Links::Turns, true),
    ] {
        let gone = MOST_RECORDS - 1 - count;
        put(writer, &beneath_a_copier(&chain(count, links, reversed), gone));
        for number in [count as u16 + 1, 1, 1024, 1025, 0] {
            ask(writer, number);
        }
    }
    // In an ambient, with just enough gone records; then the same with all numbers in the other order.
    let mut enough = beneath_a_copier(&chain(511, Links::Ambients, false), 511);
    enough.records.push(Record { kind: Kind::Ambient, label: 9, name: 9, parent: 0, client: 0 });
    enough.records[511].parent = MOST_RECORDS as u16;
    for (itinerary, copier) in [(turned_round(&enough), 513), (enough, 512)] {
        put(writer, &itinerary);
        [copier, 1, copier].into_iter().for_each(|number| ask(writer, number));
    }
    for gone in [45, 60, 60] {
        let mix = Mix { gone, copiers: 4, clients: 70, top: 3, ..Mix::full(random) };
        let itinerary = tree(random, &mix);
        put(writer, &itinerary);
        for copier in active_copiers(&itinerary).into_iter().take(4) {
            ask(writer, copier);
        }
        ask(writer, any_number(random, &itinerary));
    }
}
