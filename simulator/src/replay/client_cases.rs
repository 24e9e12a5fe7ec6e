//! Cases of clients, for every call that reads an itinerary: good ones, those that are refused with 2, and what is
//! looked at before and behind them.

use super::bench::Bench;
use super::stream::{Buffer, Call};
use super::writer::Writer;
use super::Size;
use crate::generate::clients;
use crate::generate::damage::spoil_client;
use crate::generate::examples::{shared, SHARED_STEPS};
use crate::generate::trees::Mix;
use crate::random::Random;
use crate::record::{Kind, LAST_CLIENT, MOST_RECORDS, RECORD_LENGTH};

/// The calls of a file that read an itinerary.
pub fn write(writer: &mut Writer, random: &mut Random, size: Size, calls: &[Call]) {
    let calls: Vec<Call> = calls.iter().copied().filter(|&call| call != Call::Row).collect();
    let shared = Bench::of(shared(), &SHARED_STEPS, &calls);
    shared.put(writer);
    if calls.contains(&Call::Step) {
        kept(writer);
    }
    by_hand(writer, &shared);
    refused_on_gone(writer, &shared);
    in_order(writer, &shared);
    for _ in 0..size.times(20) {
        let mix = Mix { gone: 20, clients: 90, ..Mix::lively(random) };
        drawn(writer, random, &calls, &mix);
    }
    for place in 0..size.large_times(3) {
        let mix = Mix { gone: 5, clients: 100, labels: 8, orders: 6, names: 4, ..Mix::full(random) };
        full(writer, random, &calls, &mix, [1, MOST_RECORDS / 2, MOST_RECORDS][place]);
    }
}

/// The steps of the shared bench one after the other: an out, an in and an open whose records have clients.
fn kept(writer: &mut Writer) {
    writer.put(Buffer::Itinerary, &shared().bytes());
    for (actor, partner) in SHARED_STEPS {
        writer.call(Call::Step, actor, partner);
        writer.call(Call::Sheet, 0, 0);
    }
}

fn with_client(bench: &Bench, number: usize, client: u16) -> Vec<u8> {
    bench.with_bytes(number, &[(6, client.to_le_bytes()[0]), (7, client.to_le_bytes()[1])])
}

/// Every good client that stands near a bound, and every refused one, on a record of each kind.
fn by_hand(writer: &mut Writer, bench: &Bench) {
    // An ambient, an out, an in and an open.
    let numbers = [2, 3, 4, 7];
    let clients = [0].iter().chain(&clients::GOOD).chain(&clients::REFUSED);
    for (place, &client) in clients.enumerate() {
        bench.ask(writer, &with_client(bench, numbers[place % numbers.len()], client));
    }
    for number in [1, bench.itinerary.count()] {
        for client in [LAST_CLIENT, LAST_CLIENT + 1] {
            bench.ask(writer, &with_client(bench, number, client));
        }
    }
}

/// A gone record with a client, good by itself or not.
fn refused_on_gone(writer: &mut Writer, bench: &Bench) {
    let is_gone = |number: &u16| bench.itinerary.is(Kind::Gone, *number);
    for number in bench.itinerary.numbers().filter(is_gone) {
        for client in [1, 17, 255, 256, LAST_CLIENT, LAST_CLIENT + 1, u16::MAX] {
            bench.ask(writer, &with_client(bench, number.into(), client));
        }
    }
}

/// Client 1,000 beside what 3 to 5 refuse in that record or another one, and byte 3 beside a good client.
fn in_order(writer: &mut Writer, bench: &Bench) {
    let client = [(6, 0xe8), (7, 3)];
    let others: [&[(usize, u8)]; 5] = [&[(1, 0)], &[(1, 64)], &[(2, 64)], &[(4, 5)], &[(5, 9)]];
    for other in others {
        bench.ask(writer, &bench.with_bytes(6, &[&client, other].concat()));
        for (first, second) in [(&client[..], other), (other, &client[..])] {
            let mut bytes = bench.with_bytes(6, first);
            let behind = bench.with_bytes(8, second);
            bytes[7 * RECORD_LENGTH..].copy_from_slice(&behind[7 * RECORD_LENGTH..]);
            bench.ask(writer, &bytes);
        }
    }
    // A ring of two comes behind 2.
    let ring = bench.with_bytes(1, &[(4, 2)]);
    bench.ask(writer, &ring);
    bench.ask(writer, &[&ring[..9 * RECORD_LENGTH], &[1, 6, 5, 0, 2, 0, 0xe8, 3]].concat());
    for spare in [1, 3, 128] {
        bench.ask(writer, &bench.with_bytes(2, &[(3, spare)]));
    }
}

/// A drawn bench with its clients, with none, with other ones, and with a client that is refused.
fn drawn(writer: &mut Writer, random: &mut Random, calls: &[Call], mix: &Mix) {
    let bench = Bench::drawn(random, calls, mix);
    bench.put(writer);
    bench.ask(writer, &bench.itinerary.bytes());
    bench.ask(writer, &bench.itinerary.without_clients().bytes());
    bench.ask(writer, &clients::given(random, 100, &bench.itinerary).bytes());
    for on_gone in [false, true] {
        let mut bytes = bench.itinerary.bytes();
        if spoil_client(random, &mut bytes, on_gone) {
            bench.ask(writer, &bytes);
        }
    }
}

/// 1,024 records with clients, then with client 1,000 on the first record from that one on that stands.
fn full(writer: &mut Writer, random: &mut Random, calls: &[Call], mix: &Mix, from: usize) {
    let bench = Bench::drawn(random, calls, mix);
    bench.put(writer);
    let bytes = bench.itinerary.bytes();
    bench.ask(writer, &bytes);
    let mut numbers = (from..=MOST_RECORDS).chain((1..from).rev());
    if let Some(number) = numbers.find(|number| bytes[(number - 1) * RECORD_LENGTH] != 0) {
        bench.ask(writer, &with_client(&bench, number, LAST_CLIENT + 1));
    }
}
