//! Cases of validate, climb, sheet, step and run, and behind them more of the climb and of clients.

use super::client_cases;
use super::climb_cases;
use super::copier_cases;
use super::stream::{Buffer, Call};
use super::writer::Writer;
use super::Size;
use crate::generate::clients::given;
use crate::generate::damage::damage;
use crate::generate::policies;
use crate::generate::relabel::Relabel;
use crate::generate::scripts::{any_step, capabilities, done_step, partners, script};
use crate::generate::tables::{bad_length, forbidden_bit, noise, sparse};
use crate::generate::trees::{chain, tree, Links, Mix};
use crate::law::Law;
use crate::random::Random;
use crate::record::{Itinerary, Kind, MOST_RECORDS};
use crate::table::{least, s_bit, Policy, Table};

pub const CALLS: [Call; 5] = [Call::Validate, Call::Climb, Call::Sheet, Call::Step, Call::Run];

pub fn write(writer: &mut Writer, random: &mut Random, size: Size) {
    writer.put(Buffer::Policy, &policies::by_turns());
    lengths(writer, random, size);
    for round in 0..size.times(520) {
        let mix = if round % 4 == 0 { Mix::lively(random) } else { Mix::small(random) };
        small(writer, random, &mix);
    }
    for _ in 0..size.times(40) {
        let mix = Mix::medium(random);
        small(writer, random, &mix);
    }
    for _ in 0..size.times(160) {
        until_quiet(writer, random);
    }
    for _ in 0..size.times(80) {
        all_pairs(writer, random);
    }
    for round in 0..size.times(480) {
        damaged(writer, random, round);
    }
    for round in 0..size.times(160) {
        refused_inputs(writer, random, round);
    }
    full(writer, random, size);
    climb_cases::write(writer, random, size);
    client_cases::write(writer, random, size, &CALLS);
    copier_cases::write(writer, random, size, &CALLS);
}

fn itinerary_now(writer: &Writer) -> Itinerary {
    Itinerary::read(writer.get(Buffer::Itinerary)).unwrap_or(Itinerary { records: Vec::new() })
}

/// Loads a script and answers that are not what the run will write.
fn put_script(writer: &mut Writer, random: &mut Random, script: &[u8]) {
    writer.put(Buffer::Script, script);
    let filler = random.pick(&[0xee, 0, 12]);
    writer.put(Buffer::Answers, &vec![filler; script.len() / 4]);
}

/// One call of each kind, with whatever stands in the buffers.
fn each_call(writer: &mut Writer, random: &mut Random) {
    let (actor, partner) = any_step(random, &itinerary_now(writer));
    for call in CALLS {
        let (x, y) = match call {
            Call::Climb => (actor, 0),
            Call::Step => (actor, partner),
            _ => (0, 0),
        };
        writer.call(call, x, y);
    }
}

/// Lengths at and around the limits, of zeros and of anything.
fn lengths(writer: &mut Writer, random: &mut Random, size: Size) {
    writer.put(Buffer::Table, &Table::empty().bytes);
    for length in [0, 1, 7, 8, 9, 15, 16, 8192, 8193, 8199, 8200, 8208, 8264] {
        if length > 16 && size == Size::Sample {
            continue;
        }
        let long = length > 16;
        let bytes: Vec<u8> = (0..length).map(|_| if long { 0 } else { random.byte() }).collect();
        for bytes in [vec![0; length], bytes] {
            writer.put(Buffer::Itinerary, &bytes);
            writer.put(Buffer::Sheet, &bytes);
            put_script(writer, random, &[1, 0, 1, 0]);
            each_call(writer, random);
            each_call(writer, random);
        }
    }
}

/// A table whose S hides some of the itinerary: made, sparse, or noise.
fn put_hiding_table(writer: &mut Writer, random: &mut Random, itinerary: &Itinerary) {
    let table = match random.below(5) {
        0 => {
            let mut policy: Policy = [0; 64];
            policy[random.between(1, 5)] = 1;
            least(Law::Document, &[itinerary], &policy)
        }
        1 if random.chance(10) => noise(random),
        _ => {
            let bits = random.below(12);
            let mut table = sparse(random, &Relabel::none(), bits);
            if let Some(record) = random.choose(&itinerary.records) {
                // For a capability this is a bit of some ambient label, which must not hide it.
                table.set(s_bit(record.label % 64));
            }
            table
        }
    };
    writer.put(Buffer::Table, &table.bytes);
}

/// Everything about one small or medium itinerary, steps and runs included.
fn small(writer: &mut Writer, random: &mut Random, mix: &Mix) {
    let itinerary = tree(random, mix);
    let itinerary = Relabel::draw(random).itinerary(&itinerary);
    writer.put(Buffer::Itinerary, &itinerary.bytes());
    let filler = random.byte();
    writer.put(Buffer::Sheet, &vec![filler; itinerary.count() * 8]);
    put_hiding_table(writer, random, &itinerary);
    writer.call(Call::Validate, 0, 0);
    let count = itinerary.count() as u16;
    for number in (0..=count + 1).chain([1025, 65535]).filter(|&number| number < 14 || number > count) {
        writer.call(Call::Climb, number, 0);
    }
    writer.call(Call::Sheet, 0, 0);
    let rounds = random.between(1, 4);
    steps(writer, random, rounds);
    writer.call(Call::Sheet, 0, 0);
    let count = random.pick(&[0, 1, 3, 8, 8]);
    let script = script(random, &itinerary_now(writer), count, 70);
    put_script(writer, random, &script);
    writer.call(Call::Run, 0, 0);
    writer.call(Call::Run, 0, 0);
    put_hiding_table(writer, random, &itinerary_now(writer));
    writer.call(Call::Sheet, 0, 0);
    writer.call(Call::Validate, 0, 0);
}

/// Rounds of unfit partners for one actor, then a step that is done.
fn steps(writer: &mut Writer, random: &mut Random, rounds: usize) {
    for _ in 0..rounds {
        let now = itinerary_now(writer);
        let (actor, partner) = any_step(random, &now);
        writer.call(Call::Step, actor, partner);
        if let Some(actor) = random.choose(&capabilities(&now)) {
            for partner in partners(random, &now, actor) {
                writer.call(Call::Step, actor, partner);
            }
        }
        let now = itinerary_now(writer);
        if let Some((actor, partner)) = done_step(random, &now) {
            writer.call(Call::Step, actor, partner);
            writer.call(Call::Climb, partner, 0);
        }
    }
}

/// Steps that are done, one after the other, while there is one.
fn until_quiet(writer: &mut Writer, random: &mut Random) {
    let mix = Mix::lively(random);
    writer.put(Buffer::Itinerary, &tree(random, &mix).bytes());
    while let Some((actor, partner)) = done_step(random, &itinerary_now(writer)) {
        writer.call(Call::Step, actor, partner);
        writer.call(Call::Step, actor, partner);
    }
    writer.call(Call::Validate, 0, 0);
}

/// Every actor with every partner, in any order, each from the state before it.
fn all_pairs(writer: &mut Writer, random: &mut Random) {
    let mix = Mix { records: random.between(3, 8), ..Mix::lively(random) };
    let itinerary = tree(random, &mix);
    writer.put(Buffer::Itinerary, &itinerary.bytes());
    let over = itinerary.count() as u16 + 1;
    let mut pairs: Vec<(u16, u16)> =
        (0..=over).flat_map(|actor| (0..=over).map(move |partner| (actor, partner))).collect();
    random.shuffle(&mut pairs);
    for (actor, partner) in pairs {
        writer.call(Call::Step, actor, partner);
    }
}

/// Causes 1 to 6 one by one, then several of them at once.
fn damaged(writer: &mut Writer, random: &mut Random, round: usize) {
    let mix = Mix { records: random.between(1, 10), ..Mix::small(random) };
    let mut bytes = tree(random, &mix).bytes();
    let causes = if round % 2 == 0 { 1 } else { random.between(2, 4) };
    for extra in 0..causes {
        let cause = if extra == 0 { 1 + round / 2 % 6 } else { random.between(1, 6) };
        damage(random, &mut bytes, cause as u8);
    }
    writer.put(Buffer::Itinerary, &bytes);
    let whole = bytes.len() / 8 * 8;
    writer.put(Buffer::Sheet, &vec![7; if random.chance(80) { bytes.len() } else { whole + 8 }]);
    let bits = random.below(4);
    writer.put(Buffer::Table, &sparse(random, &Relabel::none(), bits).bytes);
    put_script(writer, random, &[1, 0, 2, 0, 2, 0, 1, 0]);
    each_call(writer, random);
}

/// Good or damaged itineraries with tables, sheets, scripts or answers refused.
fn refused_inputs(writer: &mut Writer, random: &mut Random, round: usize) {
    let mix = Mix::small(random);
    let mut bytes = tree(random, &mix).bytes();
    if random.chance(20) {
        let cause = random.between(1, 6);
        damage(random, &mut bytes, cause as u8);
    }
    writer.put(Buffer::Itinerary, &bytes);
    let (bad_table, bad_sheet) = (round % 2 == 0, round / 2 % 2 == 0);
    let mut table = Table::empty();
    table.set(forbidden_bit(random));
    match (bad_table, random.chance(50)) {
        (true, true) => writer.put(Buffer::Table, &vec![0; bad_length(random)]),
        (true, false) => writer.put(Buffer::Table, &table.bytes),
        _ => writer.put(Buffer::Table, &sparse(random, &Relabel::none(), 5).bytes),
    }
    let wrong = random.pick(&[0, 1, bytes.len() + 1, bytes.len() + 8, bytes.len().saturating_sub(8)]);
    writer.put(Buffer::Sheet, &vec![9; if bad_sheet { wrong } else { bytes.len() }]);
    writer.call(Call::Sheet, 0, 0);
    refused_script(writer, random);
    writer.call(Call::Run, 0, 0);
}

/// A script or answers of a wrong length, now and then a good pair.
pub fn refused_script(writer: &mut Writer, random: &mut Random) {
    let script: usize = random.pick(&[0, 1, 2, 3, 4, 5, 8, 12, 12, 15]);
    let script = if random.chance(4) { random.pick(&[4096, 4097, 4100, 4104]) } else { script };
    let bytes: Vec<u8> =
        (0..script).map(|place| if place % 2 == 0 { random.below(9) as u8 } else { 0 }).collect();
    writer.put(Buffer::Script, &bytes);
    let right = script / 4;
    let answers = random.pick(&[right, right, right + 1, right.saturating_sub(1), script, 0]);
    writer.put(Buffer::Answers, &vec![0xaa; answers.min(1032)]);
}

/// Itineraries of 1,024 records.
fn full(writer: &mut Writer, random: &mut Random, size: Size) {
    for _ in 0..size.large_times(12) {
        let mix = Mix::full(random);
        let itinerary = tree(random, &mix);
        large(writer, random, &itinerary);
    }
    let chains = [
        Links::Ambients,
        Links::Capabilities,
        Links::Turns,
        Links::LastActs(Kind::In),
        Links::LastActs(Kind::Out),
        Links::LastActs(Kind::Open),
    ];
    for reversed in [false, true] {
        for links in chains.into_iter().take(size.large_times(chains.len())) {
            let chain = chain(MOST_RECORDS, links, reversed);
            let itinerary = given(random, 70, &chain);
            large(writer, random, &itinerary);
        }
    }
    for round in 0..size.large_times(14) {
        large_damaged(writer, random, round);
    }
    if size == Size::Whole {
        long_scripts(writer, random);
    }
}

/// Calls on a full itinerary, with bytes that must be kept far from the change.
fn large(writer: &mut Writer, random: &mut Random, itinerary: &Itinerary) {
    let bytes = itinerary.bytes();
    writer.put(Buffer::Itinerary, &bytes);
    put_hiding_table(writer, random, itinerary);
    writer.put(Buffer::Sheet, &bytes);
    writer.call(Call::Validate, 0, 0);
    for number in [0, 1, 2, 512, 1022, 1023, 1024, 1025, 65535] {
        writer.call(Call::Climb, number, 0);
    }
    writer.call(Call::Sheet, 0, 0);
    for (actor, partner) in [(1, 2), (1, 3), (1024, 1022), (1024, 1), (0, 1)] {
        writer.call(Call::Step, actor, partner);
    }
    steps(writer, random, 4);
    let count = random.pick(&[64, 100, 256]);
    let script = script(random, &itinerary_now(writer), count, 60);
    put_script(writer, random, &script);
    writer.call(Call::Run, 0, 0);
    writer.call(Call::Sheet, 0, 0);
    writer.call(Call::Validate, 0, 0);
}

/// Full itineraries with one cause each, at the first, the last or any record.
fn large_damaged(writer: &mut Writer, random: &mut Random, round: usize) {
    let mix = Mix { gone: 5, ..Mix::full(random) };
    let mut bytes = match round % 7 {
        6 => chain(MOST_RECORDS, Links::Ambients, round > 7).bytes(),
        _ => tree(random, &mix).bytes(),
    };
    match round % 7 {
        // A ring at the far end of a chain: every record leads into it.
        6 => {
            let (at, to) = if round > 7 { (8184, 1u16) } else { (0, 1024) };
            bytes[at + 4..at + 6].copy_from_slice(&to.to_le_bytes());
        }
        cause => {
            damage(random, &mut bytes, cause as u8 + 1);
        }
    }
    writer.put(Buffer::Itinerary, &bytes);
    put_script(writer, random, &[1, 0, 2, 0]);
    each_call(writer, random);
}

/// 1,024 steps on small and on full itineraries, and one step too many.
fn long_scripts(writer: &mut Writer, random: &mut Random) {
    for records in [12, 60, 1024, 1024, 1024] {
        let mix = Mix {
            records,
            gone: 0,
            behind: 40,
            suited: 60,
            capabilities: 60,
            labels: 6,
            orders: 6,
            names: 3,
            top: 5,
            clients: 70,
            copiers: 2,
        };
        let itinerary = tree(random, &mix);
        writer.put(Buffer::Itinerary, &itinerary.bytes());
        let script = script(random, &itinerary, MOST_RECORDS, 80);
        put_script(writer, random, &script);
        writer.call(Call::Run, 0, 0);
        writer.call(Call::Validate, 0, 0);
    }
    for (script, answers) in [(4100, 1025), (4104, 1026), (4096, 1023), (4096, 1025), (4095, 1023)] {
        writer.put(Buffer::Script, &vec![1; script]);
        writer.put(Buffer::Answers, &vec![0xbb; answers]);
        writer.call(Call::Run, 0, 0);
    }
}
