//! Cases of the screen, which does what the program does with its files.

use super::itinerary_cases::refused_script;
use super::stream::{Buffer, Call};
use super::writer::Writer;
use super::Size;
use super::{client_cases, copier_cases};
use crate::generate::damage::damage;
use crate::generate::examples;
use crate::generate::policies;
use crate::generate::relabel::Relabel;
use crate::generate::scripts::script;
use crate::generate::trees::{tree, Mix};
use crate::random::Random;
use crate::record::{Itinerary, MOST_RECORDS};
use crate::table::Policy;

pub const CALLS: [Call; 1] = [Call::Screen];

pub fn write(writer: &mut Writer, random: &mut Random, size: Size) {
    example_b(writer);
    hinted_0(writer);
    for round in 0..size.times(420) {
        let (itinerary, policy) = policies::with_verdict(random, 1 + round as u16 % 3);
        let relabel = Relabel::draw(random);
        let (itinerary, policy) = (relabel.itinerary(&itinerary), relabel.policy(&policy));
        let count = random.pick(&[0, 1, 4, 12]);
        good(writer, random, &itinerary, &policy, count);
    }
    for _ in 0..size.times(40) {
        let mix = Mix::medium(random);
        let itinerary = tree(random, &mix);
        let count = random.between(0, 40);
        let policy = policies::telling(random, &itinerary);
        good(writer, random, &itinerary, &policy, count);
    }
    for round in 0..size.times(240) {
        refused(writer, random, round);
    }
    for round in 0..size.large_times(6) {
        let mix = Mix { labels: 8, orders: 6, names: 4, ..Mix::full(random) };
        let itinerary = tree(random, &mix);
        let policy = policies::telling(random, &itinerary);
        good(writer, random, &itinerary, &policy, if round < 3 { MOST_RECORDS } else { 40 });
    }
    client_cases::write(writer, random, size, &CALLS);
    copier_cases::write(writer, random, size, &CALLS);
}

fn example_b(writer: &mut Writer) {
    let records = [1, 1, 0, 0, 0, 0, 0, 0, 1, 2, 1, 0, 1, 0, 0, 0, 3, 64, 0, 0, 2, 0, 0, 0];
    writer.put(Buffer::Itinerary, &records);
    writer.put(Buffer::Policy, &policies::usual());
    writer.put(Buffer::Script, &[3, 0, 1, 0, 3, 0, 1, 0]);
    writer.put(Buffer::Answers, &[0xee; 2]);
    writer.call(Call::Screen, 0, 0);
}

/// The environment opens an ambient that is suspect but not high.
fn hinted_0(writer: &mut Writer) {
    let itinerary = examples::environment_suspect();
    for steps in [&[][..], &[6, 0, 5, 0, 4, 0, 2, 0]] {
        writer.put(Buffer::Itinerary, &itinerary.bytes());
        writer.put(Buffer::Script, steps);
        writer.put(Buffer::Answers, &vec![0xee; steps.len() / 4]);
        writer.call(Call::Screen, 0, 0);
    }
}

fn good(writer: &mut Writer, random: &mut Random, itinerary: &Itinerary, policy: &Policy, steps: usize) {
    writer.put(Buffer::Itinerary, &itinerary.bytes());
    writer.put(Buffer::Policy, policy);
    let script = script(random, itinerary, steps, 70);
    writer.put(Buffer::Script, &script);
    writer.put(Buffer::Answers, &vec![0xee; steps]);
    writer.call(Call::Screen, 0, 0);
}

/// Causes 1 to 7 and 13, alone and together.
fn refused(writer: &mut Writer, random: &mut Random, round: usize) {
    let mix = Mix { records: random.between(1, 8), ..Mix::small(random) };
    let mut bytes = tree(random, &mix).bytes();
    if round % 2 == 0 {
        damage(random, &mut bytes, (1 + round / 2 % 6) as u8);
    }
    writer.put(Buffer::Itinerary, &bytes);
    let policy = if round % 3 == 0 { policies::bad(random) } else { policies::usual().to_vec() };
    writer.put(Buffer::Policy, &policy);
    if round % 4 < 3 {
        refused_script(writer, random);
    } else {
        writer.put(Buffer::Script, &[1, 0, 2, 0]);
        writer.put(Buffer::Answers, &[0xee]);
    }
    writer.call(Call::Screen, 0, 0);
}
