//! Sets to be joined: the members beside the first, a buffer, and a table.

use crate::buffers::{Buffers, MEMBERS};
use crate::draw::bad_client;
use crate::families::Family;
use crate::rooms::MOST;
use simulator::generate::damage::damage;
use simulator::generate::relabel::Relabel;
use simulator::generate::tables::any_bit;
use simulator::generate::trees::{tree, Mix};
use simulator::law::Law;
use simulator::random::Random;
use simulator::record::{Itinerary, MOST_RECORDS};
use simulator::table::{least, Policy};

/// Few labels and orders: the simulator's rules take long over many.
fn large(random: &mut Random, records: usize) -> Itinerary {
    let mix = Mix { labels: 20, orders: 6, names: 10, capabilities: 30, ..Mix::full(random) };
    tree(random, &Mix { records, ..mix })
}

/// Of 1,024 records or about so many that are to be joined.
pub fn first_of_full(random: &mut Random) -> Itinerary {
    let records = match random.below(3) {
        0 => random.pick(&[0, 1, 256, 512, 1023, 1024]),
        _ => random.below(MOST_RECORDS),
    };
    large(random, records)
}

/// What goes with it: half of the time there are just as many records as there can be.
fn full(random: &mut Random, relabel: &Relabel, first: usize) -> [Vec<u8>; 3] {
    let together = random.pick(&[1024, 1024, 1024, 1023, 1025, 1030]);
    let left = together - first.min(together);
    let mut cuts = [random.below(left + 1), random.below(left + 1)];
    cuts.sort_unstable();
    let counts = [cuts[0], cuts[1] - cuts[0], left - cuts[1]];
    counts.map(|records| relabel.itinerary(&large(random, records)).bytes())
}

/// A member beside the first: unused, small, now and then larger or damaged.
pub fn member(random: &mut Random, family: Family, relabel: &Relabel) -> Vec<u8> {
    let mix = match random.below(100) {
        0..=84 if family == Family::Empty => return Vec::new(),
        0..=29 => return Vec::new(),
        30..=64 => Mix::small(random),
        65..=97 => Mix::lively(random),
        _ => Mix::medium(random),
    };
    let mut bytes = relabel.itinerary(&tree(random, &mix)).bytes();
    match family {
        Family::Set | Family::FullSet => {}
        Family::BadClient if random.chance(30) => bad_client(random, &mut bytes),
        _ if random.chance(8) => {
            let cause = random.between(1, 6) as u8;
            damage(random, &mut bytes, cause);
        }
        _ => {}
    }
    bytes
}

/// The members beside a first one of that many records.
pub fn others(random: &mut Random, family: Family, relabel: &Relabel, first: usize) -> [Vec<u8>; 3] {
    match family {
        Family::FullSet => full(random, relabel, first),
        _ => std::array::from_fn(|_| member(random, family, relabel)),
    }
}

/// Each member goes that many places on.
pub fn rotate(buffers: &mut Buffers, places: usize) {
    let mut members = MEMBERS.map(|member| std::mem::take(buffers.get_mut(member)));
    members.rotate_right(places);
    for (buffer, bytes) in MEMBERS.into_iter().zip(members) {
        *buffers.get_mut(buffer) = bytes;
    }
}

/// A buffer of the joined length, or of another one near it or far from it, with any bytes in it.
pub fn fit_joined(random: &mut Random, buffers: &mut Buffers) {
    let right = buffers.members().concat().len();
    let room = match random.below(20) {
        0 => right.saturating_sub(1),
        1 => right + 1,
        2 => right.saturating_sub(8),
        3 => right + 8,
        4 => random.pick(&[0, 8, 8192, 8200, 2 * right]),
        5 => random.below(right + 40),
        _ => right,
    };
    buffers.joined = (0..room.min(MOST)).map(|_| random.byte()).collect();
}

/// The least table for all members, or for three of them; now and then with a bit turned. None where there is none.
pub fn fit_table(random: &mut Random, buffers: &mut Buffers) {
    let left_out = if random.chance(25) { random.below(4) } else { 4 };
    let read: Vec<Itinerary> = buffers.members().into_iter().flat_map(Itinerary::read).collect();
    let Ok(policy) = Policy::try_from(&buffers.policy[..]) else { return };
    if read.len() < 4 {
        return;
    }
    let for_them: Vec<&Itinerary> =
        read.iter().enumerate().filter(|&(place, _)| place != left_out).map(|(_, member)| member).collect();
    let mut table = least(Law::Document, &for_them, &policy);
    if random.chance(15) {
        let bit = any_bit(random);
        table.bytes[bit / 8] ^= 1 << (bit % 8);
    }
    buffers.table = table.bytes.to_vec();
}
