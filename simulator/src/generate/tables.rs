//! Tables: near the made one, above it, random, full, and malformed.

use super::relabel::Relabel;
use crate::law::Law;
use crate::random::Random;
use crate::record::Itinerary;
use crate::table::{close, h_bit, i_bit, s_bit, Policy, Table, TABLE_LENGTH};

/// A bit that the check may see, about small labels and names most of the time.
pub fn any_bit(random: &mut Random) -> usize {
    let wide = random.chance(15);
    let (labels, orders, names) = if wide { (64, 64, 64) } else { (6, 5, 4) };
    match random.below(6) {
        0 | 1 => i_bit(random.below(labels) as u8, random.between(1, labels - 1) as u8),
        2 => i_bit(random.below(labels) as u8, 64 + random.below(orders) as u8),
        3 => h_bit(random.between(1, labels - 1) as u8, random.below(names) as u8),
        4 => s_bit(random.between(1, labels - 1) as u8),
        _ => s_bit(random.below(labels) as u8),
    }
}

/// A bit that refusal 8 forbids.
pub fn forbidden_bit(random: &mut Random) -> usize {
    match random.below(2) {
        0 => i_bit(random.below(64) as u8, 0),
        _ => h_bit(0, random.below(64) as u8),
    }
}

/// A table of a few bits that may be anything but forbidden.
pub fn sparse(random: &mut Random, relabel: &Relabel, bits: usize) -> Table {
    let mut table = Table::empty();
    for _ in 0..bits {
        table.set(relabel.bit(any_bit(random)));
    }
    table
}

/// A table that holds, above the made one and some bits of its own.
pub fn above_made(random: &mut Random, relabel: &Relabel, itinerary: &Itinerary, policy: &Policy) -> Table {
    let extra = random.between(1, 8);
    close(Law::Document, &[itinerary], policy, &sparse(random, relabel, extra))
}

/// Each bit set but the forbidden ones.
pub fn full() -> Table {
    let mut table = Table { bytes: [0xff; TABLE_LENGTH] };
    for row in 0..64 {
        table.bytes[row * 16] = 0xfe;
    }
    table.bytes[1024..1032].fill(0);
    table
}

/// Every byte random, then the forbidden bits cleared.
pub fn noise(random: &mut Random) -> Table {
    let mut table = full();
    for byte in &mut table.bytes {
        *byte &= random.byte();
    }
    table
}

pub fn bad_length(random: &mut Random) -> usize {
    random.pick(&[0, 1, 16, 1024, 1536, 1543, 1545, 1552, 1560])
}
