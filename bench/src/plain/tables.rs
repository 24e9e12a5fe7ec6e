//! Policy and table: refusals 7 and 8, check, maker, verdict and exposed.

use super::closure::{transposed, Partners};
use super::itinerary::{nearest_labels, records, validate, AMBIENT, IN, OPEN};
use super::refuse;
use birnsket::{Refusal, Verdict, TABLE_LENGTH};

const HIGH: u8 = 1;
pub const BOUNDARY: u8 = 2;

/// A table in words: the ambients and orders that may stand in a label, its names,
/// and the suspects.
#[derive(Clone, PartialEq, Eq)]
pub struct Table {
    pub ambients: [u64; 64],
    pub orders: [u64; 64],
    pub names: [u64; 64],
    pub suspects: u64,
}

fn word(bytes: &[u8], place: usize) -> u64 {
    let mut eight = [0; 8];
    eight.copy_from_slice(&bytes[8 * place..8 * place + 8]);
    u64::from_le_bytes(eight)
}

impl Table {
    fn empty() -> Table {
        Table { ambients: [0; 64], orders: [0; 64], names: [0; 64], suspects: 0 }
    }

    /// The table in 1,544 bytes.
    pub fn read(bytes: &[u8]) -> Table {
        Table {
            ambients: std::array::from_fn(|k| word(bytes, 2 * k)),
            orders: std::array::from_fn(|k| word(bytes, 2 * k + 1)),
            names: std::array::from_fn(|k| word(bytes, 128 + k)),
            suspects: word(bytes, 192),
        }
    }

    fn write(&self, bytes: &mut [u8]) {
        let rows = self.ambients.iter().zip(&self.orders).flat_map(|(&ambients, &orders)| [ambients, orders]);
        let words = rows.chain(self.names).chain([self.suspects]);
        for (eight, word) in bytes.chunks_exact_mut(8).zip(words) {
            eight.copy_from_slice(&word.to_le_bytes());
        }
    }

    pub fn count(&self) -> u32 {
        let words = self.ambients.iter().chain(&self.orders).chain(&self.names);
        words.map(|word| word.count_ones()).sum::<u32>() + self.suspects.count_ones()
    }

    fn has(&self, outer: u8, label: u8) -> bool {
        let row = if label < 64 { &self.ambients } else { &self.orders };
        row[usize::from(outer)] >> (label % 64) & 1 == 1
    }

    /// What itinerary and policy ask for by themselves.
    fn base(itinerary: &[u8], policy: &[u8]) -> Table {
        let mut table = Table::empty();
        table.suspects = highs(policy);
        let labels = nearest_labels(itinerary);
        for record in records(itinerary).filter(|record| (AMBIENT..=OPEN).contains(&record.kind)) {
            let outer = usize::from(labels[usize::from(record.parent)]);
            if record.kind == AMBIENT {
                table.ambients[outer] |= 1 << record.label;
                table.names[usize::from(record.label)] |= 1 << record.name;
            } else {
                table.orders[outer] |= 1 << (record.label - 64);
            }
        }
        table
    }

    /// The labels that each kind and label of capability may act on, of all the itineraries.
    fn partners(&self, itineraries: &[&[u8]]) -> Partners {
        let bearers = transposed(&self.names);
        let mut partners = [[0; 64]; 3];
        let all = itineraries.iter().flat_map(|itinerary| records(itinerary));
        for record in all.filter(|record| (IN..=OPEN).contains(&record.kind)) {
            partners[usize::from(record.kind - IN)][usize::from(record.label - 64)] |=
                bearers[usize::from(record.name)];
        }
        partners
    }

    /// Whether all records may stand where they stand and bear their names.
    fn nests(&self, itinerary: &[u8]) -> bool {
        let labels = nearest_labels(itinerary);
        records(itinerary).filter(|record| (AMBIENT..=OPEN).contains(&record.kind)).all(|record| {
            let named =
                record.kind != AMBIENT || self.names[usize::from(record.label)] >> record.name & 1 == 1;
            named && self.has(labels[usize::from(record.parent)], record.label)
        })
    }

    pub fn holds(&self, itineraries: &[&[u8]], policy: &[u8]) -> bool {
        if highs(policy) & !self.suspects != 0 || !itineraries.iter().all(|itinerary| self.nests(itinerary)) {
            return false;
        }
        self.rules_hold(&self.partners(itineraries))
    }
}

/// The high labels.
fn highs(policy: &[u8]) -> u64 {
    policy.iter().enumerate().fold(0, |found, (label, &class)| found | u64::from(class == HIGH) << label)
}

pub fn is_policy(policy: &[u8]) -> bool {
    policy.len() == 64 && policy[0] == 0 && policy.iter().all(|&class| class <= BOUNDARY)
}

/// Whether refusal 8 passes a table.
pub fn is_formed(table: &[u8]) -> bool {
    table.len() == TABLE_LENGTH
        && table[..1024].iter().step_by(16).all(|byte| byte & 1 == 0)
        && table[1024..1032].iter().all(|&byte| byte == 0)
}

fn accept(itinerary: &[u8], policy: &[u8], table: &[u8]) -> Result<Table, Refusal> {
    validate(itinerary)?;
    if !is_policy(policy) {
        return refuse(7);
    }
    if !is_formed(table) {
        return refuse(8);
    }
    let table = Table::read(table);
    if !table.holds(&[itinerary], policy) {
        return refuse(9);
    }
    Ok(table)
}

pub fn check(itinerary: &[u8], policy: &[u8], table: &[u8]) -> Result<(), Refusal> {
    accept(itinerary, policy, table).map(|_| ())
}

pub fn make(itinerary: &[u8], policy: &[u8], table: &mut [u8]) -> Result<u32, Refusal> {
    validate(itinerary)?;
    if !is_policy(policy) {
        return refuse(7);
    }
    if table.len() != TABLE_LENGTH {
        return refuse(8);
    }
    let mut least = Table::base(itinerary, policy);
    least.close(&least.partners(&[itinerary]));
    least.write(table);
    Ok(least.count())
}

/// How many passes the maker needs.
pub fn passes(itinerary: &[u8], policy: &[u8]) -> usize {
    let mut least = Table::base(itinerary, policy);
    least.close(&least.partners(&[itinerary]))
}

/// Adds the labels that may stand directly in x.
fn with_row(table: &Table, x: usize, reached: &mut [bool; 64]) {
    for (k, found) in reached.iter_mut().enumerate() {
        *found |= table.ambients[x] >> k & 1 == 1;
    }
}

/// The labels reached from the environment: each goes one step on, once.
fn reached(table: &Table, policy: &[u8]) -> [bool; 64] {
    let mut reached = [false; 64];
    let mut seen = [false; 64];
    reached[0] = true;
    while let Some(x) = (0..64).find(|&x| reached[x] && !seen[x]) {
        seen[x] = true;
        if policy[x] != BOUNDARY {
            with_row(table, x, &mut reached);
        }
    }
    reached
}

pub fn verdict(itinerary: &[u8], policy: &[u8], table: &[u8]) -> Result<Verdict, Refusal> {
    let table = accept(itinerary, policy, table)?;
    let reached = reached(&table, policy);
    let high = (0..64u8).find(|&k| reached[usize::from(k)] && policy[usize::from(k)] == HIGH);
    if let Some(label) = high {
        return Ok(Verdict::Exposed(label));
    }
    let hint = (0..64u8).find(|&k| reached[usize::from(k)] && table.suspects >> k & 1 == 1);
    Ok(hint.map_or(Verdict::Sealed, Verdict::Hinted))
}

/// Whether a high label is reached; the search ends with the first.
fn reaches_high(table: &Table, policy: &[u8]) -> bool {
    let high: [bool; 64] = std::array::from_fn(|k| policy[k] == HIGH);
    let mut reached = [false; 64];
    let mut seen = [false; 64];
    reached[0] = true;
    while let Some(x) = (0..64).find(|&x| reached[x] && !seen[x]) {
        seen[x] = true;
        if policy[x] != BOUNDARY {
            with_row(table, x, &mut reached);
        }
        if reached.iter().zip(&high).fold(false, |met, (&found, &high)| met | (found & high)) {
            return true;
        }
    }
    false
}

pub fn exposed(itinerary: &[u8], policy: &[u8], table: &[u8]) -> Result<bool, Refusal> {
    let table = accept(itinerary, policy, table)?;
    Ok(reaches_high(&table, policy))
}
