//! The table of 1,544 bytes, when it holds, the least one, and what it says.

use crate::law::Law;
use crate::record::{Itinerary, Kind};
use std::collections::BTreeSet;

pub const TABLE_LENGTH: usize = 1544;
pub const POLICY_LENGTH: usize = 64;
pub const ROW_LENGTH: usize = 16;

/// First bit of I, of H and of S, counted through the whole table.
pub const I_START: usize = 0;
pub const H_START: usize = 1024 * 8;
pub const S_START: usize = 1536 * 8;

pub type Policy = [u8; POLICY_LENGTH];
pub const LOW: u8 = 0;
pub const HIGH: u8 = 1;
pub const BOUNDARY: u8 = 2;

#[derive(Clone, Debug, PartialEq, Eq)]
pub struct Table {
    pub bytes: [u8; TABLE_LENGTH],
}

pub fn i_bit(outer: u8, inner: u8) -> usize {
    I_START + outer as usize * 128 + inner as usize
}

pub fn h_bit(label: u8, name: u8) -> usize {
    H_START + label as usize * 64 + name as usize
}

pub fn s_bit(label: u8) -> usize {
    S_START + label as usize
}

impl Table {
    pub fn empty() -> Table {
        Table { bytes: [0; TABLE_LENGTH] }
    }

    /// None unless it is 1,544 bytes long.
    pub fn read(bytes: &[u8]) -> Option<Table> {
        bytes.try_into().ok().map(|bytes| Table { bytes })
    }

    pub fn has(&self, bit: usize) -> bool {
        self.bytes[bit / 8] & (1 << (bit % 8)) != 0
    }

    pub fn set(&mut self, bit: usize) {
        self.bytes[bit / 8] |= 1 << (bit % 8);
    }

    /// (outer, inner) is in I.
    pub fn inside(&self, outer: u8, inner: u8) -> bool {
        self.has(i_bit(outer, inner))
    }

    /// (label, name) is in H.
    pub fn bears(&self, label: u8, name: u8) -> bool {
        self.has(h_bit(label, name))
    }

    pub fn suspect(&self, label: u8) -> bool {
        self.has(s_bit(label))
    }

    /// No label stands in it as 0, and the environment bears no name.
    pub fn is_formed(&self) -> bool {
        (0..64).all(|row| !self.inside(row, 0)) && (0..64).all(|name| !self.bears(0, name))
    }

    pub fn bits(&self) -> Vec<usize> {
        (0..TABLE_LENGTH * 8).filter(|&bit| self.has(bit)).collect()
    }

    pub fn ones(&self) -> u16 {
        self.bits().len() as u16
    }
}

/// The capabilities of some itineraries as the rules see them, each once.
type Orders = BTreeSet<(Kind, u8, u8)>;

fn orders(law: Law, itineraries: &[&Itinerary]) -> Orders {
    let mut orders = Orders::new();
    for itinerary in itineraries {
        for number in itinerary.numbers() {
            let record = itinerary.records[number as usize - 1];
            let passed_over = law == Law::OnlyActiveCapabilities && !itinerary.is_under_ambients(number);
            if record.kind.is_capability() && !passed_over {
                orders.insert((record.kind, record.label, record.name));
            }
        }
    }
    orders
}

/// What must be in the table without any rule: nesting, names, high labels.
fn add_starting_bits(law: Law, itineraries: &[&Itinerary], policy: &Policy, table: &mut Table) {
    for itinerary in itineraries {
        for number in itinerary.numbers() {
            let record = itinerary.records[number as usize - 1];
            let nests = record.kind == Kind::Ambient || record.kind.is_capability();
            if nests || record.kind == Kind::Copier && law == Law::CopiersNest {
                table.set(i_bit(itinerary.container(law, number), record.label));
            }
            if record.kind == Kind::Ambient {
                table.set(h_bit(record.label, record.name));
            }
        }
    }
    for label in 0..64u8 {
        if policy[label as usize] == HIGH {
            table.set(s_bit(label));
        }
    }
}

fn add_by_in(law: Law, t: u8, n: u8, table: &mut Table) {
    for b in 0..64 {
        if !table.bears(b, n) {
            continue;
        }
        for a in 0..64 {
            if !table.inside(a, t) || !law.looks_at(a, b) {
                continue;
            }
            for p in law.outer_labels() {
                if table.inside(p, a) && table.inside(p, b) {
                    table.set(i_bit(b, a));
                    if law != Law::NoSuspectIn && table.suspect(b) {
                        table.set(s_bit(a));
                    }
                }
            }
        }
    }
}

fn add_by_out(law: Law, t: u8, n: u8, table: &mut Table) {
    for b in 0..64 {
        if !table.bears(b, n) {
            continue;
        }
        for a in 0..64 {
            if !table.inside(a, t) || !law.looks_at(a, b) {
                continue;
            }
            for p in law.outer_labels() {
                if table.inside(b, a) && table.inside(p, b) {
                    table.set(i_bit(p, a));
                    if law != Law::NoSuspectOut && table.suspect(b) {
                        table.set(s_bit(a));
                    }
                }
            }
        }
    }
}

fn add_by_open(law: Law, t: u8, n: u8, table: &mut Table) {
    for b in 0..64 {
        if !table.bears(b, n) {
            continue;
        }
        for p in law.outer_labels() {
            if !table.inside(p, t) || !table.inside(p, b) {
                continue;
            }
            for k in law.opened_labels() {
                if table.inside(b, k) {
                    table.set(i_bit(p, k));
                }
            }
            if law != Law::NoSuspectOpen && table.suspect(b) {
                table.set(s_bit(p));
            }
        }
    }
}

/// Adds what every rule concludes from the table, each rule looked at once.
fn add_by_rules(law: Law, orders: &Orders, table: &mut Table) {
    for &(kind, label, name) in orders {
        match kind {
            Kind::In => add_by_in(law, label, name, table),
            Kind::Out => add_by_out(law, label, name, table),
            Kind::Open => add_by_open(law, label, name, table),
            Kind::Gone | Kind::Ambient | Kind::Copier => {}
        }
    }
}

/// The table holds exactly when starting bits and rules add nothing to it.
pub fn holds(law: Law, itinerary: &Itinerary, policy: &Policy, table: &Table) -> bool {
    let mut more = table.clone();
    add_starting_bits(law, &[itinerary], policy, &mut more);
    add_by_rules(law, &orders(law, &[itinerary]), &mut more);
    more == *table
}

/// The least table above `start` that holds for all of these itineraries.
pub fn close(law: Law, itineraries: &[&Itinerary], policy: &Policy, start: &Table) -> Table {
    let orders = orders(law, itineraries);
    let mut table = start.clone();
    add_starting_bits(law, itineraries, policy, &mut table);
    loop {
        let before = table.clone();
        add_by_rules(law, &orders, &mut table);
        if table == before {
            return table;
        }
    }
}

/// The least table that holds for all of these itineraries.
pub fn least(law: Law, itineraries: &[&Itinerary], policy: &Policy) -> Table {
    close(law, itineraries, policy, &Table::empty())
}

#[derive(Clone, Copy, Debug, PartialEq, Eq)]
pub enum Verdict {
    Exposed(u8),
    Hinted(u8),
    Sealed,
}

impl Verdict {
    /// Code and label as the replay files and the screen number them.
    pub fn numbers(self) -> (u16, u16) {
        match self {
            Verdict::Exposed(label) => (1, label as u16),
            Verdict::Hinted(label) => (2, label as u16),
            Verdict::Sealed => (3, 0),
        }
    }
}

/// R: grows until no label can be added.
pub fn reached(policy: &Policy, table: &Table) -> [bool; 64] {
    let mut reached = [false; 64];
    reached[0] = true;
    loop {
        let before = reached;
        for x in 0..64u8 {
            if !reached[x as usize] || policy[x as usize] == BOUNDARY {
                continue;
            }
            for k in (1..64u8).filter(|&k| table.inside(x, k)) {
                reached[k as usize] = true;
            }
        }
        if reached == before {
            return reached;
        }
    }
}

pub fn verdict(policy: &Policy, table: &Table) -> Verdict {
    let reached = reached(policy, table);
    let lowest = |wanted: &dyn Fn(u8) -> bool| (0..64u8).find(|&k| reached[k as usize] && wanted(k));
    if let Some(label) = lowest(&|k| policy[k as usize] == HIGH) {
        return Verdict::Exposed(label);
    }
    match lowest(&|k| table.suspect(k)) {
        Some(label) => Verdict::Hinted(label),
        None => Verdict::Sealed,
    }
}

/// Whether a high label is in R. R grows one label at a time, and the search ends
/// with the first high one; what R and S have in common is not asked.
pub fn exposed(policy: &Policy, table: &Table) -> bool {
    let mut reached = BTreeSet::from([0u8]);
    let mut not_looked_into = vec![0u8];
    while let Some(x) = not_looked_into.pop() {
        if policy[x as usize] == BOUNDARY {
            continue;
        }
        for k in 1..64u8 {
            if !table.inside(x, k) || !reached.insert(k) {
                continue;
            }
            if policy[k as usize] == HIGH {
                return true;
            }
            not_looked_into.push(k);
        }
    }
    false
}

/// The number of the nearest boundary ambient above the record, 0 if there is none.
pub fn boundary_above(itinerary: &Itinerary, policy: &Policy, number: u16) -> u16 {
    for above in itinerary.above(number) {
        let record = itinerary.records[above as usize - 1];
        if record.kind == Kind::Ambient && policy[record.label as usize] == BOUNDARY {
            return above;
        }
    }
    0
}

/// Whether the record, or one above it, is a suspect ambient.
pub fn hidden(itinerary: &Itinerary, table: &Table, number: u16) -> bool {
    let suspect = |number: u16| {
        let record = itinerary.get(number);
        record.is_some_and(|record| record.kind == Kind::Ambient && table.suspect(record.label))
    };
    suspect(number) || itinerary.above(number).into_iter().any(suspect)
}

/// The observer's sheet; a gone record is all zero anyway.
pub fn sheet(itinerary: &Itinerary, table: &Table) -> Vec<u8> {
    let part = |number: u16| match hidden(itinerary, table, number) {
        true => [0; 8],
        false => itinerary.records[number as usize - 1].bytes(),
    };
    itinerary.numbers().flat_map(part).collect()
}
