//! Itineraries as terms of Mobile Ambients, rewritten by the published rules:
//!
//! - in:   m[in n.P | Q] | n[R]  ->  n[m[P | Q] | R]
//! - out:  n[m[out n.P | Q] | R]  ->  m[P | Q] | n[R]
//! - open: open n.P | n[Q]  ->  P | Q
//!
//! and by their closure under parallel parts and inside ambients, never behind a
//! capability or a replication. Of the congruence !P = P | !P only one unfolding is known,
//! from left to right. Labels ride along. Nothing here knows of records, steps or copies but
//! the reading of an itinerary.

use crate::copies;
use crate::generate::scripts::{done_copy, done_step};
use crate::generate::trees::{tree, Mix};
use crate::law::Law;
use crate::random::Random;
use crate::record::{Itinerary, Kind, Record};
use crate::steps;
use std::collections::BTreeSet;

/// Parallel parts. Sorted all the way down, equal terms are equal values.
pub type Process = Vec<Part>;

#[derive(Clone, Debug, PartialEq, Eq, PartialOrd, Ord)]
pub enum Part {
    /// n[P]
    Ambient { label: u8, name: u8, inside: Process },
    /// M.P
    Prefix { kind: Kind, label: u8, name: u8, then: Process },
    /// !P
    Replication { of: Process },
}

/// The term of everything that has this parent, parallel parts sorted.
pub fn read(itinerary: &Itinerary, parent: u16) -> Process {
    let mut process = Process::new();
    for number in itinerary.numbers() {
        let record = itinerary.records[number as usize - 1];
        if record.kind == Kind::Gone || record.parent != parent {
            continue;
        }
        let (label, name, below) = (record.label, record.name, read(itinerary, number));
        process.push(match record.kind {
            Kind::Ambient => Part::Ambient { label, name, inside: below },
            Kind::Copier => Part::Replication { of: below },
            kind => Part::Prefix { kind, label, name, then: below },
        });
    }
    sorted(process)
}

fn sorted(mut process: Process) -> Process {
    for part in &mut process {
        match part {
            Part::Ambient { inside, .. } => *inside = sorted(std::mem::take(inside)),
            Part::Prefix { then, .. } => *then = sorted(std::mem::take(then)),
            Part::Replication { of } => *of = sorted(std::mem::take(of)),
        }
    }
    process.sort();
    process
}

/// The parts but the one at that place.
fn without(process: &[Part], place: usize) -> Process {
    let mut rest = process.to_vec();
    rest.remove(place);
    rest
}

/// Every way to pick one prefix of that kind: its target, what follows it, and the
/// rest.
fn prefixes(process: &[Part], wanted: Kind) -> Vec<(u8, Process, Process)> {
    let mut found = Vec::new();
    for (place, part) in process.iter().enumerate() {
        if let Part::Prefix { kind, name, then, .. } = part {
            if *kind == wanted {
                found.push((*name, then.clone(), without(process, place)));
            }
        }
    }
    found
}

/// Every way to pick one ambient: its label, name and inside, and the rest.
fn ambients(process: &[Part]) -> Vec<(u8, u8, Process, Process)> {
    let mut found = Vec::new();
    for (place, part) in process.iter().enumerate() {
        if let Part::Ambient { label, name, inside } = part {
            found.push((*label, *name, inside.clone(), without(process, place)));
        }
    }
    found
}

fn ambient(label: u8, name: u8, inside: Process) -> Part {
    Part::Ambient { label, name, inside }
}

/// Every process that this one becomes by one reduction.
pub fn reducts(process: &[Part]) -> BTreeSet<Process> {
    let mut all = Vec::new();
    by_in(process, &mut all);
    by_out(process, &mut all);
    by_open(process, &mut all);
    for (label, name, inside, rest) in ambients(process) {
        for less in reducts(&inside) {
            all.push([rest.clone(), vec![ambient(label, name, less)]].concat());
        }
    }
    all.into_iter().map(sorted).collect()
}

fn by_in(process: &[Part], all: &mut Vec<Process>) {
    for (m_label, m, inside, others) in ambients(process) {
        for (target, p, q) in prefixes(&inside, Kind::In) {
            for (n_label, n, r, rest) in ambients(&others) {
                if n == target {
                    let moved = ambient(m_label, m, [p.clone(), q.clone()].concat());
                    let entered = ambient(n_label, n, [vec![moved], r].concat());
                    all.push([vec![entered], rest].concat());
                }
            }
        }
    }
}

fn by_out(process: &[Part], all: &mut Vec<Process>) {
    for (n_label, n, inside, rest) in ambients(process) {
        for (m_label, m, inner, r) in ambients(&inside) {
            for (target, p, q) in prefixes(&inner, Kind::Out) {
                if n == target {
                    let moved = ambient(m_label, m, [p, q].concat());
                    let left = ambient(n_label, n, r.clone());
                    all.push([vec![moved, left], rest.clone()].concat());
                }
            }
        }
    }
}

fn by_open(process: &[Part], all: &mut Vec<Process>) {
    for (target, p, others) in prefixes(process, Kind::Open) {
        for (_, n, q, rest) in ambients(&others) {
            if n == target {
                all.push([p.clone(), q, rest].concat());
            }
        }
    }
}

/// Every process that this one becomes when one !P, with nothing but ambients around it, is unfolded to P | !P.
pub fn unfoldings(process: &[Part]) -> BTreeSet<Process> {
    let mut all = Vec::new();
    for part in process {
        if let Part::Replication { of } = part {
            all.push([process, of].concat());
        }
    }
    for (label, name, inside, rest) in ambients(process) {
        for more in unfoldings(&inside) {
            all.push([rest.clone(), vec![ambient(label, name, more)]].concat());
        }
    }
    all.into_iter().map(sorted).collect()
}

/// The terms of all itineraries that one copy makes of this one, with any number; there are gone records enough.
pub fn by_copies(itinerary: &Itinerary) -> BTreeSet<Process> {
    let mut roomy = itinerary.clone();
    roomy.records.extend(vec![Record::GONE; itinerary.count()]);
    let mut all = BTreeSet::new();
    for number in 0..=roomy.count() as u16 + 1 {
        let mut after = roomy.clone();
        if copies::copy(Law::Document, &mut after, number).is_ok() {
            all.insert(read(&after, 0));
        }
    }
    all
}

/// The terms of all itineraries that one step makes of this one, with any two
/// numbers as actor and partner, none left out.
pub fn by_steps(itinerary: &Itinerary) -> BTreeSet<Process> {
    let over = itinerary.count() as u16 + 1;
    let mut all = BTreeSet::new();
    for actor in 0..=over {
        for partner in 0..=over {
            let mut after = itinerary.clone();
            if steps::step(Law::Document, &mut after, actor, partner).is_ok() {
                all.insert(read(&after, 0));
            }
        }
    }
    all
}

/// What a comparison went through.
#[derive(Clone, Copy, Debug, Default)]
pub struct Compared {
    pub cases: usize,
    pub reducts: usize,
    pub with_some: usize,
    pub unfoldings: usize,
    pub different: usize,
}

/// What a step or a copy makes of the itinerary, if one is found.
fn next(random: &mut Random, itinerary: &Itinerary) -> Option<Itinerary> {
    let mut after = itinerary.clone();
    if random.chance(30) {
        if let Some(number) = done_copy(random, itinerary) {
            let _ = copies::copy(Law::Document, &mut after, number);
            return Some(after);
        }
    }
    let (actor, partner) = done_step(random, itinerary)?;
    let _ = steps::step(Law::Document, &mut after, actor, partner);
    Some(after)
}

/// Compares both sets of reducts, and both of unfoldings, on that many itineraries: random ones, and what
/// they become while steps and copies are done.
pub fn compare(seed: u64, count: u64) -> Compared {
    let mut random = Random::new(seed);
    let mut compared = Compared::default();
    let mut itinerary = Itinerary { records: Vec::new() };
    for _ in 0..count {
        itinerary = next(&mut random, &itinerary).unwrap_or_else(|| {
            let mix = if random.chance(80) { Mix::lively(&mut random) } else { Mix::small(&mut random) };
            tree(&mut random, &mix)
        });
        let term = read(&itinerary, 0);
        let (published, stepped) = (reducts(&term), by_steps(&itinerary));
        let (unfolded, copied) = (unfoldings(&term), by_copies(&itinerary));
        compared.cases += 1;
        compared.reducts += published.len();
        compared.with_some += usize::from(!published.is_empty());
        compared.unfoldings += unfolded.len();
        compared.different += usize::from(published != stepped || unfolded != copied);
    }
    compared
}
