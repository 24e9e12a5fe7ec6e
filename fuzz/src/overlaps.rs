//! Buffers that are read only and overlap: one is a part of another, and both are such that calls can be done.

use crate::buffers::{Buffer, Buffers, Overlap};
use crate::families::Family;
use simulator::generate::clients;
use simulator::generate::tables;
use simulator::law::Law;
use simulator::random::Random;
use simulator::record::{Itinerary, Kind, Record};
use simulator::table::{least, BOUNDARY, LOW, POLICY_LENGTH, TABLE_LENGTH};
use std::ops::RangeInclusive;

/// Where H starts behind its row 0: any bytes may stand there up to S.
const FREE: std::ops::Range<usize> = 1032..1536;

/// A place in the bytes that has the form of a policy, most of the time; else any.
fn policy_place(random: &mut Random, bytes: &[u8]) -> Option<usize> {
    let last = bytes.len().checked_sub(POLICY_LENGTH)?;
    let formed = |at: &usize| {
        let part = &bytes[*at..*at + POLICY_LENGTH];
        part[0] == LOW && part.iter().all(|&class| class <= BOUNDARY)
    };
    let places: Vec<usize> = (0..=last).filter(formed).collect();
    match random.choose(&places) {
        Some(place) if random.chance(85) => Some(place),
        _ => Some(random.between(0, last)),
    }
}

/// Records whose first 1,544 bytes have the form of a table: no odd number below 193 has an odd kind, 129 is gone.
fn like_table(random: &mut Random) -> Itinerary {
    let count = random.between(193, 260);
    let mut records: Vec<Record> = Vec::new();
    for number in 1..=count {
        let earlier = random.between(0, number - 1);
        let parent = match records.get(earlier.wrapping_sub(1)) {
            Some(record) if record.kind != Kind::Gone => earlier as u16,
            _ => 0,
        };
        let kind = match number {
            129 => Kind::Gone,
            _ if number % 2 == 1 && number < 193 => random.pick(&[Kind::Gone, Kind::In, Kind::Open]),
            _ => random.pick(&[Kind::Ambient, Kind::Ambient, Kind::Ambient, Kind::Out, Kind::Copier]),
        };
        let mut within =
            |range: RangeInclusive<u8>| random.between((*range.start()).into(), (*range.end()).into()) as u8;
        let (label, name) = (within(kind.labels()), within(kind.names()));
        records.push(match kind {
            Kind::Gone => Record::GONE,
            _ => Record { kind, label, name, parent, client: clients::draw(random, 50) },
        });
    }
    Itinerary { records }
}

/// A formed table with an itinerary in its H.
fn with_itinerary(random: &mut Random, itinerary: &[u8]) -> (Vec<u8>, Overlap) {
    let mut table =
        if random.chance(50) { vec![0; TABLE_LENGTH] } else { tables::noise(random).bytes.to_vec() };
    let length = itinerary.len().min(FREE.len()) / 8 * 8;
    let at = random.between(FREE.start, FREE.end - length);
    table[at..at + length].copy_from_slice(&itinerary[..length]);
    (table, Overlap { inner: Buffer::Itinerary, outer: Buffer::Table, at, length })
}

/// Bytes that are classes.
fn classes(random: &mut Random, length: usize) -> Vec<u8> {
    let mut classes: Vec<u8> = (0..length).map(|_| random.pick(&[0, 0, 0, 1, 2])).collect();
    classes.iter_mut().step_by(8).for_each(|class| *class = LOW);
    classes
}

/// A policy in what the family says; zeros serve as one.
fn policy_inside(random: &mut Random, family: Family, buffers: &mut Buffers) -> Option<Overlap> {
    let outer = match family {
        Family::PolicyInTable => {
            let policy = [LOW; POLICY_LENGTH];
            if let Ok(itinerary) = Itinerary::read(&buffers.itinerary) {
                buffers.table = least(Law::Document, &[&itinerary], &policy).bytes.to_vec();
            }
            Buffer::Table
        }
        Family::PolicyInItinerary => {
            // Gone records behind the others.
            let length = buffers.itinerary.len().next_multiple_of(8) + 8 * random.between(8, 12);
            buffers.itinerary.resize(length, 0);
            Buffer::Itinerary
        }
        Family::PolicyInMember => {
            let length = buffers.fourth.len().next_multiple_of(8) + 8 * random.between(8, 12);
            buffers.fourth.resize(length, 0);
            Buffer::Fourth
        }
        _ => {
            let steps = random.between(16, 40);
            (buffers.script, buffers.answers) = (classes(random, 4 * steps), vec![random.byte(); steps]);
            Buffer::Script
        }
    };
    let at = policy_place(random, buffers.get(outer))?;
    Some(Overlap { inner: Buffer::Policy, outer, at, length: POLICY_LENGTH })
}

/// Changes the buffers to those of the family, and says how they overlap.
pub fn overlap(random: &mut Random, family: Family, buffers: &mut Buffers) -> Option<Overlap> {
    match family {
        Family::PolicyInTable
        | Family::PolicyInItinerary
        | Family::PolicyInScript
        | Family::PolicyInMember => policy_inside(random, family, buffers),
        Family::MemberInMember => {
            // The whole first member, or records of it.
            let count = buffers.itinerary.len() / 8;
            let first = if random.chance(80) { 0 } else { random.below(count + 1) };
            let length =
                if first == 0 { buffers.itinerary.len() } else { 8 * random.below(count - first + 1) };
            Some(Overlap { inner: Buffer::Second, outer: Buffer::Itinerary, at: 8 * first, length })
        }
        Family::TableInItinerary => {
            buffers.itinerary = like_table(random).bytes();
            buffers.sheet.resize(buffers.itinerary.len(), 7);
            let at = if random.chance(85) { 0 } else { random.between(0, 8) };
            Some(Overlap { inner: Buffer::Table, outer: Buffer::Itinerary, at, length: TABLE_LENGTH })
        }
        Family::ItineraryInTable => {
            let (table, overlap) = with_itinerary(random, &buffers.itinerary);
            buffers.table = table;
            buffers.sheet.resize(overlap.length, 7);
            Some(overlap)
        }
        Family::ScriptInPolicy => {
            buffers.policy = classes(random, POLICY_LENGTH);
            let steps = random.between(0, 16);
            buffers.answers = vec![random.byte(); steps];
            let at = random.between(0, POLICY_LENGTH - 4 * steps);
            Some(Overlap { inner: Buffer::Script, outer: Buffer::Policy, at, length: 4 * steps })
        }
        _ => None,
    }
}
