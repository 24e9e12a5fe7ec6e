//! Itinerary records: reading with refusals 1 to 6, climbing, writing, joining.

use crate::answer::{refuse, Refusal};
use crate::law::Law;
use std::ops::RangeInclusive;

pub const RECORD_LENGTH: usize = 8;
pub const MOST_RECORDS: usize = 1024;
/// The last client number; 0 is one too.
pub const LAST_CLIENT: u16 = 999;

#[derive(Clone, Copy, Debug, PartialEq, Eq, PartialOrd, Ord)]
pub enum Kind {
    Gone,
    Ambient,
    In,
    Out,
    Open,
    Copier,
}

impl Kind {
    pub const ALL: [Kind; 6] = [Kind::Gone, Kind::Ambient, Kind::In, Kind::Out, Kind::Open, Kind::Copier];
    pub const LAST: u8 = Kind::Copier as u8;

    /// The labels that a record of that kind may have; a gone record has none.
    pub fn labels(self) -> RangeInclusive<u8> {
        match self {
            Kind::Ambient => 1..=63,
            Kind::In | Kind::Out | Kind::Open => 64..=127,
            Kind::Gone | Kind::Copier => 0..=0,
        }
    }

    /// The same for names.
    pub fn names(self) -> RangeInclusive<u8> {
        match self {
            Kind::Gone | Kind::Copier => 0..=0,
            _ => 0..=63,
        }
    }

    pub fn is_capability(self) -> bool {
        matches!(self, Kind::In | Kind::Out | Kind::Open)
    }
}

#[derive(Clone, Copy, Debug, PartialEq, Eq)]
pub struct Record {
    pub kind: Kind,
    pub label: u8,
    pub name: u8,
    pub parent: u16,
    pub client: u16,
}

impl Record {
    pub const GONE: Record = Record { kind: Kind::Gone, label: 0, name: 0, parent: 0, client: 0 };

    pub fn bytes(&self) -> [u8; RECORD_LENGTH] {
        let (parent, client) = (self.parent.to_le_bytes(), self.client.to_le_bytes());
        [self.kind as u8, self.label, self.name, 0, parent[0], parent[1], client[0], client[1]]
    }

    /// The meaning of eight bytes that are known to have no fault.
    fn of_bytes(bytes: &[u8]) -> Record {
        Record {
            kind: Kind::ALL[bytes[0] as usize],
            label: bytes[1],
            name: bytes[2],
            parent: parent_of(bytes),
            client: client_of(bytes),
        }
    }
}

fn parent_of(bytes: &[u8]) -> u16 {
    u16::from_le_bytes([bytes[4], bytes[5]])
}

fn client_of(bytes: &[u8]) -> u16 {
    u16::from_le_bytes([bytes[6], bytes[7]])
}

/// Records that passed 1 to 6. Record number k is `records[k - 1]`.
#[derive(Clone, Debug, PartialEq, Eq)]
pub struct Itinerary {
    pub records: Vec<Record>,
}

impl Itinerary {
    /// Reads an itinerary, or gives the first of refusals 1 to 6.
    pub fn read(bytes: &[u8]) -> Result<Itinerary, Refusal> {
        if bytes.len() % RECORD_LENGTH != 0 || bytes.len() > RECORD_LENGTH * MOST_RECORDS {
            return refuse(1);
        }
        let count = bytes.len() / RECORD_LENGTH;
        for number in 1..=count {
            if let Some(fault) = record_fault(bytes, number) {
                return Err(Refusal { number: fault, record: number as u16 });
            }
        }
        let records = bytes.chunks(RECORD_LENGTH).map(Record::of_bytes).collect();
        let itinerary = Itinerary { records };
        match itinerary.numbers().find(|&number| !itinerary.reaches_environment(number)) {
            Some(record) => Err(Refusal { number: 6, record }),
            None => Ok(itinerary),
        }
    }

    pub fn bytes(&self) -> Vec<u8> {
        self.records.iter().flat_map(Record::bytes).collect()
    }

    /// The same with client 0 on every record.
    pub fn without_clients(&self) -> Itinerary {
        let one = |record: &Record| Record { client: 0, ..*record };
        Itinerary { records: self.records.iter().map(one).collect() }
    }

    pub fn count(&self) -> usize {
        self.records.len()
    }

    /// All record numbers, from 1 up.
    pub fn numbers(&self) -> RangeInclusive<u16> {
        1..=self.count() as u16
    }

    /// The record of that number; none for 0 and over the count.
    pub fn get(&self, number: u16) -> Option<&Record> {
        self.records.get((number as usize).checked_sub(1)?)
    }

    pub fn get_mut(&mut self, number: u16) -> Option<&mut Record> {
        self.records.get_mut((number as usize).checked_sub(1)?)
    }

    pub fn is(&self, kind: Kind, number: u16) -> bool {
        self.get(number).is_some_and(|record| record.kind == kind)
    }

    pub fn is_ambient(&self, number: u16) -> bool {
        self.is(Kind::Ambient, number)
    }

    pub fn standing(&self) -> usize {
        self.records.iter().filter(|record| record.kind != Kind::Gone).count()
    }

    /// Climbs as often as there are records and says whether 0 was reached.
    fn reaches_environment(&self, number: u16) -> bool {
        let mut at = number;
        for _ in 0..self.count() {
            if at == 0 {
                break;
            }
            at = self.get(at).map_or(0, |record| record.parent);
        }
        at == 0
    }

    /// The record's parent, unless that is the environment.
    fn parent(&self, number: u16) -> Option<u16> {
        self.get(number).map(|record| record.parent).filter(|&parent| parent != 0)
    }

    /// The numbers of the records above, nearest first, the environment left out.
    pub fn upward(&self, number: u16) -> impl Iterator<Item = u16> + '_ {
        std::iter::successors(self.parent(number), |&at| self.parent(at))
    }

    pub fn above(&self, number: u16) -> Vec<u16> {
        self.upward(number).collect()
    }

    /// Whether all records above are ambients; a capability or a copier is then active.
    pub fn is_under_ambients(&self, number: u16) -> bool {
        self.upward(number).all(|above| self.is_ambient(above))
    }

    /// The label of the nearest ambient above, or 0.
    pub fn container(&self, law: Law, number: u16) -> u8 {
        let stops = |higher: &u16| {
            self.is_ambient(*higher) || law == Law::ContainersStopAtCopiers && self.is(Kind::Copier, *higher)
        };
        self.upward(number).find(stops).and_then(|found| self.get(found)).map_or(0, |record| record.label)
    }
}

/// Itineraries joined: their records one after another, with the earlier record count added to each parent that is
/// not 0.
pub fn join(itineraries: &[Itinerary]) -> Itinerary {
    let mut records: Vec<Record> = Vec::new();
    for itinerary in itineraries {
        let earlier = records.len() as u16;
        for record in &itinerary.records {
            let parent = if record.parent == 0 { 0 } else { record.parent + earlier };
            records.push(Record { parent, ..*record });
        }
    }
    Itinerary { records }
}

/// The first of faults 2 to 5 that the record has, looking at nothing but bytes.
fn record_fault(all: &[u8], number: usize) -> Option<u8> {
    let count = all.len() / RECORD_LENGTH;
    let record = |number: usize| &all[(number - 1) * RECORD_LENGTH..number * RECORD_LENGTH];
    let bytes = record(number);
    if bytes[0] > Kind::LAST || bytes[3] != 0 || client_of(bytes) > LAST_CLIENT {
        return Some(2);
    }
    let kind = Kind::ALL[bytes[0] as usize];
    if kind == Kind::Gone {
        // A gone record has no client, and no label, name or parent that 3 to 5 could be about.
        return if bytes.iter().any(|&byte| byte != 0) { Some(2) } else { None };
    }
    if !kind.labels().contains(&bytes[1]) {
        return Some(3);
    }
    if !kind.names().contains(&bytes[2]) {
        return Some(4);
    }
    let parent = parent_of(bytes) as usize;
    if parent > count || (parent != 0 && record(parent)[0] == 0) {
        return Some(5);
    }
    None
}
