//! The inputs of the rows.

use crate::timing::TURN;
use birnsket::TABLE_LENGTH;
use simulator::generate::clients;
use simulator::generate::examples::{far_down, runs};
use simulator::generate::policies;
use simulator::generate::sets::Set;
use simulator::generate::trees::{beneath_a_copier, chain, shuffled, tree, Links, Mix};
use simulator::random::Random;
use simulator::record::{join, Itinerary, Kind, Record, MOST_RECORDS};

/// What a row lends to the calls.
#[derive(Clone, Debug, PartialEq, Eq)]
pub struct Lent {
    pub itinerary: Vec<u8>,
    pub policy: Vec<u8>,
    pub table: Vec<u8>,
    pub script: Vec<u8>,
    pub answers: Vec<u8>,
    pub sheet: Vec<u8>,
    pub list: Vec<u8>,
    /// The members of a set beside the itinerary, the buffer for them all, and what they are joined.
    pub others: [Vec<u8>; 3],
    pub joined: Vec<u8>,
    pub whole: Vec<u8>,
    /// A record number, or the actor of a step.
    pub number: u16,
    pub partner: u16,
}

/// Members, policy, table and buffer.
pub type LentSet<'a> = ([&'a [u8]; 4], &'a [u8], &'a [u8], &'a mut [u8]);

impl Lent {
    /// The itinerary with the usual policy and its least table.
    fn of(itinerary: &Itinerary) -> Lent {
        Lent::under(&itinerary.bytes(), &policies::usual())
    }

    /// The itinerary with that policy and its least table.
    pub fn under(itinerary: &[u8], policy: &[u8]) -> Lent {
        let mut table = vec![0; TABLE_LENGTH];
        birnsket::make(itinerary, policy, &mut table).expect("a good itinerary");
        Lent::bare(itinerary, policy, table)
    }

    /// A set with the usual policy and the least table of what it is joined.
    pub fn joining(set: &Set) -> Lent {
        let joined = join(set);
        let [first, second, third, fourth] = set.each_ref().map(Itinerary::bytes);
        let (others, whole) = ([second, third, fourth], joined.bytes());
        Lent {
            itinerary: first,
            sheet: vec![],
            others,
            joined: vec![0; whole.len()],
            whole,
            ..Lent::of(&joined)
        }
    }

    /// What a join is lent.
    pub fn set(&mut self) -> LentSet<'_> {
        let Lent { itinerary, others: [second, third, fourth], policy, table, joined, .. } = self;
        ([itinerary, second, third, fourth], policy, table, joined)
    }

    /// No script, and no record named; the itinerary is the only one of its set.
    pub fn bare(itinerary: &[u8], policy: &[u8], table: Vec<u8>) -> Lent {
        let (itinerary, policy) = (itinerary.to_vec(), policy.to_vec());
        let sheet = vec![0; itinerary.len()];
        let (joined, whole) = (sheet.clone(), itinerary.clone());
        Lent {
            itinerary,
            policy,
            table,
            script: vec![],
            answers: vec![],
            sheet,
            list: vec![],
            others: [const { Vec::new() }; 3],
            joined,
            whole,
            number: 0,
            partner: 0,
        }
    }

    /// With a list buffer that is just long enough.
    pub fn with_list(mut self) -> Lent {
        let done = simulator::moves(&self.itinerary, &mut vec![0; LONGEST_LIST]).values[0];
        self.list = vec![0; 4 * done as usize];
        self
    }

    pub fn about(mut self, number: u16, partner: u16) -> Lent {
        (self.number, self.partner) = (number, partner);
        self
    }

    pub fn with_script(mut self, steps: impl Iterator<Item = (u16, u16)>) -> Lent {
        for (actor, partner) in steps {
            self.script.extend(actor.to_le_bytes());
            self.script.extend(partner.to_le_bytes());
        }
        self.answers = vec![0; self.script.len() / 4];
        self
    }
}

/// 262,144 pairs.
const LONGEST_LIST: usize = 1 << 20;

fn ambient(label: usize, name: u8, parent: usize) -> Record {
    Record { kind: Kind::Ambient, label: label as u8, name, parent: parent as u16, client: 0 }
}

fn order(kind: Kind, label: usize, name: u8, parent: usize) -> Record {
    Record { kind, label: label as u8, name, parent: parent as u16, client: 0 }
}

/// 1,024 ambients, each the parent of the next.
pub fn in_order() -> Lent {
    Lent::of(&chain(MOST_RECORDS, Links::Ambients, false))
}

/// The same with each the parent of the one before it: the first climb is the deepest.
pub fn reversed() -> Lent {
    Lent::of(&chain(MOST_RECORDS, Links::Ambients, true)).about(1, 1)
}

fn wide() -> Mix {
    Mix {
        records: MOST_RECORDS,
        gone: 0,
        capabilities: 50,
        top: 5,
        behind: 50,
        suited: 30,
        labels: 63,
        orders: 64,
        names: 64,
        clients: 0,
        copiers: 0,
    }
}

/// The same tree numbered from the environment on, each record after its parent.
fn in_file_order(itinerary: &Itinerary) -> Itinerary {
    let mut order = Vec::new();
    let mut open = vec![0];
    while let Some(at) = open.pop() {
        order.extend(Some(at).filter(|&at| at != 0));
        let inside =
            |&number: &u16| itinerary.get(number).is_some_and(|r| r.kind != Kind::Gone && r.parent == at);
        open.extend(itinerary.numbers().rev().filter(inside));
    }
    let mut numbers = [0; MOST_RECORDS + 1];
    for (place, &number) in order.iter().enumerate() {
        numbers[usize::from(number)] = place as u16 + 1;
    }
    let moved = |&number: &u16| {
        let record = itinerary.records[usize::from(number) - 1];
        Record { parent: numbers[usize::from(record.parent)], ..record }
    };
    Itinerary { records: order.iter().map(moved).collect() }
}

/// Several of one kind, so that the processor can't learn one by heart.
fn several(seed: u64, mix: &Mix) -> Vec<Itinerary> {
    let mut random = Random::new(seed);
    (0..TURN).map(|_| tree(&mut random, mix)).collect()
}

fn lent(itineraries: Vec<Itinerary>) -> Vec<Lent> {
    itineraries.iter().map(|itinerary| Lent::of(itinerary).about(500, 1)).collect()
}

/// Nine records in ten with a client, drawn behind the trees: all else is as it is without clients, so that times
/// stay comparable with older ones.
fn with_clients(mut itineraries: Vec<Itinerary>) -> Vec<Itinerary> {
    let mut random = Random::new(3);
    itineraries.iter_mut().for_each(|itinerary| clients::give(&mut random, 90, itinerary));
    itineraries
}

/// Every label, order and name, at random, with clients.
pub fn random() -> Vec<Lent> {
    lent(with_clients(several(1, &wide())))
}

/// The same, each numbered in file order.
pub fn filed() -> Vec<Lent> {
    lent(with_clients(several(1, &wide())).iter().map(in_file_order).collect())
}

/// Few names, so that nearly every ambient can go nearly anywhere.
pub fn dense() -> Vec<Lent> {
    lent(several(2, &Mix { names: 2, ..wide() }))
}

/// An ambient and 1,023 capabilities, each behind the other: every container is a
/// long way up.
pub fn deep() -> Lent {
    Lent::of(&chain(MOST_RECORDS, Links::Capabilities, false)).about(1024, 1)
}

const ROOMS: usize = 31;
const MOVERS: usize = 16;

/// A relay: a mover goes down through rooms numbered against the order in which a
/// pass looks at them, so that each room takes a pass of its own. In the last room
/// it is opened, and the box in it goes up and is opened in the environment; out
/// comes the next mover. Orders that nobody can use fill the rest.
pub fn relay() -> Lent {
    let (room, mover, opened) = (0, 1, 2);
    let mut records: Vec<Record> = Vec::new();
    for label in (1..=ROOMS).rev() {
        records.push(ambient(label, room, records.len()));
    }
    records.push(order(Kind::Open, 66, mover, ROOMS));
    records.push(order(Kind::Open, 67, opened, 0));
    let mut parent = 0;
    for stage in 0..MOVERS {
        records.push(ambient(ROOMS + 1 + stage, mover, parent));
        let at = records.len();
        records.push(order(Kind::In, 64, room, at));
        records.push(ambient(ROOMS + MOVERS + 1 + stage, opened, at));
        parent = records.len();
        records.push(order(Kind::Out, 65, room, parent));
    }
    while records.len() < MOST_RECORDS {
        let place = records.len();
        records.push(order(Kind::ALL[2 + place % 2], 68 + place / 2 % 60, room, 0));
    }
    Lent::of(&Itinerary { records })
}

/// An ambient goes in and out of its neighbour 1,022 times.
pub fn to_and_fro() -> Lent {
    let mut records = vec![ambient(1, 0, 0), ambient(2, 1, 0)];
    for place in 0..1022 {
        records.push(order(Kind::ALL[2 + place % 2], 64 + place % 64, 1, 1));
    }
    Lent::of(&Itinerary { records }).about(3, 2).with_script((3..=1024).map(|actor| (actor, 2)))
}

/// 511 opens inside an ambient.
pub fn opens() -> Lent {
    let mut records = vec![ambient(1, 0, 0)];
    for place in 0..511 {
        records.push(ambient(1 + place % 63, 1, 1));
        records.push(order(Kind::Open, 64 + place % 64, 1, 1));
    }
    let steps = (1..=511).map(|step| (2 * step + 1, 2 * step));
    Lent::of(&Itinerary { records }).about(3, 2).with_script(steps)
}

/// 256 boxes inside one another, 512 ambients in the last, and 255 opens from inside out: each moves half of all records.
pub fn carried() -> Lent {
    let mut records = Vec::new();
    for level in 0..256 {
        let parent = if level == 0 { 0 } else { 2 * level - 1 };
        records.push(ambient(1 + level % 63, 1, parent));
        if level < 255 {
            records.push(order(Kind::Open, 64 + level % 64, 1, 2 * level + 1));
        }
    }
    records.extend((0..512).map(|place| ambient(1 + place % 63, 2, 511)));
    let steps = (1..=255).rev().map(|level| (2 * level, 2 * level + 1));
    Lent::of(&Itinerary { records }).with_script(steps)
}

/// 1,024 steps of the capability below 1,023 ambients, each with a wrong partner.
pub fn refused() -> Lent {
    let itinerary = chain(MOST_RECORDS, Links::LastActs(Kind::Open), false);
    Lent::of(&itinerary).about(1024, 1).with_script((0..1024).map(|_| (1024, 1)))
}

/// Eight capabilities that can each open eight of 512 ambients, and 504 that wait behind them.
pub fn few_ready() -> Lent {
    let mut records: Vec<Record> =
        (0..512).map(|place| ambient(1 + place % 63, (place % 64) as u8, 0)).collect();
    records.extend((0..8).map(|place| order(Kind::Open, 64 + place, place as u8, 0)));
    records
        .extend((0..504).map(|place| order(Kind::ALL[2 + place % 3], 72 + place % 56, 0, 513 + place % 8)));
    Lent::of(&Itinerary { records }).with_list()
}

/// Half of the records can open each of the other half: the longest list.
pub fn half_opens() -> Lent {
    let half = MOST_RECORDS / 2;
    Lent::of(&runs(&[(Kind::Ambient, half), (Kind::Open, half)])).with_list()
}

/// 1,024 records of one kind in the environment: each pair answers 10, or each 12.
pub fn alike(kind: Kind) -> Lent {
    Lent::of(&runs(&[(kind, MOST_RECORDS)]))
}

/// 512 capabilities below 511 ambients and one capability: they are found inactive at the end of a long way up.
pub fn waiting() -> Lent {
    let mut itinerary = far_down(512, 512);
    itinerary.records[0] = order(Kind::Open, 64, 63, 0);
    Lent::of(&itinerary).with_list()
}

/// What is copied where half of the records are.
const HALF: usize = MOST_RECORDS / 2 - 1;

/// A chain of 511 ambients beneath a copier, and gone records.
pub fn chain_to_copy(reversed: bool) -> Lent {
    let below = chain(HALF, Links::Ambients, reversed);
    Lent::of(&beneath_a_copier(&below, MOST_RECORDS - 1 - HALF)).about(HALF as u16 + 1, 1)
}

/// A tree of 511 records beneath a copier, which has any number, with clients, and gone records between them.
pub fn random_to_copy() -> Vec<Lent> {
    let trees = with_clients(several(6, &Mix { records: HALF, ..wide() }));
    let mut random = Random::new(6);
    let mut lent = |below: &Itinerary| {
        let itinerary = shuffled(&mut random, &beneath_a_copier(below, MOST_RECORDS - 1 - HALF));
        let copier = itinerary.numbers().find(|&number| itinerary.is(Kind::Copier, number));
        Lent::of(&itinerary).about(copier.unwrap_or(0), 1)
    };
    trees.iter().map(&mut lent).collect()
}

/// So many ambients in one another, in the last of them a copier, beneath that a chain of so many, and gone records.
pub fn deep_to_copy(above: usize, below: usize, reversed: bool) -> Lent {
    let Itinerary { mut records } = chain(above, Links::Ambients, reversed);
    let last = if reversed { 1 } else { above };
    for record in beneath_a_copier(&chain(below, Links::Ambients, reversed), 0).records {
        let parent = if record.kind == Kind::Copier { last } else { above + usize::from(record.parent) };
        records.push(Record { parent: parent as u16, ..record });
    }
    let copier = records.len() as u16;
    records.resize(MOST_RECORDS, Record::GONE);
    Lent::of(&Itinerary { records }).about(copier, 1)
}

/// Sets of four with 256 records each.
fn sets(itineraries: impl Iterator<Item = Itinerary>) -> Vec<Lent> {
    let all: Vec<Itinerary> = itineraries.collect();
    all.chunks_exact(4).map(|four| Lent::joining(&std::array::from_fn(|k| four[k].clone()))).collect()
}

fn trees_to_join(seed: u64, mix: Mix) -> impl Iterator<Item = Itinerary> {
    let mut random = Random::new(seed);
    (0..4 * TURN).map(move |_| tree(&mut random, &Mix { records: MOST_RECORDS / 4, ..mix }))
}

pub fn random_sets() -> Vec<Lent> {
    sets(with_clients(trees_to_join(4, wide()).collect()).into_iter())
}

pub fn dense_sets() -> Vec<Lent> {
    sets(trees_to_join(5, Mix { names: 2, ..wide() }))
}

/// In each member 255 capabilities behind each other.
pub fn deep_set() -> Lent {
    set_of_chains(Links::Capabilities, false)
}

pub fn set_of_chains(links: Links, reversed: bool) -> Lent {
    Lent::joining(&std::array::from_fn(|_| chain(MOST_RECORDS / 4, links, reversed)))
}

/// One of each kind for tables.
pub fn for_tables() -> [(&'static str, Lent); 4] {
    let first = |several: Vec<Lent>| several[0].clone();
    [("random", first(random())), ("dense", first(dense())), ("deep", deep()), ("relay", relay())]
}
