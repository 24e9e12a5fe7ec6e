//! Good itineraries: random trees, and chains as deep as they get.

use super::clients;
use crate::random::Random;
use crate::record::{Itinerary, Kind, Record, MOST_RECORDS};

/// What a random tree is made of. Shares are in percent.
#[derive(Clone, Copy, Debug)]
pub struct Mix {
    pub records: usize,
    pub gone: usize,
    pub capabilities: usize,
    /// Share of records that stand in the environment.
    pub top: usize,
    /// Share of the capabilities drawn as a parent that are taken as one.
    pub behind: usize,
    /// Share of capabilities that get the kind and name of a step at hand.
    pub suited: usize,
    /// How many ambient labels, capability labels and names are in use.
    pub labels: usize,
    pub orders: usize,
    pub names: usize,
    /// Share of records with a client other than 0.
    pub clients: usize,
    /// Share of records that are copiers; what comes later stands beneath them as beneath ambients.
    pub copiers: usize,
}

impl Mix {
    /// Few labels and names, so that many steps can be done.
    pub fn small(random: &mut Random) -> Mix {
        Mix {
            records: random.between(1, 12),
            gone: random.pick(&[0, 0, 15, 40]),
            capabilities: random.between(20, 60),
            top: random.pick(&[10, 25, 50]),
            behind: random.pick(&[0, 30, 100]),
            suited: random.pick(&[0, 50, 90]),
            labels: random.between(1, 5),
            orders: random.between(1, 5),
            names: random.between(1, 4),
            clients: random.pick(&[0, 50, 90, 100]),
            copiers: random.pick(&[0, 0, 10, 20]),
        }
    }

    /// Small, and nearly every capability can act.
    pub fn lively(random: &mut Random) -> Mix {
        Mix {
            records: random.between(6, 14),
            gone: random.pick(&[0, 0, 10]),
            capabilities: random.between(35, 60),
            top: random.pick(&[10, 25]),
            behind: random.pick(&[0, 15]),
            suited: 95,
            names: random.between(1, 3),
            copiers: random.pick(&[0, 0, 6, 12]),
            ..Mix::small(random)
        }
    }

    /// Most stand side by side under few names, so that a capability can act on many.
    pub fn crowded(random: &mut Random) -> Mix {
        Mix {
            records: random.between(8, 40),
            top: random.pick(&[40, 70, 95]),
            names: random.between(1, 2),
            ..Mix::lively(random)
        }
    }

    pub fn medium(random: &mut Random) -> Mix {
        Mix {
            records: random.between(20, 80),
            gone: random.pick(&[0, 10, 30]),
            capabilities: random.between(20, 60),
            top: random.pick(&[3, 10, 30]),
            behind: random.pick(&[0, 20, 60]),
            suited: random.pick(&[0, 30, 80]),
            labels: random.pick(&[3, 8, 63]),
            orders: random.pick(&[3, 8, 64]),
            names: random.pick(&[2, 5, 64]),
            clients: random.pick(&[0, 50, 90, 100]),
            copiers: random.pick(&[0, 2, 5]),
        }
    }

    /// Copiers with room for copies, as much as is drawn.
    pub fn copying(random: &mut Random) -> Mix {
        Mix {
            records: random.between(4, 20),
            gone: random.pick(&[20, 40, 55, 70]),
            copiers: random.pick(&[15, 30, 45]),
            behind: random.pick(&[10, 40]),
            ..Mix::small(random)
        }
    }

    pub fn full(random: &mut Random) -> Mix {
        Mix { records: MOST_RECORDS, ..Mix::medium(random) }
    }
}

/// A random tree, numbered at random, so that parents may have higher numbers
/// than their children and gone records stand in between.
pub fn tree(random: &mut Random, mix: &Mix) -> Itinerary {
    let mut standing: Vec<Record> = Vec::new();
    for _ in 0..mix.records {
        if !random.chance(mix.gone) {
            let parent = draw_parent(random, mix, &standing);
            standing.push(draw_record(random, mix, parent));
        }
    }
    let mut numbers: Vec<u16> = (1..=mix.records as u16).collect();
    random.shuffle(&mut numbers);
    let mut records = vec![Record::GONE; mix.records];
    for (place, record) in standing.iter().enumerate() {
        let parent = match record.parent {
            0 => 0,
            parent => numbers[parent as usize - 1],
        };
        records[numbers[place] as usize - 1] = Record { parent, ..*record };
    }
    let mut itinerary = Itinerary { records };
    suit(random, mix.suited, &mut itinerary);
    clients::give(random, mix.clients, &mut itinerary);
    itinerary
}

/// Gives capabilities a kind and name with which their surroundings let them act.
fn suit(random: &mut Random, share: usize, itinerary: &mut Itinerary) {
    for number in itinerary.numbers() {
        let c = itinerary.records[number as usize - 1];
        if !c.kind.is_capability() || !random.chance(share) {
            continue;
        }
        let mover = itinerary.get(c.parent).copied().unwrap_or(Record::GONE);
        let inside = mover.kind == Kind::Ambient;
        let mut options = Vec::new();
        for other in itinerary.numbers().filter(|&other| itinerary.is_ambient(other)) {
            let b = itinerary.records[other as usize - 1];
            if b.parent == c.parent {
                options.push((Kind::Open, b.name));
            }
            if inside && other != c.parent && b.parent == mover.parent {
                options.push((Kind::In, b.name));
            }
            if inside && other == mover.parent {
                options.push((Kind::Out, b.name));
            }
        }
        if let (Some((kind, name)), Some(record)) = (random.choose(&options), itinerary.get_mut(number)) {
            *record = Record { kind, name, ..*record };
        }
    }
}

/// 0, or the place (counted from 1) of a record drawn earlier.
fn draw_parent(random: &mut Random, mix: &Mix, earlier: &[Record]) -> u16 {
    if earlier.is_empty() || random.chance(mix.top) {
        return 0;
    }
    for _ in 0..4 {
        let recent = random.chance(40);
        let first = if recent { earlier.len().saturating_sub(4) } else { 0 };
        let place = random.between(first, earlier.len() - 1);
        if !earlier[place].kind.is_capability() || random.chance(mix.behind) {
            return place as u16 + 1;
        }
    }
    0
}

fn draw_record(random: &mut Random, mix: &Mix, parent: u16) -> Record {
    if mix.copiers > 0 && random.chance(mix.copiers) {
        return Record { kind: Kind::Copier, label: 0, name: 0, parent, client: 0 };
    }
    let name = random.below(mix.names) as u8;
    if !random.chance(mix.capabilities) {
        let label = random.between(1, mix.labels) as u8;
        return Record { kind: Kind::Ambient, label, name, parent, client: 0 };
    }
    let kind = random.pick(&[Kind::In, Kind::Out, Kind::Open]);
    Record { kind, label: 64 + random.below(mix.orders) as u8, name, parent, client: 0 }
}

/// The same tree with the number that `new` gives for each.
fn renumbered(itinerary: &Itinerary, new: impl Fn(u16) -> u16) -> Itinerary {
    let mut records = vec![Record::GONE; itinerary.count()];
    for (number, record) in itinerary.numbers().zip(&itinerary.records) {
        let parent = if record.parent == 0 { 0 } else { new(record.parent) };
        records[usize::from(new(number)) - 1] = Record { parent, ..*record };
    }
    Itinerary { records }
}

/// The same tree with its numbers in the other order.
pub fn turned_round(itinerary: &Itinerary) -> Itinerary {
    renumbered(itinerary, |number| itinerary.count() as u16 + 1 - number)
}

/// The same tree with its numbers in any order.
pub fn shuffled(random: &mut Random, itinerary: &Itinerary) -> Itinerary {
    let mut numbers: Vec<u16> = itinerary.numbers().collect();
    random.shuffle(&mut numbers);
    renumbered(itinerary, |number| numbers[usize::from(number) - 1])
}

/// All of these records beneath a copier, whose number is one more than theirs, and then gone ones.
pub fn beneath_a_copier(below: &Itinerary, gone: usize) -> Itinerary {
    let (count, mut records) = (below.count(), below.records.clone());
    for record in records.iter_mut().filter(|record| record.kind != Kind::Gone && record.parent == 0) {
        record.parent = count as u16 + 1;
    }
    records.push(Record { kind: Kind::Copier, ..Record::GONE });
    records.resize(count + 1 + gone, Record::GONE);
    Itinerary { records }
}

/// Which records a chain is made of.
#[derive(Clone, Copy, Debug, PartialEq, Eq)]
pub enum Links {
    /// Ambients all the way down.
    Ambients,
    /// One ambient on top, then capabilities, each behind the other.
    Capabilities,
    /// Ambient and capability in turn.
    Turns,
    /// Ambients, and a capability that can act at the very end.
    LastActs(Kind),
}

/// A chain, each record the parent of the next, or of the one before it; all with client 0.
pub fn chain(count: usize, links: Links, reversed: bool) -> Itinerary {
    let link = |depth: usize| {
        let kind = match links {
            Links::Capabilities if depth > 0 => Kind::ALL[2 + depth % 3],
            Links::Turns if depth % 2 == 1 => Kind::ALL[2 + depth / 2 % 3],
            Links::LastActs(kind) if depth + 1 == count => kind,
            _ => Kind::Ambient,
        };
        let label = if kind == Kind::Ambient { 1 + depth % 63 } else { 64 + depth % 64 };
        let name = if kind == Kind::Ambient { (depth / 3) % 4 } else { (depth / 3 + 3) % 4 };
        let parent = match (depth, reversed) {
            (0, _) => 0,
            (_, false) => depth,
            (_, true) => count - depth + 1,
        };
        Record { kind, label: label as u8, name: name as u8, parent: parent as u16, client: 0 }
    };
    let mut records: Vec<Record> = (0..count).map(link).collect();
    if reversed {
        records.reverse();
    }
    Itinerary { records }
}
