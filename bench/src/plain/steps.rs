//! Steps and script runs.

use super::itinerary::{validate, Record, AMBIENT, IN, OPEN, OUT, RECORD};
use super::refuse;
use birnsket::{Counts, Refusal};

/// A step that is decided: actor and opened go (opened is the actor again where
/// nothing is), their children go to home; mover, if not 0, goes to dest.
struct Move {
    actor: u16,
    home: u16,
    mover: u16,
    dest: u16,
    opened: u16,
}

/// Whether `number` and all records above it are ambients.
pub fn all_ambients(itinerary: &[u8], number: u16) -> bool {
    let mut at = number;
    while at != 0 {
        let record = Record::at(itinerary, at);
        if record.kind != AMBIENT {
            return false;
        }
        at = record.parent;
    }
    true
}

/// An actor that can act and its parent, or 10 or 11.
pub fn ready(itinerary: &[u8], actor: u16) -> Result<(Record, Record), u8> {
    let c = Record::at(itinerary, actor);
    if !(IN..=OPEN).contains(&c.kind) {
        return Err(10);
    }
    let a = Record::at(itinerary, c.parent);
    let held = c.kind == OPEN || a.kind == AMBIENT;
    if !held || !all_ambients(itinerary, c.parent) {
        return Err(11);
    }
    Ok((c, a))
}

/// The move, or 10, 11 or 12.
fn decide(itinerary: &[u8], actor: u16, partner: u16) -> Result<Move, u8> {
    let (c, a) = ready(itinerary, actor)?;
    let p = Record::at(itinerary, partner);
    let stands = match c.kind {
        IN => partner != c.parent && p.parent == a.parent,
        OUT => partner == a.parent,
        _ => p.parent == c.parent,
    };
    if p.kind != AMBIENT || p.name != c.name || !stands {
        return Err(12);
    }
    let home = c.parent;
    Ok(match c.kind {
        IN => Move { actor, home, mover: home, dest: partner, opened: actor },
        OUT => Move { actor, home, mover: home, dest: p.parent, opened: actor },
        _ => Move { actor, home, mover: 0, dest: 0, opened: partner },
    })
}

/// As far from `from` as `end`, but short of record `number`.
fn short_of(number: u16, from: usize, end: usize) -> usize {
    let number = usize::from(number);
    if from < number && number <= end {
        number - 1
    } else {
        end
    }
}

/// As far from `from` as `end`, but short of a record whose parent is x or y.
fn no_child_to(itinerary: &[u8], x: u16, y: u16, from: usize, end: usize) -> usize {
    let records = itinerary[from * RECORD..end * RECORD].chunks_exact(RECORD);
    let child = |bytes: &[u8]| {
        let parent = u16::from_le_bytes([bytes[4], bytes[5]]);
        parent == x || parent == y
    };
    records.map(child).position(|child| child).map_or(end, |place| from + place)
}

/// One pass over the records, from one that the move changes to the next.
fn apply(itinerary: &mut [u8], m: &Move) {
    let count = itinerary.len() / RECORD;
    let other = if m.mover == 0 { m.opened } else { m.mover };
    let mut place = 0;
    while place < count {
        let named = short_of(m.actor, place, short_of(other, place, count));
        place = no_child_to(itinerary, m.actor, m.opened, place, named);
        if place < count {
            remake(&mut itinerary[place * RECORD..][..RECORD], m, place as u16 + 1);
            place += 1;
        }
    }
}

/// A record as after the move.
fn remake(bytes: &mut [u8], m: &Move, number: u16) {
    if number == m.actor || number == m.opened {
        bytes.fill(0);
        return;
    }
    let mut parent = u16::from_le_bytes([bytes[4], bytes[5]]);
    if number == m.mover {
        parent = m.dest;
    }
    if parent == m.actor || parent == m.opened {
        parent = m.home;
    }
    bytes[4..6].copy_from_slice(&parent.to_le_bytes());
}

pub fn act(itinerary: &mut [u8], actor: u16, partner: u16) -> Result<(), u8> {
    let m = decide(itinerary, actor, partner)?;
    apply(itinerary, &m);
    Ok(())
}

pub fn step(itinerary: &mut [u8], actor: u16, partner: u16) -> Result<(), Refusal> {
    validate(itinerary)?;
    act(itinerary, actor, partner).or_else(|number| refuse(u32::from(number)))
}

pub fn run(itinerary: &mut [u8], script: &[u8], answers: &mut [u8]) -> Result<Counts, Refusal> {
    validate(itinerary)?;
    if !script.len().is_multiple_of(4) || script.len() > 4096 || answers.len() != script.len() / 4 {
        return refuse(13);
    }
    let mut counts = Counts::default();
    for (four, answer) in script.chunks_exact(4).zip(answers) {
        let actor = u16::from_le_bytes([four[0], four[1]]);
        let partner = u16::from_le_bytes([four[2], four[3]]);
        let kind = Record::at(itinerary, actor).kind;
        *answer = act(itinerary, actor, partner).err().unwrap_or(0);
        if *answer == 0 {
            match kind {
                IN => counts.ins += 1,
                OUT => counts.outs += 1,
                _ => counts.opens += 1,
            }
        }
    }
    Ok(counts)
}
