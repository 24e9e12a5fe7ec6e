//! Single steps and script runs on itineraries that were read.

use crate::law::Law;
use crate::record::{Itinerary, Kind, Record};

/// The answer that the step would get: 0 if it can be done, else 10, 11 or 12.
pub fn answer(law: Law, itinerary: &Itinerary, actor: u16, partner: u16) -> u8 {
    let Some(&c) = itinerary.get(actor) else { return 10 };
    if !c.kind.is_capability() {
        return 10;
    }
    if !is_active(law, itinerary, actor) {
        return 11;
    }
    if c.kind != Kind::Open && !itinerary.is_ambient(c.parent) {
        return 11;
    }
    match itinerary.is_ambient(partner) {
        true if fits(itinerary, &c, partner) => 0,
        false if law == Law::PartnerNotAmbientDiffers => 11,
        _ => 12,
    }
}

/// Whether all records above are ambients.
fn is_active(law: Law, itinerary: &Itinerary, actor: u16) -> bool {
    let passed = |above: u16| law == Law::ActiveBelowCopiers && itinerary.is(Kind::Copier, above);
    itinerary.upward(actor).all(|above| itinerary.is_ambient(above) || passed(above))
}

/// Whether the ambient `partner` is one that the active capability c can take.
fn fits(itinerary: &Itinerary, c: &Record, partner: u16) -> bool {
    let Some(b) = itinerary.get(partner) else { return false };
    let place = match c.kind {
        Kind::In => partner != c.parent && itinerary.get(c.parent).is_some_and(|a| a.parent == b.parent),
        Kind::Out => itinerary.get(c.parent).is_some_and(|a| a.parent == partner),
        Kind::Open => b.parent == c.parent,
        Kind::Gone | Kind::Ambient | Kind::Copier => false,
    };
    place && b.name == c.name
}

/// Does the step if it can be done; gives the kind done, or the answer 10 to 12.
pub fn step(law: Law, itinerary: &mut Itinerary, actor: u16, partner: u16) -> Result<Kind, u8> {
    let refusal = answer(law, itinerary, actor, partner);
    let (Some(&c), 0) = (itinerary.get(actor), refusal) else { return Err(refusal) };
    let outer = itinerary.get(partner).map_or(0, |b| b.parent);
    match c.kind {
        Kind::In => set_parent(itinerary, c.parent, partner),
        Kind::Out => set_parent(itinerary, c.parent, outer),
        _ => dissolve(itinerary, partner, c.parent),
    }
    dissolve(itinerary, actor, c.parent);
    Ok(c.kind)
}

fn set_parent(itinerary: &mut Itinerary, number: u16, parent: u16) {
    if let Some(record) = itinerary.get_mut(number) {
        record.parent = parent;
    }
}

/// The record's children go to `parent`, and it becomes gone.
fn dissolve(itinerary: &mut Itinerary, number: u16, parent: u16) {
    for record in &mut itinerary.records {
        if record.kind != Kind::Gone && record.parent == number {
            record.parent = parent;
        }
    }
    if let Some(record) = itinerary.get_mut(number) {
        *record = Record::GONE;
    }
}

/// How many pairs of actor and partner get each answer.
#[derive(Clone, Copy, Debug, Default, PartialEq, Eq)]
pub struct Tally {
    pub done: u32,
    pub no_capability: u32,
    pub inactive: u32,
    pub unfit: u32,
}

/// Every pair of record numbers whose step would be done, by actor and then partner, and
/// the answers of all pairs.
pub fn moves(law: Law, itinerary: &Itinerary) -> (Vec<(u16, u16)>, Tally) {
    let (mut pairs, mut tally) = (Vec::new(), Tally::default());
    for actor in itinerary.numbers() {
        for partner in itinerary.numbers() {
            match answer(law, itinerary, actor, partner) {
                0 => {
                    pairs.push((actor, partner));
                    tally.done += 1;
                }
                10 => tally.no_capability += 1,
                11 => tally.inactive += 1,
                _ => tally.unfit += 1,
            }
        }
    }
    (pairs, tally)
}

/// Ins, outs and opens that a run did.
#[derive(Clone, Copy, Debug, Default, PartialEq, Eq)]
pub struct Done {
    pub ins: u16,
    pub outs: u16,
    pub opens: u16,
}

/// Actor and partner of each four bytes of a script.
pub fn script_steps(script: &[u8]) -> Vec<(u16, u16)> {
    let number = |low: u8, high: u8| u16::from_le_bytes([low, high]);
    script.chunks_exact(4).map(|four| (number(four[0], four[1]), number(four[2], four[3]))).collect()
}

/// Four bytes for each actor and partner.
pub fn script(steps: &[(u16, u16)]) -> Vec<u8> {
    let four = |&(actor, partner): &(u16, u16)| [actor.to_le_bytes(), partner.to_le_bytes()].concat();
    steps.iter().flat_map(four).collect()
}

/// Does each step of the script in order and writes its answer.
pub fn run(law: Law, itinerary: &mut Itinerary, script: &[u8], answers: &mut [u8]) -> Done {
    let mut done = Done::default();
    for (place, (actor, partner)) in script_steps(script).into_iter().enumerate() {
        answers[place] = match step(law, itinerary, actor, partner) {
            Ok(kind) => {
                match kind {
                    Kind::In => done.ins += 1,
                    Kind::Out => done.outs += 1,
                    _ => done.opens += 1,
                }
                0
            }
            Err(refusal) => refusal,
        };
    }
    done
}
