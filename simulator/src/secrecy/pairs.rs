//! Pairs of itineraries that an observer cannot tell apart at the start.

use super::{answer, on_sheet, Case, Event};
use crate::generate::clients;
use crate::generate::scripts::{any_number, any_step, capabilities, done_copy, done_step, partners};
use crate::generate::tables::any_bit;
use crate::generate::trees::{tree, Mix};
use crate::law::Law;
use crate::random::Random;
use crate::record::{Itinerary, Kind, Record};
use crate::table::{close, hidden, least, Policy, Table, BOUNDARY, HIGH, LOW};

/// Few labels and names, so that things meet; most of it inside boundaries.
pub(super) fn draw_mix(random: &mut Random) -> Mix {
    Mix {
        records: random.pick(&[4, 5, 6, 7, 8, 10, 12, 16]),
        gone: random.pick(&[0, 10, 25]),
        capabilities: random.between(25, 60),
        top: random.pick(&[0, 5, 15]),
        behind: random.pick(&[0, 30, 70]),
        suited: random.pick(&[30, 80, 95]),
        labels: random.between(2, 5),
        orders: random.between(1, 5),
        names: random.between(1, 4),
        clients: 0,
        copiers: 0,
    }
}

pub(super) fn draw_policy(random: &mut Random) -> Policy {
    let mut policy = [LOW; 64];
    policy[1] = BOUNDARY;
    policy[2] = HIGH;
    for class in policy[3..6].iter_mut() {
        *class = random.pick(&[LOW, LOW, LOW, HIGH, BOUNDARY]);
    }
    policy
}

/// A case that may be supposed, without clients and copiers, or none if the draw did not work out.
pub fn draw(random: &mut Random, law: Law) -> Option<Case> {
    let mix = draw_mix(random);
    drawn(random, law, &mix)
}

/// The same with that mix.
pub(super) fn drawn(random: &mut Random, law: Law, mix: &Mix) -> Option<Case> {
    let policy = draw_policy(random);
    let mut x = tree(random, mix);
    guard(random, &mut x);
    let hiding = least(law, &[&x], &policy);
    let y = change_hidden(random, mix, &x, &hiding)?;
    complete(random, law, x, y, policy)
}

/// The case with a table for both and a list, if it is as supposed and something can happen in it.
pub(super) fn complete(
    random: &mut Random,
    law: Law,
    x: Itinerary,
    y: Itinerary,
    policy: Policy,
) -> Option<Case> {
    if x == y && random.chance(90) {
        return None;
    }
    let mut start = Table::empty();
    for _ in 0..random.pick(&[0, 0, 0, 1, 3]) {
        start.set(any_bit(random));
    }
    let table = close(law, &[&x, &y], &policy, &start);
    let mut case = Case { x, y, policy, table, events: Vec::new() };
    // Cases in which nothing can happen are dear and tell little.
    let mut quiet =
        |itinerary| done_step(random, itinerary).is_none() && done_copy(random, itinerary).is_none();
    let quiet = quiet(&case.x) && quiet(&case.y);
    if (quiet && random.chance(90)) || !case.supposed(law) {
        return None;
    }
    case.events = draw_events(random, law, &case);
    Some(case)
}

/// Gives clients: the same in x and y to what is on the sheet, each its own to what is hidden; in some cases none.
pub fn give_clients(random: &mut Random, case: &mut Case) {
    let share = random.pick(&[0, 40, 80, 100]);
    for number in case.x.numbers() {
        let place = number as usize - 1;
        let both = clients::draw(random, share);
        for itinerary in [&mut case.x, &mut case.y] {
            let shown = on_sheet(itinerary, &case.table, number);
            if itinerary.records[place].kind != Kind::Gone {
                itinerary.records[place].client = if shown { both } else { clients::draw(random, share) };
            }
        }
    }
}

/// Puts boundaries outside and high ambients inside, else few cases are sealed.
pub(super) fn guard(random: &mut Random, x: &mut Itinerary) {
    let high = random.pick(&[10, 35]);
    let below_copiers = |number: u16| x.upward(number).all(|above| x.is(Kind::Copier, above));
    let outermost: Vec<bool> = x.numbers().map(below_copiers).collect();
    let ambients = x.records.iter_mut().zip(outermost).filter(|(record, _)| record.kind == Kind::Ambient);
    for (record, outermost) in ambients {
        if outermost && random.chance(85) {
            record.label = 1;
        } else if !outermost && random.chance(high) {
            record.label = 2;
        }
    }
}

/// The same itinerary with the hidden part changed here and there.
pub(super) fn change_hidden(
    random: &mut Random,
    mix: &Mix,
    x: &Itinerary,
    table: &Table,
) -> Option<Itinerary> {
    let mut y = x.clone();
    let many = random.pick(&[15, 40, 80]);
    for number in x.numbers() {
        let free = y.get(number)?.kind == Kind::Gone || hidden(&y, table, number);
        if free && random.chance(many) {
            change_record(random, mix, &mut y, table, number);
        }
    }
    // A drawn parent may have become gone or a ring; reading tells.
    Itinerary::read(&y.bytes()).ok()
}

/// Makes a hidden or gone record gone or another hidden one.
fn change_record(random: &mut Random, mix: &Mix, y: &mut Itinerary, table: &Table, number: u16) {
    let record = y.records[number as usize - 1];
    let changed = match random.below(4) {
        0 => Record::GONE,
        1 if !matches!(record.kind, Kind::Gone | Kind::Copier) => {
            Record { name: random.below(mix.names) as u8, ..record }
        }
        2 if record.kind.is_capability() => {
            Record { kind: random.pick(&[Kind::In, Kind::Out, Kind::Open]), ..record }
        }
        _ => draw_hidden(random, mix, y, table, number),
    };
    if changed.kind == Kind::Gone {
        // What stood below moves up, so that the rest stays a tree.
        for other in &mut y.records {
            if other.parent == number {
                other.parent = record.parent;
            }
        }
    }
    y.records[number as usize - 1] = changed;
}

/// A record that is hidden: a suspect ambient anywhere, or anything below one.
fn draw_hidden(random: &mut Random, mix: &Mix, y: &Itinerary, table: &Table, number: u16) -> Record {
    let other = |&candidate: &u16| candidate != number && !y.above(candidate).contains(&number);
    let standing = |candidate: &u16| y.records[*candidate as usize - 1].kind != Kind::Gone;
    let parents: Vec<u16> = y.numbers().filter(standing).filter(other).collect();
    let Some(parent) = random.choose(&parents) else { return Record::GONE };
    let name = random.below(mix.names) as u8;
    let suspects: Vec<u8> = (1..=mix.labels as u8).filter(|&label| table.suspect(label)).collect();
    if !hidden(y, table, parent) {
        return match random.choose(&suspects) {
            Some(label) => Record { kind: Kind::Ambient, label, name, parent, client: 0 },
            None => Record::GONE,
        };
    }
    if mix.copiers > 0 && random.chance(mix.copiers) {
        return Record { kind: Kind::Copier, label: 0, name: 0, parent, client: 0 };
    }
    match random.chance(mix.capabilities) {
        true => {
            let kind = random.pick(&[Kind::In, Kind::Out, Kind::Open]);
            Record { kind, label: 64 + random.below(mix.orders) as u8, name, parent, client: 0 }
        }
        false => {
            let label = random.between(1, mix.labels) as u8;
            Record { kind: Kind::Ambient, label, name, parent, client: 0 }
        }
    }
}

/// Steps, and copies if there are copiers, drawn while both itineraries go through them.
fn draw_events(random: &mut Random, law: Law, case: &Case) -> Vec<Event> {
    let (mut x, mut y) = (case.x.clone(), case.y.clone());
    let copier = |itinerary: &Itinerary| itinerary.records.iter().any(|record| record.kind == Kind::Copier);
    let copying = (copier(&x) || copier(&y)) && random.chance(70);
    let mut events = Vec::new();
    for _ in 0..random.between(1, 8) {
        let copy = if copying && random.chance(40) { draw_copy(random, &x, &y) } else { None };
        let event = copy.unwrap_or_else(|| draw_step(random, &x, &y));
        answer(law, &mut x, event);
        answer(law, &mut y, event);
        events.push(event);
    }
    events
}

fn draw_step(random: &mut Random, x: &Itinerary, y: &Itinerary) -> Event {
    let chosen = match random.below(8) {
        0..=2 => done_step(random, x),
        3..=5 => done_step(random, y),
        6 => unfit_step(random, x),
        _ => None,
    };
    let (actor, partner) = chosen.unwrap_or_else(|| any_step(random, x));
    Event::Step(actor, partner)
}

/// One that is done in x or in y, or any.
fn draw_copy(random: &mut Random, x: &Itinerary, y: &Itinerary) -> Option<Event> {
    let copier = match random.below(8) {
        0..=3 => done_copy(random, x),
        4..=6 => done_copy(random, y),
        _ => Some(any_number(random, x)),
    };
    copier.map(Event::Copy)
}

/// A capability with a partner of some cause or other.
fn unfit_step(random: &mut Random, itinerary: &Itinerary) -> Option<(u16, u16)> {
    let actor = random.choose(&capabilities(itinerary))?;
    let partners = partners(random, itinerary, actor);
    Some((actor, random.choose(&partners)?))
}
