//! Makes a counterexample smaller while it stays one.

use super::{Case, Event};
use crate::law::Law;
use crate::record::{Itinerary, Kind, Record};

/// How many counterexamples of one search are worth shrinking.
pub const MOST: usize = 200;

/// Records, standing ones, steps, classes in use, then the fields' sizes.
pub fn size(case: &Case) -> [usize; 5] {
    let records = || case.x.records.iter().chain(&case.y.records);
    let standing = records().filter(|record| record.kind != Kind::Gone).count();
    let fields = records().map(|r| [r.kind as u16, r.label.into(), r.name.into(), r.parent, r.client]);
    let classes = case.policy.iter().filter(|&&class| class != 0).count();
    [case.x.count(), case.events.len(), standing, classes, fields.map(total).sum()]
}

fn total(fields: [u16; 5]) -> usize {
    fields.into_iter().map(usize::from).sum()
}

/// Takes any smaller candidate that is still a counterexample, until none is.
/// The table is the least one under the changed law all the way.
pub fn shrink(law: Law, case: &Case) -> Case {
    let mut now = case.clone();
    loop {
        let smaller = candidates(&now).into_iter().find_map(|mut candidate| {
            // Climbing ends only in trees, so that is looked at before anything.
            if size(&candidate) >= size(&now) || !is_sound(&candidate.x) || !is_sound(&candidate.y) {
                return None;
            }
            candidate.table = candidate.least_table(law);
            let false_still = candidate.supposed(law) && !candidate.false_parts(law).is_empty();
            false_still.then_some(candidate)
        });
        match smaller {
            Some(smaller) => now = smaller,
            None => return fuller_first(now),
        }
    }
}

/// The statement is the same both ways round; x reads best as the fuller one.
fn fuller_first(case: Case) -> Case {
    if case.x.standing() >= case.y.standing() {
        return case;
    }
    Case { x: case.y, y: case.x, ..case }
}

fn is_sound(itinerary: &Itinerary) -> bool {
    Itinerary::read(&itinerary.bytes()).is_ok()
}

fn candidates(case: &Case) -> Vec<Case> {
    let (x, y) = (case.x.without_clients(), case.y.without_clients());
    let mut all = vec![Case { x, y, ..case.clone() }];
    for number in case.x.numbers() {
        all.push(without_record(case, number));
    }
    for place in 0..case.events.len() {
        let mut fewer = case.clone();
        fewer.events.remove(place);
        all.push(fewer);
    }
    for number in case.x.numbers() {
        all.extend(with_gone(case, number));
    }
    for label in 1..64 {
        if case.policy[label] != 0 {
            let mut lower = case.clone();
            lower.policy[label] = 0;
            all.push(lower);
        }
    }
    for number in case.x.numbers() {
        all.extend(with_lower_fields(case, number));
    }
    for name in 1..64 {
        all.push(with_lower_name(case, name));
    }
    all
}

/// One name becomes the name below it wherever it stands.
fn with_lower_name(case: &Case, name: u8) -> Case {
    let mut changed = case.clone();
    for itinerary in [&mut changed.x, &mut changed.y] {
        for record in itinerary.records.iter_mut().filter(|record| record.name == name) {
            record.name = name - 1;
        }
    }
    changed
}

/// The children of the record go to its parent, and it becomes gone.
fn lift_out(itinerary: &mut Itinerary, number: u16) {
    let parent = itinerary.records[number as usize - 1].parent;
    for record in &mut itinerary.records {
        if record.parent == number {
            record.parent = parent;
        }
    }
    itinerary.records[number as usize - 1] = Record::GONE;
}

/// The record is taken out of both, higher numbers close up.
fn without_record(case: &Case, number: u16) -> Case {
    let close_up = |old: u16| if old > number { old - 1 } else { old };
    let mut fewer = case.clone();
    for itinerary in [&mut fewer.x, &mut fewer.y] {
        lift_out(itinerary, number);
        itinerary.records.remove(number as usize - 1);
        for record in &mut itinerary.records {
            record.parent = close_up(record.parent);
        }
    }
    fewer.events.retain(|event| event.number() != number);
    for event in &mut fewer.events {
        *event = match *event {
            Event::Step(actor, partner) => Event::Step(close_up(actor), close_up(partner)),
            Event::Copy(copier) => Event::Copy(close_up(copier)),
        };
    }
    fewer
}

/// The record becomes gone in x, in y, or in both.
fn with_gone(case: &Case, number: u16) -> Vec<Case> {
    let mut found = Vec::new();
    for (in_x, in_y) in [(true, true), (false, true), (true, false)] {
        let mut fewer = case.clone();
        if in_x {
            lift_out(&mut fewer.x, number);
        }
        if in_y {
            lift_out(&mut fewer.y, number);
        }
        found.push(fewer);
    }
    found
}

/// Smaller kinds, labels, names, parents and clients, and the other itinerary's record.
fn with_lower_fields(case: &Case, number: u16) -> Vec<Case> {
    let place = number as usize - 1;
    let (old_x, old_y) = (case.x.records[place], case.y.records[place]);
    let mut found = Vec::new();
    let mut add = |x: Record, y: Record| {
        let mut changed = case.clone();
        changed.x.records[place] = x;
        changed.y.records[place] = y;
        found.push(changed);
    };
    add(old_x, old_x);
    add(old_y, old_y);
    for (x, y) in lower(&old_x).into_iter().zip(lower(&old_y)) {
        add(x, y);
        add(x, old_y);
        add(old_x, y);
    }
    found
}

/// The record with one field lower by one, or at its lowest.
fn lower(record: &Record) -> Vec<Record> {
    if record.kind == Kind::Gone {
        return vec![Record::GONE; 9];
    }
    let first = *record.kind.labels().start();
    let label = |label: u8| Record { label: label.max(first), ..*record };
    vec![
        label(first),
        label(record.label.saturating_sub(1)),
        label(record.label.saturating_sub(2)),
        Record { name: 0, ..*record },
        Record { name: record.name.saturating_sub(1), ..*record },
        Record { parent: 0, ..*record },
        Record { parent: record.parent.saturating_sub(1), ..*record },
        Record { client: 0, ..*record },
        Record { client: record.client.saturating_sub(1), ..*record },
    ]
}
