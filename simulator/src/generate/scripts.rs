//! Steps and scripts: many that are done, and partners unfit for each cause.

use crate::copies;
use crate::law::Law;
use crate::random::Random;
use crate::record::{Itinerary, Kind};
use crate::steps;

/// Every partner with which this actor's step would be done.
pub fn fit_partners(itinerary: &Itinerary, actor: u16) -> Vec<u16> {
    // An actor that cannot act is not worth looking at every partner for.
    if steps::answer(Law::Document, itinerary, actor, 0) != 12 {
        return Vec::new();
    }
    let fits = |&partner: &u16| steps::answer(Law::Document, itinerary, actor, partner) == 0;
    itinerary.numbers().filter(fits).collect()
}

pub fn capabilities(itinerary: &Itinerary) -> Vec<u16> {
    let capability = |number: &u16| itinerary.get(*number).is_some_and(|record| record.kind.is_capability());
    itinerary.numbers().filter(capability).collect()
}

/// A step that would be done, if a few tries find one.
pub fn done_step(random: &mut Random, itinerary: &Itinerary) -> Option<(u16, u16)> {
    let mut actors = capabilities(itinerary);
    random.shuffle(&mut actors);
    for &actor in actors.iter().take(12) {
        if let Some(partner) = random.choose(&fit_partners(itinerary, actor)) {
            return Some((actor, partner));
        }
    }
    None
}

/// Any number, most of the time a record's.
pub fn any_number(random: &mut Random, itinerary: &Itinerary) -> u16 {
    match random.below(40) {
        0 => 65535,
        1 => 1025,
        2 => 256,
        _ => random.below(itinerary.count() + 2) as u16,
    }
}

pub fn any_step(random: &mut Random, itinerary: &Itinerary) -> (u16, u16) {
    (any_number(random, itinerary), any_number(random, itinerary))
}

/// A copier whose copy would be done.
pub fn done_copy(random: &mut Random, itinerary: &Itinerary) -> Option<u16> {
    let room = copies::gone(itinerary).len();
    let mut copiers = copies::active_copiers(itinerary);
    copiers.retain(|&copier| copies::beneath(itinerary, copier).len() <= room);
    random.choose(&copiers)
}

/// Partners for one actor, one for each cause to be unfit, and fit ones.
pub fn partners(random: &mut Random, itinerary: &Itinerary, actor: u16) -> Vec<u16> {
    let over = itinerary.count() as u16 + 1;
    let mut chosen = vec![0, over, 65535, actor];
    let Some(c) = itinerary.get(actor) else { return chosen };
    chosen.push(c.parent);
    let mover_parent = itinerary.get(c.parent).map_or(0, |mover| mover.parent);
    chosen.push(mover_parent);
    let near = |parent: u16| parent == c.parent || parent == mover_parent;
    let causes: [&dyn Fn(Kind, bool, bool) -> bool; 6] = [
        &|kind, _, _| kind == Kind::Gone,
        &|kind, _, _| kind == Kind::Copier,
        &|kind, _, _| kind.is_capability(),
        &|kind, named, near| kind == Kind::Ambient && named && !near,
        &|kind, named, near| kind == Kind::Ambient && !named && near,
        &|kind, named, near| kind == Kind::Ambient && named && near,
    ];
    for cause in causes {
        let of_cause = |number: &u16| {
            let record = itinerary.records[*number as usize - 1];
            cause(record.kind, record.name == c.name, near(record.parent))
        };
        let numbers: Vec<u16> = itinerary.numbers().filter(of_cause).collect();
        chosen.extend(random.choose(&numbers));
    }
    chosen.extend(random.choose(&fit_partners(itinerary, actor)));
    chosen
}

/// A script of that many steps, `good` percent of them drawn to be done.
pub fn script(random: &mut Random, itinerary: &Itinerary, count: usize, good: usize) -> Vec<u8> {
    let mut state = itinerary.clone();
    let mut drawn_steps = Vec::new();
    for _ in 0..count {
        let drawn = if random.chance(good) { done_step(random, &state) } else { None };
        let (actor, partner) = drawn.unwrap_or_else(|| any_step(random, &state));
        let _ = steps::step(Law::Document, &mut state, actor, partner);
        drawn_steps.push((actor, partner));
    }
    steps::script(&drawn_steps)
}
