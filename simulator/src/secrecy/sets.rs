//! Pairs of joined benches that an observer cannot tell apart at the start. Both come from the call itself, which has
//! to take each set under the one policy and table.

use super::copying::with_copiers;
use super::pairs::{change_hidden, complete, draw_mix, draw_policy, guard};
use super::Case;
use crate::calls;
use crate::generate::sets::{regrouped, Set, UNUSED};
use crate::generate::trees::{tree, Mix};
use crate::law::Law;
use crate::random::Random;
use crate::record::{join, Itinerary};
use crate::table::{least, Policy, Table};

/// A case that may be supposed, of two joined sets, or none if the draw did not work out. The second set has the hidden
/// part of each member changed, and now and then the same records in other members.
pub fn draw(random: &mut Random, law: Law) -> Option<Case> {
    let (mut mix, policy) = (draw_mix(random), draw_policy(random));
    if random.chance(50) {
        mix = with_copiers(random, mix);
    }
    let x: Set = std::array::from_fn(|_| draw_member(random, &mix));
    let hiding = least(law, &[&join(&x)], &policy);
    let changed = x.iter().map(|member| change_hidden(random, &mix, member, &hiding));
    let mut y: Set = changed.collect::<Option<Vec<Itinerary>>>()?.try_into().ok()?;
    if random.chance(30) {
        y = regrouped(random, &y);
    }
    let case = complete(random, law, join(&x), join(&y), policy)?;
    for (set, bench) in [(&x, &case.x), (&y, &case.y)] {
        let joined = joined_by_call(law, set, &case.policy, &case.table);
        assert_eq!(joined.as_ref(), Some(bench), "a table for the bench is one for the set");
    }
    Some(case)
}

fn draw_member(random: &mut Random, mix: &Mix) -> Itinerary {
    if random.chance(15) {
        return UNUSED;
    }
    let records = random.between(2, 6);
    let mut member = tree(random, &Mix { records, ..*mix });
    guard(random, &mut member);
    member
}

/// The bench that the call makes of a set, if it takes the set.
pub fn joined_by_call(law: Law, set: &Set, policy: &Policy, table: &Table) -> Option<Itinerary> {
    let members = set.each_ref().map(Itinerary::bytes);
    let mut joined = vec![0; members.concat().len()];
    let members = members.each_ref().map(|member| &member[..]);
    calls::join(law, members, policy, &table.bytes, &mut joined).ok()?;
    Itinerary::read(&joined).ok()
}
