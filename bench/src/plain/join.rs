//! Four itineraries joined.

use super::itinerary::{validate, Record, RECORD};
use super::refuse;
use super::tables::{is_formed, is_policy, Table};
use birnsket::Refusal;

/// Puts the member's records into a part as long as it, behind so many others.
fn put(member: &[u8], before: u16, part: &mut [u8]) {
    for (bytes, place) in member.chunks_exact(RECORD).zip(part.chunks_exact_mut(RECORD)) {
        let parent = Record::read(bytes).parent;
        let moved = if parent == 0 { 0 } else { parent + before };
        place.copy_from_slice(bytes);
        place[4..6].copy_from_slice(&moved.to_le_bytes());
    }
}

fn write(members: [&[u8]; 4], joined: &mut [u8]) {
    let mut at = 0;
    for member in members {
        put(member, (at / RECORD) as u16, &mut joined[at..at + member.len()]);
        at += member.len();
    }
}

/// Checks the table against each member, which is the same as against what they are joined: the rules of all at once.
pub fn join(members: [&[u8]; 4], policy: &[u8], table: &[u8], joined: &mut [u8]) -> Result<(), Refusal> {
    let mut count = 0;
    for member in members {
        count += validate(member)? as usize;
    }
    if count > 1024 || joined.len() != RECORD * count {
        return refuse(16);
    }
    if !is_policy(policy) {
        return refuse(7);
    }
    if !is_formed(table) {
        return refuse(8);
    }
    let table = Table::read(table);
    if !table.holds(&members, policy) {
        return refuse(9);
    }
    write(members, joined);
    Ok(())
}

#[cfg(test)]
mod tests {
    use super::*;
    use simulator::generate::damage::damage;
    use simulator::generate::policies::{bad, good};
    use simulator::generate::sets::drawn;
    use simulator::generate::trees::Mix;
    use simulator::law::Law;
    use simulator::random::Random;
    use simulator::table::least;

    /// The rows' sets are all good.
    #[test]
    fn joins_are_the_simulators() {
        let random = &mut Random::new(3);
        let mut numbers = [0; 17];
        for round in 0..3_000 {
            let set = drawn(random, Mix::lively);
            let policy = good(random);
            let mut table = least(Law::Document, &set.each_ref()[round % 2..], &policy).bytes.to_vec();
            let mut members = set.map(|member| member.bytes());
            if round % 3 == 0 {
                let (place, cause) = (random.below(4), random.between(1, 6));
                damage(random, &mut members[place], cause as u8);
            }
            let policy = if random.chance(10) { bad(random) } else { policy.to_vec() };
            table[1024] = u8::from(random.chance(10));
            let room = members.concat().len() + random.pick(&[0, 0, 0, 0, 0, 1, 8]);
            let members = members.each_ref().map(|member| &member[..]);
            let (mut wanted, mut got) = (vec![7; room], vec![7; room]);
            let answer = simulator::join(members, &policy, &table, &mut wanted);
            let refusal = Refusal { number: answer.number.into(), record: answer.record.into() };
            let expected = if answer.number == 0 { Ok(()) } else { Err(refusal) };
            assert_eq!((join(members, &policy, &table, &mut got), got), (expected, wanted));
            numbers[usize::from(answer.number)] += 1;
        }
        assert!((0..10).chain([16]).all(|number| numbers[number] > 20), "{numbers:?}");
    }
}
