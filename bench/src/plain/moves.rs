//! The list of moves and its tally.

use super::itinerary::{validate, Record, AMBIENT, IN, OUT, RECORD};
use super::refuse;
use super::steps::ready;
use birnsket::{Refusal, Tally};

/// What an actor that can act takes: ambients of that name and parent, among the numbers from `first` to `last` and
/// other than `but`.
struct Wanted {
    name: u8,
    parent: u16,
    first: u16,
    last: u16,
    but: u16,
}

/// What the actor takes, or 10 or 11.
fn wanted(itinerary: &[u8], actor: u16) -> Result<Wanted, u8> {
    let (c, a) = ready(itinerary, actor)?;
    let (name, last) = (c.name, (itinerary.len() / RECORD) as u16);
    Ok(match c.kind {
        IN => Wanted { name, parent: a.parent, first: 1, last, but: c.parent },
        // None where the environment is around the mover.
        OUT => {
            let parent = Record::at(itinerary, a.parent).parent;
            Wanted { name, parent, first: a.parent.max(1), last: a.parent, but: 0 }
        }
        _ => Wanted { name, parent: c.parent, first: 1, last, but: 0 },
    })
}

impl Wanted {
    /// The partners that it takes, from the lowest up.
    fn partners<'a>(&'a self, itinerary: &'a [u8]) -> impl Iterator<Item = u16> + 'a {
        let part = &itinerary[RECORD * usize::from(self.first - 1)..RECORD * usize::from(self.last)];
        let fits = |(p, number): &(Record, u16)| {
            p.kind == AMBIENT && p.name == self.name && p.parent == self.parent && *number != self.but
        };
        part.chunks_exact(RECORD).map(Record::read).zip(self.first..).filter(fits).map(|(_, number)| number)
    }
}

/// How many pairs answer what; partners are looked at only where the actor can act.
fn tally(itinerary: &[u8]) -> Tally {
    let count = (itinerary.len() / RECORD) as u32;
    let mut moves = Tally::default();
    for actor in 1..=count as u16 {
        match wanted(itinerary, actor) {
            Err(10) => moves.no_capability += count,
            Err(_) => moves.inactive += count,
            Ok(wanted) => {
                let fit = wanted.partners(itinerary).count() as u32;
                moves.done += fit;
                moves.unfit += count - fit;
            }
        }
    }
    moves
}

fn write(itinerary: &[u8], list: &mut [u8]) {
    let mut places = list.chunks_exact_mut(4);
    for actor in 1..=(itinerary.len() / RECORD) as u16 {
        let Ok(wanted) = wanted(itinerary, actor) else { continue };
        for (partner, place) in wanted.partners(itinerary).zip(&mut places) {
            place[..2].copy_from_slice(&actor.to_le_bytes());
            place[2..].copy_from_slice(&partner.to_le_bytes());
        }
    }
}

/// Counts all pairs, then writes those whose step would be done.
pub fn moves(itinerary: &[u8], list: &mut [u8]) -> Result<Tally, Refusal> {
    validate(itinerary)?;
    let moves = tally(itinerary);
    let length = 4 * moves.done as usize;
    if list.len() < length {
        return refuse(15);
    }
    write(itinerary, &mut list[..length]);
    Ok(moves)
}

/// Compares one byte of all pairs of records, the name: how many pairs have the same. It is what a loop over all pairs
/// takes at the least.
pub fn same_names(itinerary: &[u8]) -> u32 {
    let mut same = 0;
    for actor in itinerary.chunks_exact(RECORD) {
        for partner in itinerary.chunks_exact(RECORD) {
            same += u32::from(actor[2] == partner[2]);
        }
    }
    same
}

#[cfg(test)]
mod tests {
    use super::*;
    use simulator::generate::trees::{tree, Mix};
    use simulator::random::Random;

    /// The rows' inputs have few ins and outs.
    #[test]
    fn moves_are_the_simulators() {
        let random = &mut Random::new(1);
        let mut numbers = [0; 16];
        for round in 0..2_000 {
            let mix = if round % 2 == 0 { Mix::lively(random) } else { Mix::crowded(random) };
            let bytes = tree(random, &mix).bytes();
            let room = if random.chance(70) { 2_000 } else { random.below(40) };
            let (mut wanted, mut got) = (vec![7; room], vec![7; room]);
            let answer = simulator::moves(&bytes, &mut wanted);
            let [done, no_capability, inactive, unfit, ..] = answer.values;
            let expected = match u32::from(answer.number) {
                0 => Ok(Tally { done, no_capability, inactive, unfit }),
                number => refuse(number),
            };
            assert_eq!((moves(&bytes, &mut got), got), (expected, wanted));
            numbers[usize::from(answer.number)] += 1;
        }
        assert!(numbers[0] > 1_000 && numbers[15] > 100, "{numbers:?}");
    }
}
