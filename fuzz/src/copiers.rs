//! Copiers of many records, and which copy is asked for.

use crate::calls::Call;
use simulator::copies::active_copiers;
use simulator::generate::clients;
use simulator::generate::scripts::done_copy;
use simulator::generate::trees::{beneath_a_copier, chain, shuffled, tree, Links, Mix};
use simulator::random::Random;
use simulator::record::{Itinerary, Kind, Record, MOST_RECORDS};

/// 1,024 records in any order: a copier, beneath it a tree or a chain of about half of them, and just as many gone ones,
/// a few less, or a few more.
pub fn of_full(random: &mut Random) -> Itinerary {
    let count = random.pick(&[300, 480, 509, 510, 511, 511, 512]);
    let below = match random.below(3) {
        0 => chain(
            count,
            random.pick(&[Links::Ambients, Links::Capabilities, Links::Turns]),
            random.chance(50),
        ),
        _ => {
            let mix = Mix { gone: 0, clients: 70, ..Mix::medium(random) };
            tree(random, &Mix { records: count, ..mix })
        }
    };
    let gone = (count + random.pick(&[0, 0, 1, 9])).min(MOST_RECORDS - 1 - count);
    let mut itinerary = beneath_a_copier(&below, gone);
    // Ambients fill the rest, and the copier may stand in the last of them.
    let rest = itinerary.count() < MOST_RECORDS;
    itinerary.records.resize(MOST_RECORDS, Record { kind: Kind::Ambient, label: 1, ..Record::GONE });
    itinerary.records[count].client = clients::draw(random, 50);
    if rest && random.chance(50) {
        itinerary.records[count].parent = MOST_RECORDS as u16;
    }
    shuffled(random, &itinerary)
}

/// A copy that is done if there is one, one of an active copier, of any copier, or of that number.
pub fn draw_copy(random: &mut Random, itinerary: &[u8], number: u16) -> Call {
    let Ok(itinerary) = Itinerary::read(itinerary) else { return Call::Copy(number) };
    let copiers =
        || itinerary.numbers().filter(|&number| itinerary.is(Kind::Copier, number)).collect::<Vec<_>>();
    let drawn = match random.below(10) {
        0..=3 => done_copy(random, &itinerary),
        4..=6 => random.choose(&active_copiers(&itinerary)),
        7 => random.choose(&copiers()),
        _ => None,
    };
    Call::Copy(drawn.unwrap_or(number))
}
