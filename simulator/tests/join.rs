//! Four itineraries joined: the bytes, the order of refusals, the buffer, and what the members say of the joined bench.

use simulator::generate::damage::damage;
use simulator::generate::examples::{lettered, nested, runs};
use simulator::generate::policies::{bad, telling, usual};
use simulator::generate::relabel::Relabel;
use simulator::generate::sets::{alone, drawn, regrouped, Set, UNUSED};
use simulator::generate::tables::{any_bit, forbidden_bit, full, sparse};
use simulator::generate::trees::Mix;
use simulator::law::Law;
use simulator::random::Random;
use simulator::record::{join, Itinerary, Kind};
use simulator::secrecy::{search::search, sets};
use simulator::table::{close, least, Policy, Table};

const FILLER: u8 = 0xee;

type Bytes = [Vec<u8>; 4];

fn bytes(set: &Set) -> Bytes {
    set.each_ref().map(Itinerary::bytes)
}

/// Number and record of the answer, and the buffer after it, which had that many bytes of the filler.
fn asked(members: &Bytes, policy: &[u8], table: &[u8], room: usize) -> ((u8, u16), Vec<u8>) {
    let mut joined = vec![FILLER; room];
    let answer = simulator::join(members.each_ref().map(|member| &member[..]), policy, table, &mut joined);
    assert_eq!(answer.values, [0; 6]);
    ((answer.number, answer.record), joined)
}

/// Asks with a buffer of the joined length; nothing is written where it is refused.
fn answer(members: &Bytes, policy: &[u8], table: &[u8]) -> (u8, u16) {
    let (answer, joined) = asked(members, policy, table, members.concat().len());
    assert!(answer.0 == 0 || joined.iter().all(|&byte| byte == FILLER));
    answer
}

/// What the call makes of members that it takes.
fn joined(members: &Bytes, policy: &[u8], table: &[u8]) -> Vec<u8> {
    let (answer, joined) = asked(members, policy, table, members.concat().len());
    assert_eq!(answer, (0, 0));
    joined
}

fn least_of(set: &Set, policy: &Policy) -> Table {
    least(Law::Document, &[&join(set)], policy)
}

#[test]
fn a_and_b() {
    let [a, b, ..] = lettered();
    let (set, policy) = ([a.clone(), b.clone(), UNUSED, UNUSED], usual());
    let mut table = vec![7; 1544];
    assert_eq!(simulator::maker(&b.bytes(), &policy, &mut table).values[0], 7);
    let bench = joined(&bytes(&set), &policy, &table);
    let records = [
        [1, 1, 0, 0, 0, 0, 0, 0],
        [1, 2, 1, 0, 1, 0, 0, 0],
        [1, 1, 0, 0, 0, 0, 0, 0],
        [1, 2, 1, 0, 3, 0, 0, 0],
        [3, 64, 0, 0, 4, 0, 0, 0],
    ];
    assert_eq!(bench, records.concat());
    assert_eq!(simulator::verdict(&bench, &policy, &table).values[..2], [1, 2]);
    // A's own table has no place for B's capability.
    assert_eq!(simulator::maker(&a.bytes(), &policy, &mut table).values[0], 5);
    assert_eq!(answer(&bytes(&set), &policy, &table), (9, 0));
    assert_eq!(answer(&bytes(&alone(&a, 3)), &policy, &table), (0, 0));
}

/// The first client's packet goes into the second one's box, which isn't there before.
#[test]
fn what_is_joined_meets() {
    let packet = vec![1, 1, 0, 0, 0, 0, 0, 0, 2, 64, 5, 0, 1, 0, 0, 0];
    let room = vec![0, 0, 0, 0, 0, 0, 0, 0, 1, 2, 5, 0, 0, 0, 0, 0];
    let mut bench = joined(&[vec![], room, packet.clone(), vec![]], &[0; 64], &full().bytes);
    assert_eq!(simulator::moves(&packet, &mut []).values[0], 0);
    let mut list = [7; 4];
    assert_eq!(simulator::moves(&bench, &mut list).values[0], 1);
    assert_eq!(list, [4, 0, 2, 0]);
    assert_eq!(simulator::step(&mut bench, 4, 2).number, 0);
    assert_eq!(bench[16..24], [1, 1, 0, 0, 2, 0, 0, 0]);
}

#[test]
fn three_unused_places_give_back_the_member() {
    let random = &mut Random::new(41);
    for round in 0..200 {
        let mix = if round % 20 == 0 { Mix::medium } else { Mix::small };
        let [member, ..] = drawn(random, mix);
        let policy = telling(random, &member);
        for place in 0..4 {
            let set = alone(&member, place);
            assert_eq!(joined(&bytes(&set), &policy, &least_of(&set, &policy).bytes), member.bytes());
        }
    }
    assert_eq!(joined(&bytes(&[UNUSED; 4]), &usual(), &full().bytes), []);
}

/// Each record is a member's, with another parent at most; that is the same record of the member.
#[test]
fn records_of_the_joined_bench_are_the_members() {
    let random = &mut Random::new(42);
    let mut moved = 0;
    for round in 0..300 {
        let set = drawn(random, if round % 10 == 0 { Mix::medium } else { Mix::lively });
        let bench = joined(&bytes(&set), &[0; 64], &least_of(&set, &[0; 64]).bytes);
        assert_eq!(simulator::validate(&bench).values[0] as usize, bench.len() / 8);
        let places =
            set.iter().flat_map(|member| member.bytes().chunks(8).map(<[u8]>::to_vec).collect::<Vec<_>>());
        let starts = set.iter().scan(0, |start, member| {
            let of_member = vec![*start; member.count()];
            *start += member.count();
            Some(of_member)
        });
        for ((record, old), start) in bench.chunks(8).zip(places).zip(starts.flatten()) {
            assert_eq!((&record[..4], &record[6..]), (&old[..4], &old[6..]));
            let parent = |bytes: &[u8]| usize::from(bytes[4]) + 256 * usize::from(bytes[5]);
            assert_eq!(parent(record), if parent(&old) == 0 { 0 } else { parent(&old) + start });
            moved += usize::from(parent(record) != parent(&old));
        }
    }
    assert!(moved > 1_000, "{moved}");
}

/// A table for the set: the least one, above it, for three members, anything, or one of these with a bit turned.
fn draw_table(random: &mut Random, relabel: &Relabel, set: &Set, policy: &Policy) -> Table {
    let bits = random.between(1, 12);
    let more = sparse(random, relabel, bits);
    let place = random.below(4);
    let mut table = match random.below(8) {
        0..=2 => least_of(set, policy),
        3 => close(Law::Document, &[&join(set)], policy, &more),
        4..=6 => {
            let others: Vec<&Itinerary> =
                (0..4).filter(|&other| other != place).map(|other| &set[other]).collect();
            least(Law::Document, &others, policy)
        }
        _ => more,
    };
    if random.chance(40) {
        let bits = table.bits();
        let any = relabel.bit(any_bit(random));
        let bit = if random.chance(50) { random.choose(&bits).unwrap_or(any) } else { any };
        table.bytes[bit / 8] ^= 1 << (bit % 8);
    }
    table
}

/// A set under other labels, its policy and a table.
fn draw_bench(random: &mut Random) -> (Set, Policy, Table) {
    let mix = if random.chance(50) { Mix::small } else { Mix::lively };
    let relabel = Relabel::draw(random);
    let set = drawn(random, mix).map(|member| relabel.itinerary(&member));
    let policy = relabel.policy(&telling(random, &join(&set)));
    let table = draw_table(random, &relabel, &set, &policy);
    (set, policy, table)
}

#[test]
fn one_table_holds_for_all_exactly_when_for_each() {
    let random = &mut Random::new(43);
    // How many of the members the table holds for; of one or more it doesn't.
    let mut met = [0; 5];
    for _ in 0..3_000 {
        let (set, policy, table) = draw_bench(random);
        let checked = bytes(&set).map(|member| simulator::check(&member, &policy, &table.bytes).number);
        let held = checked.iter().filter(|&&number| number == 0).count();
        assert!(checked.iter().all(|number| [0, 9].contains(number)) || !table.is_formed());
        let wanted = checked.into_iter().find(|&number| number != 0).unwrap_or(0);
        assert_eq!(answer(&bytes(&set), &policy, &table.bytes), (wanted, 0));
        met[held] += usize::from(table.is_formed());
    }
    assert!(met[1..].iter().all(|&times| times > 40), "{met:?}");
}

#[test]
fn the_least_table_is_that_of_all_members() {
    let random = &mut Random::new(44);
    for _ in 0..400 {
        let (set, policy, _) = draw_bench(random);
        assert!(least_of(&set, &policy) == least(Law::Document, &set.each_ref(), &policy));
    }
}

#[test]
fn the_sheet_is_the_joined_sheets() {
    let random = &mut Random::new(45);
    let (mut shown, mut hidden) = (0, 0);
    for _ in 0..1_500 {
        let (set, policy, table) = draw_bench(random);
        if !table.is_formed() {
            continue;
        }
        let sheet = |itinerary: &[u8]| {
            let mut sheet = vec![FILLER; itinerary.len()];
            assert_eq!(simulator::sheet(itinerary, &table.bytes, &mut sheet).number, 0);
            sheet
        };
        let sheets = bytes(&set).map(|member| sheet(&member));
        // Which table takes the sheets makes no difference to what they are joined.
        let read: Set = sheets.each_ref().map(|sheet| Itinerary::read(sheet).unwrap());
        let of_sheets = joined(&sheets, &policy, &least_of(&read, &policy).bytes);
        let of_joined = sheet(&join(&set).bytes());
        assert_eq!(of_joined, of_sheets);
        for (record, old) in of_joined.chunks(8).zip(join(&set).bytes().chunks(8)) {
            shown += usize::from(record[0] != 0);
            hidden += usize::from(record[0] != old[0]);
        }
    }
    assert!(shown > 5_000 && hidden > 5_000, "{shown} {hidden}");
}

#[test]
fn where_members_are_cut_makes_no_difference() {
    let random = &mut Random::new(46);
    for _ in 0..300 {
        let (set, policy, table) = draw_bench(random);
        let other = regrouped(random, &set);
        let room = bytes(&set).concat().len();
        assert_eq!(
            asked(&bytes(&set), &policy, &table.bytes, room),
            asked(&bytes(&other), &policy, &table.bytes, room)
        );
    }
}

/// The first refused member answers, with the record as it is numbered there, whatever else is wrong.
#[test]
fn members_are_looked_at_first_and_in_order() {
    let random = &mut Random::new(47);
    let mut met = [[0; 7]; 4];
    for _ in 0..4_000 {
        let (set, policy, table) = draw_bench(random);
        let mut members = bytes(&set);
        for _ in 0..random.between(1, 2) {
            let (place, cause) = (random.below(4), random.between(1, 6));
            damage(random, &mut members[place], cause as u8);
        }
        let validated = members.each_ref().map(|member| simulator::validate(member));
        let Some(place) = validated.iter().position(|answer| answer.number != 0) else { continue };
        let policy = if random.chance(30) { bad(random) } else { policy.to_vec() };
        let table = if random.chance(30) { &[][..] } else { &table.bytes };
        let room = members.concat().len() + random.pick(&[0, 0, 1, 8]);
        let (answer, joined) = asked(&members, &policy, table, room);
        assert_eq!(answer, (validated[place].number, validated[place].record));
        assert!(joined.iter().all(|&byte| byte == FILLER));
        met[place][usize::from(answer.0)] += 1;
    }
    assert!(met.iter().flat_map(|numbers| &numbers[1..]).all(|&times| times > 15), "{met:?}");
}

#[test]
fn parents_of_the_set_are_none_of_a_members() {
    let [_, b, ..] = lettered();
    for (place, parent, number) in [(0, 4, 5), (1, 6, 5), (3, 9, 5), (2, 2, 6), (1, 1, 0)] {
        let mut members = [0; 4].map(|_| b.bytes());
        members[place][12] = parent;
        let record = if number == 0 { 0 } else { 2 };
        assert_eq!(answer(&members, &[0; 64], &full().bytes), (number, record), "{place} {parent}");
    }
    // Eight bytes together are none of a record.
    assert_eq!(
        answer(&[vec![1, 1, 0], vec![0, 0, 0, 0, 0], vec![], vec![]], &[0; 64], &full().bytes),
        (1, 0)
    );
}

#[test]
fn at_most_1024_records_together() {
    let zeros = |counts: [usize; 4]| counts.map(|count| vec![0; 8 * count]);
    let table = full().bytes;
    for counts in [[1024, 0, 0, 0], [0, 0, 1, 1023], [256; 4], [0, 1024, 0, 0]] {
        assert_eq!(joined(&zeros(counts), &usual(), &table), [0; 8192]);
    }
    for counts in [[1024, 1, 0, 0], [0, 0, 0, 1025], [256, 256, 256, 257], [1024; 4]] {
        let together: usize = counts.iter().sum();
        let wanted = if counts[3] == 1025 { (1, 0) } else { (16, 0) };
        for room in [0, 8, 8192, 8 * together] {
            let (answer, joined) = asked(&zeros(counts), &usual(), &table, room);
            assert_eq!((answer, joined), (wanted, vec![FILLER; room]));
        }
    }
}

#[test]
fn a_buffer_of_every_other_length() {
    let random = &mut Random::new(48);
    let long = [nested(&[1, 2, 3]), runs(&[(Kind::Gone, 1000)]), UNUSED, nested(&[4, 5])];
    for set in [lettered()[..4].to_vec().try_into().unwrap(), alone(&nested(&[9]), 2), [UNUSED; 4], long] {
        let (members, table) = (bytes(&set), full().bytes);
        let right = members.concat().len();
        assert_eq!(joined(&members, &usual(), &table), join(&set).bytes());
        let far = (0..40).map(|_| random.below(20_000)).collect::<Vec<_>>();
        for room in (right.saturating_sub(20)..right + 20).chain(far).filter(|&room| room != right) {
            assert_eq!(asked(&members, &usual(), &table, room), ((16, 0), vec![FILLER; room]));
        }
    }
}

/// 16, then 7, then 8 with the form of the table, then 9.
#[test]
fn the_set_then_the_policy_then_the_table() {
    let random = &mut Random::new(49);
    for round in 0..160 {
        let [set, policy, table, lacks] = [1, 2, 4, 8].map(|bit| round & bit != 0);
        let mix = if round % 3 == 0 { Mix::small } else { Mix::lively };
        let mut members = bytes(&drawn(random, mix));
        members[0].extend([1, 1, 0, 0, 0, 0, 0, 0]);
        let mut good = if lacks { Table::empty() } else { full() };
        if table && random.chance(50) {
            good.set(forbidden_bit(random));
        }
        let length = if !table || !good.is_formed() { 1544 } else { random.pick(&[0, 1543]) };
        let right = members.concat().len();
        let room = if set { random.pick(&[right - 1, right + 1, right + 8]) } else { right };
        let class = if policy { bad(random) } else { vec![0; 64] };
        let wanted = match (set, policy, table, lacks) {
            (true, ..) => 16,
            (_, true, ..) => 7,
            (_, _, true, _) => 8,
            (.., lacks) => 9 * u8::from(lacks),
        };
        let (answer, joined) = asked(&members, &class, &good.bytes[..length], room);
        assert_eq!(answer, (wanted, 0));
        assert!(wanted == 0 || joined.iter().all(|&byte| byte == FILLER));
    }
}

/// Two sets that the call takes, sealed and with equal sheets, go through the same steps.
#[test]
fn the_secrecy_statement_on_joined_benches() {
    let (found, tally) = search(Law::Document, sets::draw, 7, 20_000);
    assert!(found.is_none());
    assert!(tally.different > 100 && tally.shown_done > 100 && tally.hidden_done > 10, "{}", tally.line());
    for (law, count) in [(Law::NoSuspectOpen, 1_000), (Law::PNever0, 100)] {
        assert!(search(law, sets::draw, 7, count).0.is_some(), "{}", law.name());
    }
}
