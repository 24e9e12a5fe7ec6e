//! Client numbers: which are taken, that moves keep them, what the sheet shows, and who doesn't read them.

use simulator::generate::clients::{given, GOOD, REFUSED};
use simulator::generate::damage::{damage, spoil_client};
use simulator::generate::examples::{shared, SHARED_STEPS};
use simulator::generate::policies::{telling, usual};
use simulator::generate::relabel::Relabel;
use simulator::generate::tables::{above_made, any_bit};
use simulator::generate::trees::{tree, Mix};
use simulator::law::Law;
use simulator::random::Random;
use simulator::record::{Itinerary, Kind, Record};
use simulator::secrecy::{on_sheet, pairs};
use simulator::table::{least, sheet, Policy, Table};
use simulator::term;
use simulator::Answer;

fn with_client(mut bytes: Vec<u8>, number: usize, client: u16) -> Vec<u8> {
    bytes[8 * number - 2..8 * number].copy_from_slice(&client.to_le_bytes());
    bytes
}

/// Number and record of what validation says.
fn validated(bytes: &[u8]) -> (u8, u16) {
    let answer = simulator::validate(bytes);
    (answer.number, answer.record)
}

/// The clients of all records.
fn clients(bytes: &[u8]) -> Vec<u16> {
    bytes.chunks(8).map(|record| u16::from(record[6]) + 256 * u16::from(record[7])).collect()
}

/// The bytes with those of the clients zero.
fn without(mut bytes: Vec<u8>) -> Vec<u8> {
    bytes.chunks_mut(8).for_each(|record| record[6..].fill(0));
    bytes
}

fn step(bytes: &mut [u8], actor: u16, partner: u16) {
    assert_eq!(simulator::step(bytes, actor, partner).number, 0);
}

#[test]
fn low_byte_first() {
    let record = Record { kind: Kind::In, label: 64, name: 3, parent: 0x0201, client: 0x0302 };
    assert_eq!(record.bytes(), [2, 64, 3, 0, 1, 2, 2, 3]);
    let read = Itinerary::read(&[1, 1, 0, 0, 0, 0, 0xe7, 3]).unwrap();
    assert_eq!(read.records, [Record { kind: Kind::Ambient, label: 1, name: 0, parent: 0, client: 999 }]);
}

#[test]
fn all_up_to_999_are_taken_and_no_others() {
    for client in 0..=u16::MAX {
        for record in [[1, 1, 0, 0, 0, 0, 0, 0], [2, 64, 0, 0, 0, 0, 0, 0]] {
            let wanted = if client < 1000 { (0, 0) } else { (2, 1) };
            assert_eq!(validated(&with_client(record.to_vec(), 1, client)), wanted, "{client}");
        }
        let wanted = if client == 0 { (0, 0) } else { (2, 1) };
        assert_eq!(validated(&with_client(vec![0; 8], 1, client)), wanted, "{client} on a gone record");
    }
    assert!(GOOD.iter().all(|&client| client < 1000) && REFUSED.iter().all(|&client| client > 999));
}

#[test]
fn byte_3_is_spare_still() {
    for byte in 1..=255 {
        assert_eq!(validated(&[1, 1, 0, byte, 0, 0, 17, 0]), (2, 1));
    }
}

/// 2 by a client comes before 3 to 5 of its record, behind all of the records before it, and before 6.
#[test]
fn the_client_is_looked_at_with_the_form() {
    let bad = [0xe8, 3];
    for fault in [[1, 64, 0, 0, 0, 0], [1, 0, 0, 0, 0, 0], [1, 1, 64, 0, 0, 0], [1, 1, 0, 0, 3, 0]] {
        let with = |client: [u8; 2]| [&fault[..], &client].concat();
        let first = [1, 1, 0, 0, 0, 0, 0, 0];
        let number = validated(&[&first[..], &with([0, 0])].concat()).0;
        assert!((3..=5).contains(&number));
        assert_eq!(validated(&[&first[..], &with(bad)].concat()), (2, 2));
        let spoilt = with_client(first.to_vec(), 1, 1000);
        assert_eq!(validated(&[&spoilt[..], &with([0, 0])].concat()), (2, 1));
        assert_eq!(validated(&[&with([17, 0])[..], &spoilt].concat()), (number, 1));
    }
    let ring = [1, 1, 0, 0, 1, 0, 0, 0];
    assert_eq!(validated(&[ring, [1, 1, 0, 0, 0, 0, 0xe8, 3]].concat()), (2, 2));
    assert_eq!(validated(&[ring, [1, 1, 0, 0, 0, 0, 0xe7, 3]].concat()), (6, 1));
}

/// Actor's children, mover and partner of an out, an in and an open, and what isn't touched.
#[test]
fn every_move_keeps_clients() {
    let mut bytes = shared().bytes();
    assert_eq!(clients(&bytes), [17, 999, 256, 1, 0, 512, 255, 998, 257, 0]);
    let [out, into, open] = SHARED_STEPS;
    step(&mut bytes, out.0, out.1);
    assert_eq!(clients(&bytes), [17, 999, 0, 1, 0, 512, 255, 998, 257, 0]);
    assert_eq!(
        (&bytes[8..16], &bytes[24..32]),
        (&[1, 2, 1, 0, 0, 0, 0xe7, 3][..], &[2, 65, 2, 0, 2, 0, 1, 0][..])
    );
    step(&mut bytes, into.0, into.1);
    assert_eq!(clients(&bytes), [17, 999, 0, 0, 0, 512, 255, 998, 257, 0]);
    assert_eq!(
        (&bytes[8..16], &bytes[64..72]),
        (&[1, 2, 1, 0, 6, 0, 0xe7, 3][..], &[1, 5, 4, 0, 2, 0, 1, 1][..])
    );
    step(&mut bytes, open.0, open.1);
    assert_eq!(clients(&bytes), [17, 0, 0, 0, 0, 512, 0, 998, 257, 0]);
    let wanted = [[1, 4, 3, 0, 6, 0, 0xe6, 3], [1, 5, 4, 0, 6, 0, 1, 1], [1, 6, 5, 0, 6, 0, 0, 0]];
    assert_eq!(bytes[56..], wanted.concat());
    assert_eq!(validated(&bytes), (0, 0));
}

#[test]
fn a_run_keeps_them_as_its_steps_do() {
    let (mut run, mut stepped) = (shared().bytes(), shared().bytes());
    let script = simulator::steps::script(&SHARED_STEPS);
    assert_eq!(simulator::run(&mut run, &script, &mut [7; 3]).values, [1, 1, 1, 0, 0, 0]);
    SHARED_STEPS.into_iter().for_each(|(actor, partner)| step(&mut stepped, actor, partner));
    assert_eq!(run, stepped);
    let mut screened = shared().bytes();
    assert_eq!(simulator::screen(&mut screened, &usual(), &script, &mut [7; 3]).number, 0);
    assert_eq!(screened, run);
}

/// In random itineraries each record that stands has after steps the client that it had.
#[test]
fn clients_stay_with_their_records() {
    let random = &mut Random::new(31);
    let mut moved = 0;
    for _ in 0..400 {
        let mix = Mix { clients: 90, ..Mix::lively(random) };
        let before = tree(random, &mix);
        let mut bytes = before.bytes();
        for _ in 0..30 {
            let count = before.count();
            let (actor, partner) = (random.between(1, count) as u16, random.between(1, count) as u16);
            moved += usize::from(simulator::step(&mut bytes, actor, partner).number == 0);
        }
        for (record, old) in Itinerary::read(&bytes).unwrap().records.iter().zip(&before.records) {
            let wanted = if record.kind == Kind::Gone { 0 } else { old.client };
            assert_eq!(record.client, wanted);
        }
    }
    assert!(moved > 200, "{moved}");
}

#[test]
fn the_sheet_shows_clients_of_what_it_shows() {
    let bytes = shared().bytes();
    let mut table = [0; 1544];
    assert_eq!(simulator::maker(&bytes, &[0; 64], &mut table).number, 0);
    let mut shown = vec![7; bytes.len()];
    assert_eq!(simulator::sheet(&bytes, &table, &mut shown).number, 0);
    assert_eq!(shown, bytes);
    // Label 2 suspect: record 2 and what is below it.
    table[1536] = 4;
    assert_eq!(simulator::sheet(&bytes, &table, &mut shown).number, 0);
    assert_eq!(clients(&shown), [17, 0, 0, 0, 0, 512, 255, 998, 0, 0]);
}

/// A small bench, its policy, and a table that holds or nearly does.
fn drawn(random: &mut Random) -> (Itinerary, Policy, Table) {
    let mix = Mix { clients: 80, ..Mix::lively(random) };
    let itinerary = tree(random, &mix);
    let policy = telling(random, &itinerary);
    let mut table = match random.chance(50) {
        true => least(Law::Document, &[&itinerary], &policy),
        false => above_made(random, &Relabel::none(), &itinerary, &policy),
    };
    if random.chance(40) {
        let bit = any_bit(random);
        table.bytes[bit / 8] ^= 1 << (bit % 8);
    }
    (itinerary, policy, table)
}

/// What the calls that write no itinerary answer, and the tables and lists that they write.
fn answers(itinerary: &[u8], policy: &Policy, table: &Table) -> (Vec<Answer>, Vec<u8>, Vec<u8>) {
    let (mut made, mut list) = (vec![7; 1544], vec![7; 1600]);
    let mut all = vec![
        simulator::validate(itinerary),
        simulator::check(itinerary, policy, &table.bytes),
        simulator::verdict(itinerary, policy, &table.bytes),
        simulator::exposed(itinerary, policy, &table.bytes),
        simulator::maker(itinerary, policy, &mut made),
        simulator::moves(itinerary, &mut list),
    ];
    let count = (itinerary.len() / 8) as u16;
    all.extend((0..=count + 1).map(|number| simulator::climb(itinerary, policy, number)));
    (all, made, list)
}

#[test]
fn nobody_else_reads_clients() {
    let random = &mut Random::new(32);
    let mut met = [0; 10];
    for _ in 0..600 {
        let (itinerary, policy, table) = drawn(random);
        let wanted = answers(&itinerary.bytes(), &policy, &table);
        met[wanted.0[1].number as usize] += 1;
        for other in [itinerary.without_clients(), given(random, 100, &itinerary)] {
            assert!(answers(&other.bytes(), &policy, &table) == wanted);
            assert_eq!(term::read(&other, 0), term::read(&itinerary, 0));
        }
    }
    assert!(met[0] > 100 && met[9] > 50, "{met:?}");
}

/// Steps are answered alike, and change all but the clients alike.
#[test]
fn steps_do_not_read_clients() {
    let random = &mut Random::new(33);
    let mut done = 0;
    for _ in 0..200 {
        let (itinerary, ..) = drawn(random);
        let other = given(random, 100, &itinerary).bytes();
        for (actor, partner) in simulator::steps::moves(Law::Document, &itinerary).0 {
            let (mut x, mut y) = (itinerary.bytes(), other.clone());
            assert_eq!(simulator::step(&mut x, actor, partner), simulator::step(&mut y, actor, partner));
            assert_eq!(without(x), without(y));
            done += 1;
        }
    }
    assert!(done > 200, "{done}");
}

/// Pairs as the secrecy statement supposes them agree on the clients of what is on the sheet; another client there
/// makes another sheet, one on a hidden record doesn't. What their steps do is compared by `search`.
#[test]
fn equal_sheets_agree_on_clients() {
    let random = &mut Random::new(34);
    let (mut told, mut untold, mut apart) = (0, 0, 0);
    for _ in 0..6_000 {
        let Some(mut case) = pairs::draw(random, Law::Document) else { continue };
        pairs::give_clients(random, &mut case);
        assert!(case.supposed(Law::Document));
        for number in case.x.numbers() {
            let place = usize::from(number) - 1;
            let mut other = case.x.clone();
            if other.records[place].kind == Kind::Gone {
                continue;
            }
            other.records[place].client = (other.records[place].client + 1) % 1000;
            let shown = on_sheet(&case.x, &case.table, number);
            assert_eq!(sheet(&other, &case.table) != sheet(&case.y, &case.table), shown);
            let differ = case.x.records[place].client != case.y.records[place].client;
            assert!(!(shown && differ));
            told += usize::from(shown);
            untold += usize::from(!shown);
            apart += usize::from(differ);
        }
    }
    assert!(told > 500 && untold > 500 && apart > 200, "{told} {untold} {apart}");
}

#[test]
fn damage_reaches_clients_of_both_sorts() {
    let random = &mut Random::new(35);
    let mut met = [0; 2];
    for _ in 0..500 {
        let mix = Mix { gone: 20, ..Mix::lively(random) };
        let good = tree(random, &mix).bytes();
        for on_gone in [false, true] {
            let mut bytes = good.clone();
            if spoil_client(random, &mut bytes, on_gone) {
                assert_eq!((validated(&bytes).0, without(bytes)), (2, without(good.clone())));
                met[usize::from(on_gone)] += 1;
            }
        }
        let mut bytes = good.clone();
        assert!(damage(random, &mut bytes, 2) && validated(&bytes).0 == 2);
    }
    assert!(met.iter().all(|&times| times > 100), "{met:?}");
}

#[test]
fn drawn_clients_are_of_all_sizes() {
    let random = &mut Random::new(36);
    let mut drawn: Vec<u16> = Vec::new();
    for _ in 0..300 {
        let mix = Mix::small(random);
        drawn.extend(tree(random, &mix).records.iter().map(|record| record.client));
    }
    for wanted in [0, 999] {
        assert!(drawn.iter().filter(|&&client| client == wanted).count() > 50);
    }
    assert!(drawn.iter().any(|client| *client > 0 && *client < 256));
    assert!(drawn.iter().any(|client| *client > 255 && client % 256 == 0));
}
