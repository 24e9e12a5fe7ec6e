//! Copiers: which records they are, that they do nothing by themselves and nest nowhere, and the copy of what stands
//! beneath one.

use simulator::copies::{active_copiers, beneath, gone};
use simulator::generate::damage::damage;
use simulator::generate::examples::{copiers, recurring, wash, RECURRING_STEPS, WASH};
use simulator::generate::policies::{telling, usual};
use simulator::generate::relabel::Relabel;
use simulator::generate::tables::{any_bit, sparse};
use simulator::generate::trees::{tree, Mix};
use simulator::law::Law;
use simulator::random::Random;
use simulator::record::{Itinerary, Kind, Record};
use simulator::secrecy::{Case, Event};
use simulator::table::{close, holds, least, sheet, verdict, Policy, Verdict};

fn copier(parent: u16) -> Record {
    Record { kind: Kind::Copier, parent, ..Record::GONE }
}

fn ambient(label: u8, parent: u16) -> Record {
    Record { kind: Kind::Ambient, label, parent, ..Record::GONE }
}

fn records(records: &[Record]) -> Itinerary {
    Itinerary { records: records.to_vec() }
}

/// Number and record of what validation says.
fn validated(bytes: &[u8]) -> (u8, u16) {
    let answer = simulator::validate(bytes);
    (answer.number, answer.record)
}

/// Asks for a copy; number and how many were copied, and the itinerary behind it, which is as it was if that is refused.
fn copied(itinerary: &Itinerary, number: u16) -> (u8, u32, Itinerary) {
    let (before, mut bytes) = (itinerary.bytes(), itinerary.bytes());
    let answer = simulator::copy(&mut bytes, number);
    assert_eq!((answer.record, &answer.values[1..]), (0, &[0; 5][..]));
    assert!(answer.number == 0 || answer.values[0] == 0 && bytes == before);
    (answer.number, answer.values[0], Itinerary::read(&bytes).unwrap())
}

fn drawn(random: &mut Random) -> Itinerary {
    let mix = if random.chance(20) { Mix::small(random) } else { Mix::copying(random) };
    Relabel::draw(random).itinerary(&tree(random, &mix))
}

#[test]
fn label_and_name_of_a_copier_are_0() {
    assert_eq!(validated(&copier(0).bytes()), (0, 0));
    for byte in 1..=255 {
        assert_eq!(validated(&[5, byte, 0, 0, 0, 0, 0, 0]), (3, 1));
        assert_eq!(validated(&[5, 0, byte, 0, 0, 0, 0, 0]), (4, 1));
        assert_eq!(validated(&[5, byte, byte, 0, 9, 0, 0, 0]), (3, 1));
        assert_eq!(validated(&[5, 0, byte, 0, 9, 0, 0, 0]), (4, 1));
    }
    for kind in 6..=255 {
        assert_eq!(validated(&[kind, 0, 0, 0, 0, 0, 0, 0]), (2, 1));
    }
    assert_eq!(validated(&[5, 0, 0, 0, 0, 0, 0xe7, 3]), (0, 0));
    assert_eq!(validated(&[5, 1, 0, 0, 0, 0, 0xe8, 3]), (2, 1));
    assert_eq!(validated(&[5, 0, 0, 0, 2, 0, 0, 0]), (5, 1));
    assert_eq!(validated(&[5, 0, 0, 0, 2, 0, 0, 0, 5, 0, 0, 0, 1, 0, 0, 0]), (6, 1));
}

#[test]
fn the_wash_is_copied() {
    let (number, count, after) = copied(&wash(), WASH);
    let client = |client: u16, record: Record| Record { client, ..record };
    let mut wanted = wash();
    let packet = Record { kind: Kind::Ambient, label: 3, name: 2, parent: 8, client: 999 };
    wanted.records[0] = packet;
    wanted.records[2] = Record { kind: Kind::In, label: 64, name: 1, parent: 1, client: 256 };
    wanted.records[6] = client(1, copier(8));
    wanted.records[10] = Record { kind: Kind::Out, label: 65, name: 0, parent: 7, client: 257 };
    wanted.records[11] = Record { kind: Kind::Ambient, label: 2, name: 1, parent: 8, client: 512 };
    assert_eq!((number, count, after), (0, 5, wanted.clone()));
    // Nothing is gone any more; the copied copier has one beneath it.
    assert_eq!(copied(&wanted, WASH).0, 18);
    assert_eq!(copied(&wanted, 7).0, 18);
    assert_eq!(copied(&wanted, 6).0, 17);
    // The packet's copy stands in the boundary, where its order can act.
    let mut bytes = wanted.bytes();
    assert_eq!(simulator::step(&mut bytes, 5, 12).number, 11);
    assert_eq!(simulator::step(&mut bytes, 3, 12).number, 0);
    assert_eq!(Itinerary::read(&bytes).unwrap().records[0], Record { parent: 12, ..packet });
}

#[test]
fn nothing_beneath() {
    for itinerary in [records(&[copier(0)]), records(&[Record::GONE, copier(0)]), records(&[copier(0); 3])] {
        for number in active_copiers(&itinerary) {
            assert_eq!(copied(&itinerary, number), (0, 0, itinerary.clone()));
        }
    }
}

#[test]
fn one_gone_record_too_few() {
    for less in 1..5 {
        let mut itinerary = wash();
        for number in gone(&itinerary).into_iter().take(less) {
            itinerary.records[usize::from(number) - 1] = ambient(9, 0);
        }
        assert_eq!(copied(&itinerary, WASH).0, 18);
    }
    let below = |spare: usize| {
        let beneath = vec![ambient(1, 1); 511];
        records(&[vec![copier(0)], beneath, vec![Record::GONE; spare]].concat())
    };
    assert_eq!(copied(&below(510), 1).0, 18);
    for spare in [511, 512] {
        let (number, count, after) = copied(&below(spare), 1);
        assert_eq!((number, count, after.standing()), (0, 511, 1023));
        assert!(after.records[512..1023].iter().all(|&record| record == ambient(1, 0)));
    }
}

/// 17 for every number but those of copiers under ambients alone, gone records or none.
#[test]
fn active_copiers_alone() {
    let itinerary = copiers();
    let copier_numbers = itinerary.numbers().filter(|&number| itinerary.is(Kind::Copier, number));
    assert_eq!(copier_numbers.collect::<Vec<_>>(), [6, 8, 10, 12, 14, 16, 18, 20]);
    // Records 2 to 4 are capabilities, 5 is an ambient behind one, 6 the copier above 20.
    let answers = |itinerary: &Itinerary| [6, 8, 10, 12, 14, 16, 18, 20].map(|k| copied(itinerary, k).0);
    assert_eq!(answers(&itinerary), [18, 0, 0, 17, 17, 17, 17, 17]);
    let mut full = itinerary;
    full.records[6] = ambient(9, 0);
    assert_eq!(answers(&full), [18, 18, 18, 17, 17, 17, 17, 17]);
    for number in (0..6).chain([7, 9, 11, 13, 15, 17, 19]).chain(21..40).chain([256 + 8, 1024, 32776, 65535])
    {
        assert_eq!(copied(&full, number).0, 17, "{number}");
    }
}

/// What is beneath, pairs of originals and gone records, and parents, all anew from the words of the rule.
#[test]
fn each_copy_is_as_the_rule_says() {
    let random = &mut Random::new(61);
    let mut met = [0; 19];
    for _ in 0..4_000 {
        let before = drawn(random);
        let any = random.below(before.count() + 2) as u16;
        let number = random.choose(&active_copiers(&before)).unwrap_or(any);
        let (answer, count, after) = copied(&before, number);
        met[usize::from(answer)] += 1;
        if answer != 0 {
            continue;
        }
        let (originals, places) = (beneath(&before, number), gone(&before));
        assert_eq!(count as usize, originals.len());
        assert_eq!(after.standing(), before.standing() + originals.len());
        let outer = before.get(number).unwrap().parent;
        for (original, place) in originals.iter().zip(&places) {
            let (original, copy) = (*before.get(*original).unwrap(), *after.get(*place).unwrap());
            assert_eq!(Record { parent: original.parent, ..copy }, original);
            let parent = originals.iter().position(|&above| above == original.parent);
            assert_eq!(copy.parent, parent.map_or(outer, |parent| places[parent]));
            assert_eq!(parent.is_none(), original.parent == number);
        }
        let filled = &places[..originals.len()];
        for kept in before.numbers().filter(|number| !filled.contains(number)) {
            assert_eq!(before.get(kept), after.get(kept));
        }
    }
    assert!([0, 17, 18].iter().all(|&answer| met[answer] > 200), "{met:?}");
}

#[test]
fn faults_of_the_itinerary_come_first() {
    let random = &mut Random::new(62);
    let mut met = [0; 19];
    for _ in 0..4_000 {
        let good = drawn(random);
        let number = random.choose(&active_copiers(&good)).unwrap_or(0);
        let mut bytes = good.bytes();
        if random.chance(70) {
            let cause = random.between(1, 6);
            damage(random, &mut bytes, cause as u8);
        }
        let (validated, before) = (validated(&bytes), bytes.clone());
        let answer = simulator::copy(&mut bytes, number);
        if validated.0 != 0 {
            assert_eq!(((answer.number, answer.record), &bytes), (validated, &before));
            assert_eq!(answer.values, [0; 6]);
        }
        met[usize::from(answer.number)] += 1;
    }
    assert!((0..=6).chain([17, 18]).all(|number: usize| met[number] > 50), "{met:?}");
}

/// A table that holds before a copy holds behind it, and one that doesn't hold doesn't.
#[test]
fn the_same_tables_hold() {
    let random = &mut Random::new(63);
    let mut met = [0; 2];
    for _ in 0..3_000 {
        let before = drawn(random);
        let Some(copier) = random.choose(&active_copiers(&before)) else { continue };
        let (0, 1.., after) = copied(&before, copier) else { continue };
        let policy = telling(random, &before);
        assert!(least(Law::Document, &[&before], &policy) == least(Law::Document, &[&after], &policy));
        let bits = random.below(6);
        let more = sparse(random, &Relabel::none(), bits);
        let mut table = close(Law::Document, &[&before], &policy, &more);
        if random.chance(50) {
            let bit = random.choose(&table.bits()).unwrap_or(any_bit(random));
            table.bytes[bit / 8] ^= 1 << (bit % 8);
        }
        let held = [&before, &after].map(|itinerary| holds(Law::Document, itinerary, &policy, &table));
        assert_eq!(held[0], held[1]);
        met[usize::from(held[0])] += 1;
    }
    assert!(met.iter().all(|&times| times > 200), "{met:?}");
}

/// The same without copiers: what stood beneath one stands where it stood.
fn without_copiers(itinerary: &Itinerary) -> Itinerary {
    let mut changed = itinerary.clone();
    for number in itinerary.numbers().filter(|&number| itinerary.is(Kind::Copier, number)) {
        let parent = changed.records[usize::from(number) - 1].parent;
        for record in changed.records.iter_mut().filter(|record| record.parent == number) {
            record.parent = parent;
        }
        changed.records[usize::from(number) - 1] = Record::GONE;
    }
    changed
}

#[test]
fn tables_look_through_copiers() {
    let random = &mut Random::new(64);
    let mut copiers = 0;
    for _ in 0..1_000 {
        let itinerary = drawn(random);
        let (without, policy) = (without_copiers(&itinerary), telling(random, &itinerary));
        copiers += itinerary.standing() - without.standing();
        assert!(least(Law::Document, &[&itinerary], &policy) == least(Law::Document, &[&without], &policy));
        for number in without.numbers() {
            let climb = |itinerary: &Itinerary| simulator::climb(&itinerary.bytes(), &policy, number);
            let is_copier = itinerary.is(Kind::Copier, number);
            assert!(is_copier || climb(&itinerary) == climb(&without));
        }
    }
    assert!(copiers > 1_000, "{copiers}");
}

#[test]
fn copiers_and_what_stands_beneath_them_do_nothing() {
    let random = &mut Random::new(65);
    let mut met = [0; 13];
    for _ in 0..400 {
        let itinerary = drawn(random);
        let copier = |number: u16| itinerary.is(Kind::Copier, number);
        for actor in itinerary.numbers() {
            for partner in itinerary.numbers() {
                let answer = simulator::step(&mut itinerary.bytes(), actor, partner).number;
                let capability = itinerary.get(actor).unwrap().kind.is_capability();
                let wanted = match (copier(actor), itinerary.above(actor).into_iter().any(copier)) {
                    (true, _) => 10,
                    (false, true) if capability => 11,
                    _ => answer,
                };
                assert_eq!(answer, wanted);
                assert!(!copier(partner) || answer >= 10);
                met[usize::from(answer)] += usize::from(copier(actor) || copier(partner));
            }
        }
    }
    assert!([10, 11, 12].iter().all(|&answer| met[answer] > 100), "{met:?}");
}

/// What follows an order may be a copier, and is active once the order is done.
#[test]
fn a_step_sets_a_copier_free() {
    let mut bytes = recurring().bytes();
    assert_eq!(simulator::copy(&mut bytes, 13).number, 17);
    let [(actor, partner)] = RECURRING_STEPS;
    assert_eq!(simulator::step(&mut bytes, actor, partner).number, 0);
    let answer = simulator::copy(&mut bytes, 13);
    assert_eq!((answer.number, answer.values[0]), (0, 1));
    // The ambient that was opened is the first gone record.
    let copy = Record { kind: Kind::In, label: 67, name: 3, parent: 0, client: 0 };
    assert_eq!(Itinerary::read(&bytes).unwrap().records[10], copy);
}

/// Why the statement's equal sheets are for lists without copies: hidden records may stand where the other itinerary's
/// are gone. Suspects stay under a boundary.
#[test]
fn hidden_records_tell_by_a_copy() {
    let x = records(&[ambient(1, 0), ambient(2, 1), copier(0), ambient(3, 3), Record::GONE]);
    let mut y = x.clone();
    y.records[4] = ambient(2, 1);
    let policy: Policy = usual();
    let table = least(Law::Document, &[&x, &y], &policy);
    let case = Case { x, y, policy, table, events: vec![Event::Copy(3)] };
    assert!(case.supposed(Law::Document) && verdict(&policy, &case.table) == Verdict::Sealed);
    let (0, 1, x) = copied(&case.x, 3) else { panic!() };
    let (18, 0, y) = copied(&case.y, 3) else { panic!() };
    assert_ne!(sheet(&x, &case.table), sheet(&y, &case.table));
    assert_eq!(case.false_parts(Law::Document), []);
}
