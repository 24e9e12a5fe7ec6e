//! The list of moves: which pairs stand on it, how many answer what, its buffer.

use simulator::generate::damage::damage;
use simulator::generate::examples::{c, far_down, in_a_mover, lettered, runs};
use simulator::generate::relabel::Relabel;
use simulator::generate::trees::{tree, Mix};
use simulator::random::Random;
use simulator::record::{Itinerary, Kind, Record};

type Pairs = Vec<(u16, u16)>;

/// How many pairs answer 0, 10, 11 and 12.
type Tally = [u32; 4];

fn list_of(pairs: &[(u16, u16)]) -> Vec<u8> {
    let four = |&(actor, partner): &(u16, u16)| {
        let ([a, b], [c, d]) = (actor.to_le_bytes(), partner.to_le_bytes());
        [a, b, c, d]
    };
    pairs.iter().flat_map(four).collect()
}

/// The list and the tally, with more room than the list needs and no zero in it before: at most
/// a fourth of all pairs stand on it.
fn moves(itinerary: &[u8]) -> (Pairs, Tally) {
    let count = itinerary.len() / 8;
    let mut list = vec![0xee; count * count + 5];
    let answer = simulator::moves(itinerary, &mut list);
    assert_eq!((answer.number, answer.record, &answer.values[4..]), (0, 0, &[0, 0][..]));
    let tally: Tally = answer.values[..4].try_into().unwrap();
    let (pairs, behind) = list.split_at(4 * tally[0] as usize);
    assert!(behind.iter().all(|&byte| byte == 0xee));
    let number = |low: u8, high: u8| u16::from(low) + 256 * u16::from(high);
    (pairs.chunks(4).map(|four| (number(four[0], four[1]), number(four[2], four[3]))).collect(), tally)
}

/// The same by single steps, each in the itinerary as it was.
fn by_steps(itinerary: &[u8]) -> (Pairs, Tally) {
    let (mut pairs, mut tally) = (Vec::new(), [0; 4]);
    let count = (itinerary.len() / 8) as u16;
    for (actor, partner) in (1..=count).flat_map(|actor| (1..=count).map(move |partner| (actor, partner))) {
        let number = simulator::step(&mut itinerary.to_vec(), actor, partner).number;
        tally[[0, 10, 11, 12].into_iter().position(|answer| answer == number).unwrap()] += 1;
        pairs.extend(Some((actor, partner)).filter(|_| number == 0));
    }
    (pairs, tally)
}

#[test]
fn the_lettered_examples() {
    let [a, b, d, e, out, open] = lettered().map(|itinerary| moves(&itinerary.bytes()));
    assert_eq!(a, (vec![], [0, 4, 0, 0]));
    assert_eq!(b, (vec![(3, 1)], [1, 6, 0, 2]));
    assert_eq!(moves(&c().bytes()), (vec![(3, 2)], [1, 15, 5, 4]));
    assert_eq!(d, (vec![(3, 4)], [1, 12, 0, 3]));
    assert_eq!(e, (vec![], [0, 2, 0, 2]));
    assert_eq!(moves(&[]), (vec![], [0, 0, 0, 0]));
    assert_eq!(out, (vec![], [0, 2, 2, 0]));
    assert_eq!(open, (vec![(2, 1)], [1, 2, 0, 1]));
}

#[test]
fn g_and_j_are_refused_as_validation_does() {
    for (bytes, refusal) in [
        (vec![1, 1, 0, 0, 1, 0, 0, 0], (6, 1)),
        (vec![1, 1, 0, 0, 2, 0, 0, 0], (5, 1)),
        (vec![0; 8200], (1, 0)),
    ] {
        for room in [0, 4] {
            let mut list = vec![7; room];
            let answer = simulator::moves(&bytes, &mut list);
            assert_eq!((answer.number, answer.record, answer.values), (refusal.0, refusal.1, [0; 6]));
            assert_eq!(list, vec![7; room]);
        }
    }
    assert_eq!(moves(&[0; 8192]), (vec![], [0, 1 << 20, 0, 0]));
}

#[test]
fn the_list_by_actor_and_then_partner() {
    let three = [Kind::Ambient, Kind::Open, Kind::Ambient].map(|kind| (kind, 2));
    assert_eq!(
        moves(&runs(&three).bytes()).0,
        [(3, 1), (3, 2), (3, 5), (3, 6), (4, 1), (4, 2), (4, 5), (4, 6)]
    );
    assert_eq!(moves(&in_a_mover(Kind::In, 3, 2).bytes()).0, [(4, 2), (4, 3), (5, 2), (5, 3)]);
    assert_eq!(moves(&in_a_mover(Kind::Out, 3, 2).bytes()).0, [(4, 6), (5, 6)]);
    assert_eq!(moves(&in_a_mover(Kind::Open, 3, 2).bytes()), (vec![], [0, 24, 0, 12]));
}

#[test]
fn the_list_is_what_single_steps_say() {
    let random = &mut Random::new(21);
    let (mut listed, mut answers) = (0, [0; 4]);
    for round in 0..400 {
        let mix = match round % 4 {
            0 => Mix::small(random),
            1 => Mix::crowded(random),
            _ => Mix::lively(random),
        };
        let itinerary = tree(random, &mix);
        let bytes = Relabel::draw(random).itinerary(&itinerary).bytes();
        let (pairs, tally) = moves(&bytes);
        assert_eq!((&pairs, tally), (&by_steps(&bytes).0, by_steps(&bytes).1));
        assert!(pairs.windows(2).all(|two| two[0] < two[1]));
        assert_eq!(tally.iter().sum::<u32>() as usize, itinerary.count() * itinerary.count());
        listed += pairs.len();
        answers.iter_mut().zip(tally).for_each(|(all, times)| *all += u32::from(times > 0));
    }
    assert!(listed > 4000 && answers.iter().all(|&times| times > 100), "{listed} {answers:?}");
}

#[test]
fn a_list_buffer_of_every_length() {
    let random = &mut Random::new(22);
    for _ in 0..60 {
        let mix = Mix::lively(random);
        let bytes = tree(random, &mix).bytes();
        let (pairs, tally) = moves(&bytes);
        let list = list_of(&pairs);
        for room in 0..list.len() + 9 {
            let before: Vec<u8> = (0..room).map(|_| random.byte()).collect();
            let mut buffer = before.clone();
            let answer = simulator::moves(&bytes, &mut buffer);
            if room < list.len() {
                assert_eq!((answer.number, answer.record, answer.values), (15, 0, [0; 6]));
                assert_eq!(buffer, before);
            } else {
                assert_eq!((answer.number, answer.record, &answer.values[..4]), (0, 0, &tally[..]));
                assert_eq!(buffer, [&list[..], &before[list.len()..]].concat());
            }
        }
    }
}

#[test]
fn faults_of_the_itinerary_come_first() {
    let random = &mut Random::new(23);
    let mut met = [0; 16];
    for _ in 0..3_000 {
        let mix = Mix::lively(random);
        let good = tree(random, &mix).bytes();
        let needed = 4 * moves(&good).0.len();
        let mut bytes = good;
        if random.chance(70) {
            let cause = random.between(1, 6);
            damage(random, &mut bytes, cause as u8);
        }
        let validated = simulator::validate(&bytes);
        let mut list = vec![0xee; random.pick(&[0, needed.saturating_sub(1), needed])];
        let answer = simulator::moves(&bytes, &mut list);
        let short = validated.number == 0 && list.len() < needed;
        let wanted = if short { (15, 0) } else { (validated.number, validated.record) };
        assert_eq!((answer.number, answer.record), wanted);
        assert!(answer.number == 0 || list.iter().all(|&byte| byte == 0xee) && answer.values == [0; 6]);
        met[answer.number as usize] += 1;
    }
    assert!((0..=6).chain([15]).all(|number: usize| met[number] > 50), "{met:?}");
}

/// Half of the records can open each of the other half: 1 MiB of pairs.
#[test]
fn the_longest_list() {
    let bytes = runs(&[(Kind::Ambient, 512), (Kind::Open, 512)]).bytes();
    let (pairs, tally) = moves(&bytes);
    assert_eq!(tally, [262_144, 524_288, 0, 262_144]);
    let wanted: Pairs =
        (513..=1024).flat_map(|actor| (1..=512).map(move |partner| (actor, partner))).collect();
    assert!(pairs == wanted);
    let mut list = vec![7; (1 << 20) - 1];
    assert_eq!(simulator::moves(&bytes, &mut list).number, 15);
    assert!(list.iter().all(|&byte| byte == 7));
}

#[test]
fn all_pairs_with_one_answer() {
    for (kind, place) in [(Kind::Gone, 1), (Kind::Ambient, 1), (Kind::In, 2), (Kind::Out, 2), (Kind::Open, 3)]
    {
        let mut tally = [0; 4];
        tally[place] = 1 << 20;
        assert_eq!(moves(&runs(&[(kind, 1024)]).bytes()), (vec![], tally), "{kind:?}");
    }
}

#[test]
fn who_can_act_is_looked_at_all_the_way_up() {
    let mut itinerary = far_down(80, 99);
    assert_eq!(moves(&itinerary.bytes()).1[2], 0);
    let outs = |itinerary: &Itinerary| moves(&itinerary.bytes()).0.len();
    let name = itinerary.records[78].name;
    let acts = |record: &&Record| record.kind == Kind::Out && record.name == name;
    assert_eq!(outs(&itinerary), itinerary.records.iter().filter(acts).count());
    assert!(outs(&itinerary) > 0);
    itinerary.records[0] = Record { kind: Kind::Open, label: 64, name: 5, parent: 0, client: 0 };
    assert_eq!((outs(&itinerary), moves(&itinerary.bytes()).1[2]), (0, 99 * 179));
}
