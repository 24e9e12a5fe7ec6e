//! The lettered examples A to J of the scope document.

use simulator::hub;

type Four = (u8, u8, u8, u16);

fn itinerary(records: &[Four]) -> Vec<u8> {
    let eight = |&(kind, label, name, parent): &Four| {
        let parent = parent.to_le_bytes();
        [kind, label, name, 0, parent[0], parent[1], 0, 0]
    };
    records.iter().flat_map(eight).collect()
}

/// Label 1 boundary, 2 high, every other low.
fn usual_policy() -> Vec<u8> {
    let mut policy = vec![0; 64];
    policy[1] = 2;
    policy[2] = 1;
    policy
}

fn made(itinerary: &[u8], policy: &[u8]) -> (u32, Vec<u8>) {
    let mut table = vec![0xff; 1544];
    let answer = simulator::maker(itinerary, policy, &mut table);
    assert_eq!((answer.number, answer.record), (0, 0));
    assert_eq!(simulator::check(itinerary, policy, &table).number, 0);
    (answer.values[0], table)
}

/// Bits and verdict of the made table under the usual policy.
fn judged(records: &[Four]) -> (u32, (u32, u32)) {
    let itinerary = itinerary(records);
    let (bits, table) = made(&itinerary, &usual_policy());
    let verdict = simulator::verdict(&itinerary, &usual_policy(), &table);
    assert_eq!(verdict.number, 0);
    (bits, (verdict.values[0], verdict.values[1]))
}

fn parent(itinerary: &[u8], number: usize) -> u16 {
    let at = (number - 1) * 8 + 4;
    u16::from_le_bytes([itinerary[at], itinerary[at + 1]])
}

const EXPOSED: u32 = 1;
const HINTED: u32 = 2;
const SEALED: u32 = 3;

const A: [Four; 2] = [(1, 1, 0, 0), (1, 2, 1, 1)];

fn after_a(more: &[Four]) -> Vec<Four> {
    A.iter().chain(more).copied().collect()
}

#[test]
fn a() {
    assert_eq!(judged(&A), (5, (SEALED, 0)));
}

#[test]
fn b() {
    let records = after_a(&[(3, 64, 0, 2)]);
    assert_eq!(judged(&records), (7, (EXPOSED, 2)));
    let mut bytes = itinerary(&records);
    assert_eq!(simulator::step(&mut bytes, 3, 1).number, 0);
    assert_eq!(parent(&bytes, 2), 0);
    assert_eq!(bytes[16..24], [0; 8]);
    assert_eq!(simulator::step(&mut bytes, 3, 1).number, 10);
}

#[test]
fn b_listing() {
    let script = [3, 0, 1, 0, 3, 0, 1, 0];
    let text = hub::listing(&itinerary(&after_a(&[(3, 64, 0, 2)])), &usual_policy(), &script);
    assert_eq!(text, "exposed 2 7\n3 1 0\n3 1 10\nend 0 1 0 2\n");
}

#[test]
fn c() {
    let records = after_a(&[(4, 64, 1, 1), (1, 3, 2, 3), (3, 65, 0, 4)]);
    assert_eq!(judged(&records), (12, (HINTED, 1)));
    let (_, table) = made(&itinerary(&records), &usual_policy());
    assert_eq!(table[1536..], [0b1110, 0, 0, 0, 0, 0, 0, 0]);
}

#[test]
fn d() {
    let records = after_a(&[(2, 64, 2, 2), (1, 3, 2, 1)]);
    assert_eq!(judged(&records), (9, (SEALED, 0)));
    let mut bytes = itinerary(&records);
    assert_eq!(simulator::step(&mut bytes, 3, 4).number, 0);
    assert_eq!(parent(&bytes, 2), 4);
}

#[test]
fn e() {
    let mut bytes = itinerary(&[(1, 1, 0, 0), (2, 64, 0, 1)]);
    assert_eq!(made(&bytes, &[0; 64]).0, 4);
    let before = bytes.clone();
    assert_eq!(simulator::step(&mut bytes, 2, 1).number, 12);
    assert_eq!(bytes, before);
}

#[test]
fn f() {
    assert_eq!(judged(&[]), (1, (SEALED, 0)));
    let (_, table) = made(&[], &usual_policy());
    assert_eq!(table[1536], 0b100);
}

#[test]
fn g() {
    let alone = |parent| simulator::validate(&itinerary(&[(1, 1, 0, parent)]));
    assert_eq!((alone(1).number, alone(1).record), (6, 1));
    assert_eq!((alone(2).number, alone(2).record), (5, 1));
}

#[test]
fn g_listing() {
    let text = hub::listing(&itinerary(&[(1, 1, 0, 1)]), &usual_policy(), &[]);
    assert_eq!(text, "refused 6 1\n");
}

#[test]
fn h() {
    let mut out = itinerary(&[(1, 1, 0, 0), (3, 64, 0, 0)]);
    assert_eq!(simulator::step(&mut out, 2, 1).number, 11);
    let mut open = itinerary(&[(1, 1, 0, 0), (4, 64, 0, 0)]);
    assert_eq!(simulator::step(&mut open, 2, 1).number, 0);
    assert_eq!(open, [0; 16]);
}

#[test]
fn j() {
    let zeros = |length| simulator::validate(&vec![0; length]);
    assert_eq!((zeros(8192).number, zeros(8192).values[0]), (0, 1024));
    assert_eq!((zeros(8200).number, zeros(8200).record), (1, 0));
    assert_eq!(simulator::validate(&itinerary(&[(1, 63, 0, 0)])).number, 0);
    assert_eq!(simulator::validate(&itinerary(&[(1, 64, 0, 0)])).number, 3);
}
