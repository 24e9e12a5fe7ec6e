//! The lettered examples of the scope document, through the safe calls.

use crate::*;
use std::string::{String, ToString};
use std::vec;
use std::vec::Vec;

/// Kind, label, name, parent.
type Fields = (u8, u8, u8, u16);

const A: [Fields; 2] = [(1, 1, 0, 0), (1, 2, 1, 1)];
const B: [Fields; 3] = [A[0], A[1], (3, 64, 0, 2)];

fn bytes(records: &[Fields]) -> Vec<u8> {
    let record = |&(kind, label, name, parent): &Fields| {
        let [low, high] = parent.to_le_bytes();
        [kind, label, name, 0, low, high, 0, 0]
    };
    records.iter().flat_map(record).collect()
}

/// The same records, each with a client.
fn with_clients(records: &[Fields], clients: &[u16]) -> Vec<u8> {
    let mut itinerary = bytes(records);
    for (record, client) in itinerary.chunks_exact_mut(8).zip(clients) {
        record[6..].copy_from_slice(&client.to_le_bytes());
    }
    itinerary
}

/// Label 1 boundary, 2 high, every other low.
fn usual() -> Vec<u8> {
    let mut policy = vec![0; POLICY_LENGTH];
    policy[1] = 2;
    policy[2] = 1;
    policy
}

fn parent(itinerary: &[u8], number: usize) -> u16 {
    u16::from_le_bytes([itinerary[8 * number - 4], itinerary[8 * number - 3]])
}

/// Makes the table, has it checked, and gives bits, suspects and verdict; exposed and the screen agree with it.
fn screened(records: &[Fields], policy: &[u8]) -> (u32, Vec<u8>, Verdict) {
    let itinerary = bytes(records);
    let mut table = vec![0xff; TABLE_LENGTH];
    let bits = make(&itinerary, policy, &mut table).unwrap();
    check(&itinerary, policy, &table).unwrap();
    let judged = verdict(&itinerary, policy, &table).unwrap();
    assert_eq!(exposed(&itinerary, policy, &table), Ok(matches!(judged, Verdict::Exposed(_))));
    let suspects = (0..64u8).filter(|k| table[1536 + usize::from(k / 8)] >> (k % 8) & 1 == 1).collect();
    let shown = screen(&mut itinerary.clone(), policy, &[], &mut []).unwrap();
    assert_eq!((shown.bits, shown.verdict), (bits, judged));
    (bits, suspects, judged)
}

fn refusal(number: u32, record: u32) -> Refusal {
    Refusal { number, record }
}

#[test]
fn example_a() {
    assert_eq!(screened(&A, &usual()), (5, vec![2], Verdict::Sealed));
    let itinerary = bytes(&A);
    assert_eq!(validate(&itinerary), Ok(2));
    let climbs = [0, 1, 2, 3, u16::MAX].map(|number| above(&itinerary, &usual(), number));
    assert_eq!(climbs, [(0, 0), (0, 0), (1, 1), (0, 0), (0, 0)]);
    assert_eq!(above(&itinerary, &[0; 64], 2), (1, 0));
}

/// Container and boundary of a climb that is done.
fn above(itinerary: &[u8], policy: &[u8], number: u16) -> (u8, u16) {
    let Above { label, boundary } = climb(itinerary, policy, number).unwrap();
    (label, boundary)
}

#[test]
fn climbs_past_capabilities_and_high_ambients() {
    let itinerary = bytes(&[(1, 1, 0, 0), (1, 1, 0, 1), (1, 2, 1, 2), (4, 64, 0, 3), (2, 65, 0, 4)]);
    let climbs = [1, 2, 3, 4, 5].map(|number| above(&itinerary, &usual(), number));
    assert_eq!(climbs, [(0, 0), (1, 1), (1, 2), (2, 2), (2, 2)]);
}

#[test]
fn climbs_refused() {
    let ring = bytes(&[(1, 1, 0, 1)]);
    let enter = |it: &[u8], policy: &[u8]| unsafe {
        raw::hub_climb(it.as_ptr(), it.len(), policy.as_ptr(), policy.len(), 2)
    };
    let nothing = raw::HubClimbResult { number: 7, record: 0, label: 0, boundary: 0 };
    assert_eq!(enter(&bytes(&A), &usual()[1..]), nothing);
    assert_eq!(enter(&ring, &[]), raw::HubClimbResult { number: 6, record: 1, ..nothing });
    assert_eq!(climb(&ring, &usual(), 0), Err(refusal(6, 1)));
    assert_eq!(climb(&[0; 7], &[], 0), Err(refusal(1, 0)));
    let mut spoilt = usual();
    spoilt[63] = 3;
    assert_eq!(climb(&bytes(&A), &spoilt, 0), Err(refusal(7, 0)));
}

#[test]
fn example_a_sheet_and_rows() {
    let itinerary = bytes(&A);
    let mut table = [0; TABLE_LENGTH];
    make(&itinerary, &usual(), &mut table).unwrap();
    let mut shown = [7; 16];
    sheet(&itinerary, &table, &mut shown).unwrap();
    assert_eq!(shown[..], bytes(&[A[0], (0, 0, 0, 0)]));
    assert_eq!(sheet(&itinerary, &table, &mut [7; 8]), Err(refusal(14, 0)));
    assert_eq!(row(&table, 1), &table[16..32]);
    assert!(std::ptr::eq(row(&table, 63), &table[1008..1024]));
    assert!(row(&table, 64).is_empty() && row(&table[1..], 1).is_empty() && row(&[], 0).is_empty());
}

#[test]
fn example_b() {
    assert_eq!(screened(&B, &usual()), (7, vec![2], Verdict::Exposed(2)));
    let mut itinerary = bytes(&B);
    assert_eq!(step(&mut itinerary, 3, 1), Ok(()));
    assert_eq!(itinerary, bytes(&[A[0], (1, 2, 1, 0), (0, 0, 0, 0)]));
}

#[test]
fn example_b_clients() {
    let (mut itinerary, policy) = (with_clients(&B, &[17, 999, 256]), usual());
    assert_eq!(validate(&itinerary), Ok(3));
    let (mut table, mut plain) = ([0; TABLE_LENGTH], [7; TABLE_LENGTH]);
    assert_eq!(make(&itinerary, &policy, &mut table), make(&bytes(&B), &policy, &mut plain));
    assert_eq!(table, plain);
    let mut shown = [7; 24];
    sheet(&itinerary, &table, &mut shown).unwrap();
    assert_eq!(shown[..], with_clients(&[A[0], (0, 0, 0, 0), (0, 0, 0, 0)], &[17, 0, 0]));
    // What moves keeps its client; the capability's goes with it.
    assert_eq!(step(&mut itinerary, 3, 1), Ok(()));
    assert_eq!(itinerary, with_clients(&[A[0], (1, 2, 1, 0), (0, 0, 0, 0)], &[17, 999, 0]));
}

#[test]
fn clients_refused() {
    assert_eq!(validate(&with_clients(&A, &[0, 1000])), Err(refusal(2, 2)));
    assert_eq!(validate(&with_clients(&A, &[1024, 0])), Err(refusal(2, 1)));
    assert_eq!(validate(&with_clients(&[A[0], (0, 0, 0, 0)], &[17, 17])), Err(refusal(2, 2)));
    // Before what else is wrong with that record, behind what is with one before it.
    let spoilt = [(1, 64, 64, 3), (1, 1, 0, 0)];
    assert_eq!(validate(&with_clients(&spoilt, &[1000, 1000])), Err(refusal(2, 1)));
    assert_eq!(validate(&with_clients(&spoilt, &[999, 1000])), Err(refusal(3, 1)));
}

#[test]
fn example_b_script() {
    let script = [3, 0, 1, 0, 3, 0, 1, 0];
    let counts = Counts { ins: 0, outs: 1, opens: 0 };
    let (mut first, mut second, mut answers) = (bytes(&B), bytes(&B), [7; 2]);
    let shown = screen(&mut first, &usual(), &script, &mut answers).unwrap();
    assert_eq!(shown, Screen { verdict: Verdict::Exposed(2), bits: 7, counts, records: 2 });
    assert_eq!(answers, [0, 10]);
    answers = [7; 2];
    assert_eq!(run(&mut second, &script, &mut answers), Ok(counts));
    assert_eq!((answers, second), ([0, 10], first));
    assert_eq!(run(&mut bytes(&B), &script, &mut [7]), Err(refusal(13, 0)));
}

/// The entry itself on B: the wrapper doesn't show what a refusal leaves in the fields.
fn enter_screen(policy: &[u8]) -> raw::HubScreenResult {
    let (mut itinerary, script, mut answers): (_, [u8; 0], [u8; 0]) = (bytes(&B), [], []);
    unsafe {
        raw::hub_screen(
            itinerary.as_mut_ptr(),
            itinerary.len(),
            policy.as_ptr(),
            policy.len(),
            script.as_ptr(),
            script.len(),
            answers.as_mut_ptr(),
            answers.len(),
        )
    }
}

#[test]
fn example_b_fields() {
    let nothing = raw::HubScreenResult {
        number: 7,
        record: 0,
        verdict: 0,
        label: 0,
        bits: 0,
        ins: 0,
        outs: 0,
        opens: 0,
        records: 0,
    };
    assert_eq!(enter_screen(&[0; 63]), nothing);
    let sealed = raw::HubScreenResult { number: 0, verdict: 3, bits: 6, records: 3, ..nothing };
    assert_eq!(enter_screen(&[0; 64]), sealed);
    assert_eq!(enter_screen(&usual()), raw::HubScreenResult { verdict: 1, label: 2, bits: 7, ..sealed });
}

#[test]
fn example_b_exposed() {
    let (itinerary, mut table) = (bytes(&B), [0; TABLE_LENGTH]);
    let enter = |policy: &[u8], table: &[u8]| unsafe {
        raw::hub_exposed(
            itinerary.as_ptr(),
            itinerary.len(),
            policy.as_ptr(),
            policy.len(),
            table.as_ptr(),
            table.len(),
        )
    };
    let nothing = raw::HubExposedResult { number: 9, record: 0, exposed: 0 };
    assert_eq!(enter(&usual(), &table), nothing);
    make(&itinerary, &usual(), &mut table).unwrap();
    assert_eq!(enter(&usual(), &table), raw::HubExposedResult { number: 0, exposed: 1, ..nothing });
    assert_eq!(enter(&[0; 64], &table), raw::HubExposedResult { number: 0, ..nothing });
}

#[test]
fn example_b_moves() {
    let (itinerary, mut list) = (bytes(&B), [7; 6]);
    let tally = Tally { done: 1, no_capability: 6, inactive: 0, unfit: 2 };
    assert_eq!(moves(&itinerary, &mut list), Ok(tally));
    assert_eq!(list, [3, 0, 1, 0, 7, 7]);
    assert_eq!(moves(&itinerary, &mut list[..4]), Ok(tally));
    list = [7; 6];
    assert_eq!(moves(&itinerary, &mut list[..3]), Err(refusal(15, 0)));
    assert_eq!(list, [7; 6]);
    // Where nothing can move the empty list is long enough.
    assert_eq!(moves(&bytes(&A), &mut []), Ok(Tally { no_capability: 4, ..Tally::default() }));
    assert_eq!(moves(&[], &mut []), Ok(Tally::default()));
    assert_eq!(moves(&bytes(&[(1, 1, 0, 1)]), &mut []), Err(refusal(6, 1)));
}

#[test]
fn moves_by_actor_and_partner() {
    // Two opens beside two ambients of their name, an out in the environment, and an open behind an open.
    let records = [(4, 64, 5, 0), (1, 1, 5, 0), (4, 65, 5, 0), (1, 2, 5, 0), (3, 66, 5, 0), (4, 67, 5, 1)];
    let mut list = [7; 20];
    let tally = Tally { done: 4, no_capability: 12, inactive: 12, unfit: 8 };
    assert_eq!(moves(&bytes(&records), &mut list), Ok(tally));
    assert_eq!(list, [1, 0, 2, 0, 1, 0, 4, 0, 3, 0, 2, 0, 3, 0, 4, 0, 7, 7, 7, 7]);
}

#[test]
fn moves_refused() {
    let (itinerary, mut list) = (bytes(&B), [7; 3]);
    let result =
        unsafe { raw::hub_moves(itinerary.as_ptr(), itinerary.len(), list.as_mut_ptr(), list.len()) };
    let nothing =
        raw::HubMovesResult { number: 15, record: 0, done: 0, no_capability: 0, inactive: 0, unfit: 0 };
    assert_eq!((result, list), (nothing, [7; 3]));
}

#[test]
fn the_longest_list() {
    // Each of 512 opens beside 512 ambients of its name.
    let records: Vec<Fields> =
        (0..1024).map(|k| if k < 512 { (4, 64, 0, 0) } else { (1, 1, 0, 0) }).collect();
    let mut list = vec![7; LONGEST_LIST];
    let pairs = 512 * 512;
    let tally = Tally { done: pairs, no_capability: pairs * 2, unfit: pairs, ..Tally::default() };
    assert_eq!(moves(&bytes(&records), &mut list), Ok(tally));
    let wanted = (1..=512u16).flat_map(|actor| (513..=1024u16).map(move |partner| [actor, partner]));
    assert!(wanted.flatten().flat_map(u16::to_le_bytes).eq(list));
    assert_eq!(moves(&bytes(&records), &mut vec![7; LONGEST_LIST - 1]), Err(refusal(15, 0)));
}

#[test]
fn example_c() {
    let records = [A[0], A[1], (4, 64, 1, 1), (1, 3, 2, 3), (3, 65, 0, 4)];
    assert_eq!(screened(&records, &usual()), (12, vec![1, 2, 3], Verdict::Hinted(1)));
}

#[test]
fn example_d() {
    let records = [A[0], A[1], (2, 64, 2, 2), (1, 3, 2, 1)];
    assert_eq!(screened(&records, &usual()), (9, vec![2], Verdict::Sealed));
    let mut itinerary = bytes(&records);
    assert_eq!(step(&mut itinerary, 3, 4), Ok(()));
    assert_eq!(parent(&itinerary, 2), 4);
}

#[test]
fn example_e() {
    let records = [(1, 1, 0, 0), (2, 64, 0, 1)];
    assert_eq!(screened(&records, &[0; 64]), (4, vec![], Verdict::Sealed));
    let mut itinerary = bytes(&records);
    assert_eq!(step(&mut itinerary, 2, 1), Err(refusal(12, 0)));
    assert_eq!(itinerary, bytes(&records));
}

#[test]
fn example_f() {
    assert_eq!(screened(&[], &usual()), (1, vec![2], Verdict::Sealed));
    assert_eq!(validate(&[]), Ok(0));
}

#[test]
fn example_g() {
    assert_eq!(validate(&bytes(&[(1, 1, 0, 1)])), Err(refusal(6, 1)));
    assert_eq!(validate(&bytes(&[(1, 1, 0, 2)])), Err(refusal(5, 1)));
    assert_eq!(refusal(6, 1).to_string(), "refused 6 1: climbing doesn't reach 0");
}

#[test]
fn example_h() {
    let mut out = bytes(&[(1, 1, 0, 0), (3, 64, 0, 0)]);
    assert_eq!(step(&mut out, 2, 1), Err(refusal(11, 0)));
    let mut open = bytes(&[(1, 1, 0, 0), (4, 64, 0, 0)]);
    assert_eq!(step(&mut open, 2, 1), Ok(()));
    assert_eq!(open, [0; 16]);
}

#[test]
fn example_j() {
    assert_eq!(validate(&[0; 8192]), Ok(1024));
    assert_eq!(validate(&[0; 8200]), Err(refusal(1, 0)));
    assert_eq!(validate(&bytes(&[(1, 63, 0, 0)])), Ok(1));
    assert_eq!(validate(&bytes(&[(1, 64, 0, 0)])), Err(refusal(3, 1)));
}

#[test]
fn tables_and_policies_refused() {
    let (itinerary, policy) = (bytes(&A), usual());
    let mut table = [0; TABLE_LENGTH];
    assert_eq!(check(&itinerary, &policy, &table), Err(refusal(9, 0)));
    assert_eq!(exposed(&itinerary, &policy, &table), Err(refusal(9, 0)));
    assert_eq!(check(&itinerary, &policy[1..], &table), Err(refusal(7, 0)));
    assert_eq!(exposed(&itinerary, &policy[1..], &table), Err(refusal(7, 0)));
    assert_eq!(make(&itinerary, &policy, &mut table[1..]), Err(refusal(8, 0)));
    table[0] = 1;
    assert_eq!(verdict(&itinerary, &policy, &table), Err(refusal(8, 0)));
    assert_eq!(exposed(&itinerary, &policy, &table), Err(refusal(8, 0)));
    assert_eq!(exposed(&bytes(&[(1, 1, 0, 1)]), &policy, &table), Err(refusal(6, 1)));
    assert_eq!(sheet(&itinerary, &table, &mut [0; 16]), Err(refusal(8, 0)));
}

/// What the call makes of members that it takes, in a buffer of their length.
fn joined(members: [&[u8]; 4], policy: &[u8], table: &[u8]) -> Result<Vec<u8>, Refusal> {
    let mut joined = vec![7; members.concat().len()];
    let done = join(members, policy, table, &mut joined);
    assert!(done.is_ok() || joined.iter().all(|&byte| byte == 7));
    done.map(|()| joined)
}

fn made(itinerary: &[u8], policy: &[u8]) -> Vec<u8> {
    let mut table = vec![0; TABLE_LENGTH];
    make(itinerary, policy, &mut table).unwrap();
    table
}

#[test]
fn example_a_joined_with_b() {
    let (a, b, policy) = (bytes(&A), bytes(&B), usual());
    let both = bytes(&[A[0], A[1], (1, 1, 0, 0), (1, 2, 1, 3), (3, 64, 0, 4)]);
    let table = made(&b, &policy);
    assert_eq!(joined([&a, &b, &[], &[]], &policy, &table).as_deref(), Ok(&both[..]));
    assert_eq!(joined([&[], &a, &[], &b], &policy, &table).as_deref(), Ok(&both[..]));
    assert_eq!((check(&both, &policy, &table), made(&both, &policy)), (Ok(()), table.clone()));
    // A's table doesn't hold for B, wherever B is.
    let table = made(&a, &policy);
    for members in [[&a, &b, &a, &a], [&b, &a, &a, &a], [&a, &a, &a, &b]] {
        assert_eq!(joined(members.map(|member| &member[..]), &policy, &table), Err(refusal(9, 0)));
    }
    assert_eq!(joined([&a; 4], &policy, &table).map(|joined| validate(&joined)), Ok(Ok(8)));
}

#[test]
fn three_unused_places() {
    let (b, policy) = (with_clients(&B, &[17, 999, 256]), usual());
    let table = made(&b, &policy);
    for place in 0..4 {
        let mut members = [&[][..]; 4];
        members[place] = &b;
        assert_eq!(joined(members, &policy, &table).as_deref(), Ok(&b[..]));
    }
    assert_eq!(joined([&[]; 4], &policy, &table), Ok(vec![]));
    // An unused place too wants every high label to be suspect.
    assert_eq!(joined([&[]; 4], &policy, &[0; TABLE_LENGTH]), Err(refusal(9, 0)));
}

#[test]
fn members_refused() {
    let (a, table) = (bytes(&A), made(&bytes(&A), &usual()));
    for (fault, expected) in [
        (bytes(&[A[0], (1, 2, 1, 2)]), refusal(6, 2)),
        (bytes(&[A[0], (1, 2, 1, 3)]), refusal(5, 2)),
        (bytes(&[(1, 1, 64, 0)]), refusal(4, 1)),
        (bytes(&[A[0], A[1], (1, 64, 0, 0)]), refusal(3, 3)),
        (with_clients(&A, &[0, 1000]), refusal(2, 2)),
        (vec![0; 12], refusal(1, 0)),
    ] {
        for place in 0..4 {
            let mut members = [&a[..]; 4];
            members[place] = &fault;
            assert_eq!(joined(members, &usual(), &table), Err(expected));
            // Before all else, and what a member behind it has.
            members[3] = if place < 3 { &[0; 7] } else { &fault };
            assert_eq!(join(members, &[], &[], &mut [7]), Err(expected));
        }
    }
}

#[test]
fn sets_refused() {
    let (a, policy) = (bytes(&A), usual());
    let table = made(&a, &policy);
    for length in [0, 8, 16, 31, 33, 40] {
        let mut buffer = vec![7; length];
        assert_eq!(join([&a, &[], &[], &a], &policy, &table, &mut buffer), Err(refusal(16, 0)));
        assert_eq!((buffer, length == 32), (vec![7; length], false));
    }
    let most = vec![0; 8192];
    assert_eq!(joined([&[], &most, &[], &[]], &policy, &table).as_deref(), Ok(&most[..]));
    assert_eq!(joined([&most[..4096], &[], &most[4096..], &[]], &policy, &table).as_deref(), Ok(&most[..]));
    assert_eq!(joined([&[], &most, &most[..8], &[]], &policy, &table), Err(refusal(16, 0)));
    assert_eq!(join([&most, &a, &[], &[]], &policy, &table, &mut [7; 8192]), Err(refusal(16, 0)));
    // 16 before 7, 7 before 8, 8 before 9.
    assert_eq!(join([&a, &[], &[], &[]], &policy[1..], &[], &mut []), Err(refusal(16, 0)));
    assert_eq!(joined([&a, &[], &[], &[]], &policy[1..], &[]), Err(refusal(7, 0)));
    let mut spoilt = vec![0; TABLE_LENGTH];
    spoilt[16] = 1;
    assert_eq!(joined([&a, &[], &[], &[]], &policy, &spoilt), Err(refusal(8, 0)));
    assert_eq!(joined([&a, &[], &[], &[]], &policy, &[0; TABLE_LENGTH]), Err(refusal(9, 0)));
}

/// A boundary with a copier, and beneath that a high ambient with an out; then gone records.
const WASH: [Fields; 6] = [A[0], (5, 0, 0, 1), (1, 2, 1, 2), (3, 64, 0, 3), (0, 0, 0, 0), (0, 0, 0, 0)];

/// What a copy of that number makes of the records, and how many were copied.
fn copied(records: &[Fields], number: u16) -> Result<(u32, Vec<u8>), Refusal> {
    let mut itinerary = bytes(records);
    let copied = copy(&mut itinerary, number);
    assert!(copied.is_ok() || itinerary == bytes(records));
    copied.map(|count| (count, itinerary))
}

#[test]
fn a_wash_is_copied() {
    let after = bytes(&[WASH[0], WASH[1], WASH[2], WASH[3], (1, 2, 1, 1), (3, 64, 0, 5)]);
    assert_eq!(copied(&WASH, 2), Ok((2, after.clone())));
    // The same tables hold, and the copy's out can act where the other one can't.
    let (policy, mut tables) = (usual(), [vec![0; TABLE_LENGTH], vec![0; TABLE_LENGTH]]);
    assert_eq!(make(&bytes(&WASH), &policy, &mut tables[0]), Ok(7));
    assert_eq!(make(&after, &policy, &mut tables[1]), Ok(7));
    assert_eq!((check(&after, &policy, &tables[0]), tables[0] == tables[1]), (Ok(()), true));
    let mut itinerary = after;
    assert_eq!(step(&mut itinerary, 4, 1), Err(refusal(11, 0)));
    assert_eq!(step(&mut itinerary, 6, 1), Ok(()));
    assert_eq!(parent(&itinerary, 5), 0);
}

#[test]
fn lowest_gone_records_first() {
    let gone = (0, 0, 0, 0);
    let before = [gone, (2, 65, 3, 5), gone, (5, 0, 0, 0), (1, 7, 2, 4), (5, 0, 0, 5), gone, gone];
    let after = [(2, 65, 3, 3), before[1], (1, 7, 2, 0), before[3], before[4], before[5], (5, 0, 0, 3), gone];
    assert_eq!(copied(&before, 4), Ok((3, bytes(&after))));
    // The inner copier's copy is active, with nothing beneath it; the inner one stands beneath the outer.
    assert_eq!(copied(&after, 7).map(|(count, _)| count), Ok(0));
    assert_eq!(copied(&after, 6), Err(refusal(17, 0)));
    assert_eq!(copied(&after, 4), Err(refusal(18, 0)));
}

#[test]
fn clients_are_copied() {
    let mut itinerary = with_clients(&WASH, &[17, 1, 999, 256, 0, 0]);
    assert_eq!(copy(&mut itinerary, 2), Ok(2));
    let clients = [1, 2, 3, 4, 5, 6].map(|number| itinerary[8 * number - 2..8 * number].to_vec());
    assert_eq!((&clients[4], &clients[5]), (&clients[2], &clients[3]));
}

#[test]
fn copies_refused() {
    for number in [0, 1, 3, 4, 5, 6, 7, 258, 1024, u16::MAX] {
        assert_eq!(copied(&WASH, number), Err(refusal(17, 0)));
        assert_eq!(copied(&WASH[..4], number), Err(refusal(17, 0)));
    }
    assert_eq!(copied(&WASH[..5], 2), Err(refusal(18, 0)));
    // Behind a capability, and beneath a copier.
    for above in [(2, 64, 0, 1), (5, 0, 0, 1)] {
        assert_eq!(copied(&[A[0], above, (5, 0, 0, 2), (1, 2, 1, 3)], 3), Err(refusal(17, 0)));
    }
    for (copier, expected) in [
        ((6, 0, 0, 1), refusal(2, 2)),
        ((5, 1, 0, 1), refusal(3, 2)),
        ((5, 64, 1, 1), refusal(3, 2)),
        ((5, 0, 1, 1), refusal(4, 2)),
        ((5, 0, 0, 7), refusal(5, 2)),
        ((5, 0, 0, 3), refusal(6, 2)),
    ] {
        let mut records = WASH;
        records[1] = copier;
        assert_eq!(copied(&records, 2), Err(expected));
    }
    assert_eq!(copy(&mut [0; 7], 0), Err(refusal(1, 0)));
    let nothing = raw::HubCopyResult { number: 18, record: 0, copied: 0 };
    let mut few = bytes(&WASH[..5]);
    assert_eq!(unsafe { raw::hub_copy(few.as_mut_ptr(), few.len(), 2) }, nothing);
}

#[test]
fn copiers_are_passed() {
    assert_eq!(above(&bytes(&WASH), &usual(), 4), (2, 1));
    assert_eq!(above(&bytes(&WASH), &usual(), 3), (1, 1));
    assert_eq!(screened(&WASH, &usual()).2, Verdict::Exposed(2));
    let mut itinerary = bytes(&WASH);
    assert_eq!(step(&mut itinerary, 2, 1), Err(refusal(10, 0)));
    let mut itinerary = bytes(&[WASH[0], WASH[1], (4, 64, 0, 1)]);
    assert_eq!(step(&mut itinerary, 3, 2), Err(refusal(12, 0)));
}

/// What a line of the header defines.
fn defined(name: &str) -> &'static str {
    let header = include_str!("../../include/birnsket.h");
    header.lines().find_map(|line| line.strip_prefix("#define ")?.strip_prefix(name)).unwrap().trim()
}

#[test]
fn the_header_has_the_same_numbers() {
    assert_eq!(defined("HUB_VERSION "), "0x040000u");
    assert_eq!((raw::HUB_VERSION, version()), (0x040000, 0x040000));
    assert_eq!(defined("HUB_POLICY_LENGTH "), POLICY_LENGTH.to_string());
    assert_eq!(defined("HUB_TABLE_LENGTH "), TABLE_LENGTH.to_string());
    assert_eq!(defined("HUB_LONGEST_LIST "), LONGEST_LIST.to_string());
}

#[test]
fn the_header_has_the_same_causes() {
    let header = include_str!("../../include/birnsket.h");
    // Its words in one line, and parts of a string joined.
    let words = header.split_whitespace().collect::<Vec<_>>().join(" ").replace(" \" \"", " ");
    let causes: Vec<String> =
        (1..19).map(|n| std::format!("return \"{}\";", refusal(n, 0).cause())).collect();
    let found: Vec<usize> = causes.iter().map(|cause| words.find(cause.as_str()).unwrap()).collect();
    assert!(found.is_sorted());
    assert_eq!(words.matches("return \"").count(), causes.len() + 2);
    assert!((0..100).filter(|&n| refusal(n, 0).cause() != "unknown cause").eq(1..19));
}
