//! Counts of what was lent and answered, and what a run has to have met.

use crate::buffers::{Buffer, Buffers};
use crate::calls::{Answer, Call};
use crate::families::{Family, FAMILIES};
use simulator::copies::{beneath, gone};
use simulator::record::{Itinerary, Kind, LAST_CLIENT, MOST_RECORDS};
use std::collections::BTreeMap;

/// Calls after which each answer of each call is met by far.
const ENOUGH: u64 = 200_000;

/// The numbers that a call can answer beside 0 and, but for the row, 1 to 6.
const OWN_NUMBERS: [(&str, &[u32]); 14] = [
    ("validate", &[]),
    ("climb", &[7]),
    ("sheet", &[8, 14]),
    ("step", &[10, 11, 12]),
    ("copy", &[17, 18]),
    ("moves", &[15]),
    ("run", &[13]),
    ("check", &[7, 8, 9]),
    ("join", &[7, 8, 9, 16]),
    ("make", &[7, 8]),
    ("verdict", &[7, 8, 9]),
    ("exposed", &[7, 8, 9]),
    ("row", &[]),
    ("screen", &[7, 13]),
];
const VERDICTS: [&str; 4] = ["", "exposed", "hinted", "sealed"];
const NO_AND_YES: [&str; 2] = ["no", "yes"];
/// What a list of moves can be in its buffer.
const LISTS: [&str; 5] = [
    "of no pairs",
    "in a buffer of no bytes",
    "as long as its buffer",
    "with bytes behind it",
    "as long as any",
];

/// Which of those a list is, by its buffer's length and its own.
fn list_is(room: usize, written: usize) -> [bool; 5] {
    [
        written == 0,
        room == 0,
        written == room && room > 0,
        written < room && written > 0,
        written == Buffer::List.limit(),
    ]
}

/// Adds one for each that is met.
fn count<const N: usize>(counts: &mut [u64; N], met: [bool; N]) {
    counts.iter_mut().zip(met).for_each(|(count, met)| *count += u64::from(met));
}

/// What a set can be, by the number it gets.
const SETS: [(&str, u32); 11] = [
    ("of four members", 0),
    ("of one member", 0),
    ("of no records", 0),
    ("of 1,024 records", 0),
    ("with a parent moved over 255", 0),
    ("of too many records", 16),
    ("in a buffer a byte short", 16),
    ("in a buffer a byte long", 16),
    ("in a buffer a record short", 16),
    ("in a buffer a record long", 16),
    ("held for the first member", 9),
];

/// What a copy can be, by the number it gets.
const COPIES: [(&str, u32); 10] = [
    ("of no records", 0),
    ("into all gone records", 0),
    ("in an ambient", 0),
    ("with a copier in it", 0),
    ("of 511 records", 0),
    ("of another record", 17),
    ("of an inactive copier", 17),
    ("inactive and too large", 17),
    ("a gone record short", 18),
    ("with nothing gone", 18),
];

/// Which of those a call's copy is, by the itinerary as it is after it.
fn copy_is(itinerary: &[u8], copier: u16, answer: &Answer) -> [bool; 10] {
    let Ok(read) = Itinerary::read(itinerary) else { return [false; 10] };
    let (below, gone) = (beneath(&read, copier), gone(&read).len());
    let (is_copier, copied) = (|number: u16| read.is(Kind::Copier, number), answer[2]);
    let is = [
        copied == 0,
        copied > 0 && gone == 0,
        copied > 0 && read.get(copier).is_some_and(|record| record.parent > 0),
        below.iter().any(|&number| is_copier(number)),
        copied == 511,
        read.get(copier).is_some_and(|record| record.kind != Kind::Copier),
        is_copier(copier),
        is_copier(copier) && gone < below.len(),
        gone + 1 == below.len(),
        gone == 0,
    ];
    std::array::from_fn(|place| is[place] && COPIES[place].1 == answer[0])
}

/// What else is met of copiers, by the number that a call gets.
const COPIERS: [(&str, u32); 5] = [
    ("copier's label", 3),
    ("copier's name", 4),
    ("copier as actor", 10),
    ("actor beneath a copier", 11),
    ("copier as partner", 12),
];

/// Which of those a call met, of whose members or itinerary these bytes are looked at.
fn copier_is(call: Call, answer: &Answer, bytes: &[u8]) -> [bool; 5] {
    let refused = 8 * (answer[1] as usize).saturating_sub(1);
    let fault = bytes.get(refused) == Some(&(Kind::Copier as u8));
    let read = match (call, answer[0]) {
        (Call::Step(..), 10..=12) => Itinerary::read(bytes).ok(),
        _ => None,
    };
    let step = |wanted: &dyn Fn(&Itinerary, u16, u16) -> bool| match (&read, call) {
        (Some(read), Call::Step(actor, partner)) => wanted(read, actor, partner),
        _ => false,
    };
    let is = [
        fault,
        fault,
        step(&|read, actor, _| read.is(Kind::Copier, actor)),
        step(&|read, actor, _| read.upward(actor).any(|above| read.is(Kind::Copier, above))),
        step(&|read, _, partner| read.is(Kind::Copier, partner)),
    ];
    std::array::from_fn(|place| is[place] && COPIERS[place].1 == answer[0])
}

/// Which of those a call's set is, by the buffers as they are after it.
fn set_is(lent: &Buffers, number: u32) -> [bool; 11] {
    let members = lent.members();
    let (right, room) = (members.concat().len(), lent.joined.len());
    let used = members.iter().filter(|member| !member.is_empty()).count();
    let fits = right <= 8 * MOST_RECORDS;
    // The high byte of a parent.
    let highs = |records: &[u8]| records.chunks_exact(8).map(|record| record[5]).collect::<Vec<u8>>();
    let moved = number == 0 && highs(&lent.joined) != highs(&members.concat());
    let held = number == 9 && simulator::check(members[0], &lent.policy, &lent.table).number == 0;
    let is = [
        used == 4,
        used == 1,
        right == 0,
        right == 8 * MOST_RECORDS,
        moved,
        !fits,
        fits && room + 1 == right,
        fits && room == right + 1,
        fits && room + 8 == right,
        fits && room == right + 8,
        held,
    ];
    std::array::from_fn(|place| is[place] && SETS[place].1 == number)
}

/// The first member that is refused, counted from 1, and its bytes; of another call or set the itinerary.
fn refused_member(call: Call, lent: &Buffers) -> (usize, &[u8]) {
    let refused = |(_, member): &(usize, &[u8])| Itinerary::read(member).is_err();
    let members = lent.members().into_iter().enumerate();
    let found = members.filter(|_| call == Call::Join).find(refused);
    found.map_or((0, &lent.itinerary), |(place, member)| (place + 1, member))
}

/// That name, if a call has it.
pub fn call_named(name: &str) -> Option<&'static str> {
    OWN_NUMBERS.iter().map(|(call, _)| *call).find(|call| *call == name)
}

/// Whether that record, refused with 2, has no other fault of form than its client: over 999, or on a gone record.
fn client_refused(itinerary: &[u8], record: u32) -> bool {
    let start = 8 * (record as usize).saturating_sub(1);
    let Some(bytes) = itinerary.get(start..start + 8) else { return false };
    let client = u16::from_le_bytes([bytes[6], bytes[7]]);
    match bytes[0] {
        0 => bytes[1..6].iter().all(|&byte| byte == 0) && client > 0,
        kind => kind <= Kind::LAST && bytes[3] == 0 && client > LAST_CLIENT,
    }
}

#[derive(Default)]
pub struct Tally {
    calls: u64,
    cases: usize,
    /// Calls that saw what makes the family, and those of them that were done.
    families: BTreeMap<Family, (u64, u64)>,
    numbers: BTreeMap<(&'static str, u32), u64>,
    steps: BTreeMap<u8, u64>,
    verdicts: BTreeMap<(&'static str, u32), u64>,
    exposed: [u64; 2],
    lists: [u64; 5],
    sets: [u64; 11],
    copies: [u64; 10],
    copiers: [u64; 5],
    /// Of members refused with a number, the first, second, third and fourth.
    members: BTreeMap<(u32, usize), u64>,
    /// Refused with 2 for nothing but a client.
    clients: BTreeMap<&'static str, u64>,
}

impl Tally {
    pub fn add_case(&mut self) {
        self.cases += 1;
    }

    /// Counts a call that saw what makes the family.
    pub fn add_seen(&mut self, family: Family, answer: &Answer) {
        let (seen, done) = self.families.entry(family).or_default();
        *seen += 1;
        *done += u64::from(answer[0] == 0);
    }

    /// Counts a call, with the buffers as they are after it.
    pub fn add(&mut self, call: Call, answer: &Answer, after: &Buffers) {
        self.calls += 1;
        *self.numbers.entry((call.name(), answer[0])).or_default() += 1;
        let (member, bytes) = refused_member(call, after);
        if answer[0] == 2 && client_refused(bytes, answer[1]) {
            *self.clients.entry(call.name()).or_default() += 1;
        }
        if member > 0 {
            *self.members.entry((answer[0], member)).or_default() += 1;
        } else if call == Call::Join {
            count(&mut self.sets, set_is(after, answer[0]));
        }
        count(&mut self.copiers, copier_is(call, answer, bytes));
        if let Call::Copy(copier) = call {
            count(&mut self.copies, copy_is(bytes, copier, answer));
        }
        if answer[0] == 0 {
            self.add_done(call, answer, after);
        }
    }

    fn add_done(&mut self, call: Call, answer: &Answer, after: &Buffers) {
        if matches!(call, Call::Verdict | Call::Screen) {
            *self.verdicts.entry((call.name(), answer[2])).or_default() += 1;
        }
        if call == Call::Exposed {
            self.exposed[answer[2] as usize] += 1;
        }
        if call == Call::Moves {
            count(&mut self.lists, list_is(after.list.len(), 4 * answer[2] as usize));
        }
        if matches!(call, Call::Run | Call::Screen) {
            for &byte in &after.answers {
                *self.steps.entry(byte).or_default() += 1;
            }
        }
    }

    /// What a run of this length should have met and didn't; a run without calls met nothing.
    pub fn missing(&self) -> Vec<String> {
        let mut missing = Vec::new();
        if self.calls == 0 {
            missing.push("any call".to_string());
        }
        // The first cases are one of each family.
        if self.cases > FAMILIES.len() {
            let absent = FAMILIES.iter().filter(|(family, _)| !self.families.contains_key(family));
            missing.extend(absent.map(|(family, _)| family.name()));
        }
        if self.calls >= ENOUGH {
            missing.extend(self.missing_answers());
            let never_done =
                self.families.iter().filter(|(family, (_, done))| family.can_be_done() && *done == 0);
            missing.extend(never_done.map(|(family, _)| format!("{} done", family.name())));
        }
        missing
    }

    fn missing_answers(&self) -> Vec<String> {
        let mut missing = Vec::new();
        for (call, own) in OWN_NUMBERS {
            let common: &[u32] = if call == "row" { &[0] } else { &[0, 1, 2, 3, 4, 5, 6] };
            let numbers = common.iter().chain(own);
            let absent = numbers.filter(|&&number| !self.numbers.contains_key(&(call, number)));
            missing.extend(absent.map(|number| format!("{call} {number}")));
            if call != "row" && !self.clients.contains_key(call) {
                missing.push(format!("{call} 2 by a client"));
            }
        }
        for call in ["verdict", "screen"] {
            let absent = (1..4).filter(|&code| !self.verdicts.contains_key(&(call, code)));
            missing.extend(absent.map(|code| format!("{call} {}", VERDICTS[code as usize])));
        }
        let absent = NO_AND_YES.iter().zip(self.exposed).filter(|&(_, count)| count == 0);
        missing.extend(absent.map(|(word, _)| format!("exposed {word}")));
        let absent = LISTS.iter().zip(self.lists).filter(|&(_, count)| count == 0);
        missing.extend(absent.map(|(word, _)| format!("list {word}")));
        let absent = SETS.iter().zip(self.sets).filter(|&(_, count)| count == 0);
        missing.extend(absent.map(|((word, _), _)| format!("set {word}")));
        let absent = COPIES.iter().zip(self.copies).filter(|&(_, count)| count == 0);
        missing.extend(absent.map(|((word, _), _)| format!("copy {word}")));
        let absent = COPIERS.iter().zip(self.copiers).filter(|&(_, count)| count == 0);
        missing.extend(absent.map(|((word, number), _)| format!("{number} by {word}")));
        let members = (1..7).flat_map(|number| (1..5).map(move |member| (number, member)));
        let absent = members.filter(|key| !self.members.contains_key(key));
        missing.extend(absent.map(|(number, member)| format!("join {number} in member {member}")));
        let absent = [0, 10, 11, 12].into_iter().filter(|number| !self.steps.contains_key(number));
        missing.extend(absent.map(|number| format!("step {number} of a script")));
        missing
    }

    pub fn print(&self) {
        println!("family, calls that saw it, done");
        for (family, (seen, done)) in &self.families {
            println!("{}, {seen}, {done}", family.name());
        }
        println!("call answer count");
        for ((call, number), count) in &self.numbers {
            println!("{call} {number} {count}");
        }
        for (call, count) in &self.clients {
            println!("{call} 2 by a client {count}");
        }
        for ((call, code), count) in &self.verdicts {
            println!("{call} {} {count}", VERDICTS[*code as usize]);
        }
        for (word, count) in NO_AND_YES.iter().zip(self.exposed) {
            println!("exposed {word} {count}");
        }
        for (word, count) in LISTS.iter().zip(self.lists) {
            println!("list {word} {count}");
        }
        for ((word, _), count) in SETS.iter().zip(self.sets) {
            println!("set {word} {count}");
        }
        for ((word, _), count) in COPIES.iter().zip(self.copies) {
            println!("copy {word} {count}");
        }
        for ((word, number), count) in COPIERS.iter().zip(self.copiers) {
            println!("{number} by {word} {count}");
        }
        for ((number, member), count) in &self.members {
            println!("join {number} in member {member} {count}");
        }
        for (number, count) in &self.steps {
            println!("step of a script {number} {count}");
        }
    }
}

#[cfg(test)]
mod tests {
    use super::*;

    const DONE: Answer = [0; 9];

    #[test]
    fn a_run_without_calls_misses_something() {
        assert_eq!(Tally::default().missing(), ["any call"]);
    }

    #[test]
    fn refusal_2_by_a_client_is_told_apart() {
        let by_client: [[u8; 8]; 3] =
            [[1, 1, 0, 0, 0, 0, 0xe8, 3], [5, 0, 99, 0, 9, 9, 0, 4], [0, 0, 0, 0, 0, 0, 17, 0]];
        let otherwise: [[u8; 8]; 3] =
            [[6, 1, 0, 0, 0, 0, 0xe8, 3], [1, 1, 0, 1, 0, 0, 0xe8, 3], [0, 1, 0, 0, 0, 0, 17, 0]];
        for record in by_client {
            assert!(client_refused(&[[1, 1, 0, 0, 0, 0, 0, 0], record].concat(), 2));
        }
        for record in otherwise {
            assert!(!client_refused(&record, 1));
        }
    }

    #[test]
    fn each_family_that_was_not_seen_is_missing() {
        let mut tally = Tally::default();
        (0..=FAMILIES.len()).for_each(|_| tally.add_case());
        tally.add(Call::Validate, &DONE, &Buffers::default());
        FAMILIES[1..].iter().for_each(|(family, _)| tally.add_seen(*family, &DONE));
        assert_eq!(tally.missing(), [FAMILIES[0].0.name()]);
        tally.add_seen(FAMILIES[0].0, &DONE);
        assert_eq!(tally.missing(), Vec::<String>::new());
    }

    #[test]
    fn a_long_run_misses_each_answer_that_never_came() {
        let mut tally = Tally::default();
        let lent = Buffers::default();
        (0..ENOUGH).for_each(|_| tally.add(Call::Validate, &DONE, &lent));
        let missing = tally.missing();
        assert!(
            missing.contains(&"validate 6".to_string()) && missing.contains(&"screen hinted".to_string())
        );
        assert!(
            missing.contains(&"moves 15".to_string()) && missing.contains(&"list as long as any".to_string())
        );
        assert!(missing.contains(&"run 2 by a client".to_string()));
        assert!(
            missing.contains(&"join 16".to_string()) && missing.contains(&"set of no records".to_string())
        );
        assert!(missing.contains(&"join 6 in member 4".to_string()));
        assert!(
            missing.contains(&"copy 18".to_string()) && missing.contains(&"copy of 511 records".to_string())
        );
        assert!(missing.contains(&"3 by copier's label".to_string()));
        assert!(missing.contains(&"exposed 9".to_string()) && missing.contains(&"exposed yes".to_string()));
        assert!(!missing.contains(&"validate 0".to_string()));
    }
}
