//! How often each call got each answer, and which answers must turn up.

use super::moves_cases::LONGEST;
use super::stream::{Buffer, Buffers, Call};
use super::{copier_words, copy_words, join_words};
use crate::answer::Answer;
use crate::law::Law;
use crate::record::{Itinerary, Kind, LAST_CLIENT, MOST_RECORDS};
use crate::steps;
use crate::table::{reached, verdict, Policy, Table, Verdict, BOUNDARY, HIGH};
use std::collections::BTreeMap;

/// Counts by call, and by answer in words.
#[derive(Clone, Debug, Default)]
pub struct Counts {
    by_answer: BTreeMap<(Call, String), usize>,
}

impl Counts {
    /// Notes an answer, and what can be told apart among answers of number 0.
    pub fn note(
        &mut self,
        call: Call,
        (x, y): (u16, u16),
        answer: &Answer,
        before: &Buffers,
        after: &Buffers,
    ) {
        self.add(call, format!("{:2}", answer.number));
        if call != Call::Row {
            let itinerary = looked_at(call, before, after);
            self.add_clients(call, x, answer, itinerary);
            let words = copier_words::met(call, (x, y), answer, itinerary, before);
            words.into_iter().for_each(|word| self.add(call, word));
        }
        if call == Call::Moves {
            self.add_room(answer.number, after);
        }
        let words = match call {
            Call::Join => join_words::met(before, answer),
            Call::Copy => copy_words::met(x, before, answer),
            _ => Vec::new(),
        };
        words.into_iter().for_each(|word| self.add(call, word));
        if answer.number != 0 {
            return;
        }
        match call {
            Call::Verdict => self.add_verdict(call, answer.values[0], answer.values[1]),
            Call::Screen => self.add_verdict(call, answer.values[0] / 256, answer.values[0] % 256),
            Call::Climb => self.add_climb(x, after),
            Call::Exposed => self.add_exposed(answer.values[0] == 1, after),
            Call::Moves => self.add_moves(answer, after),
            Call::Row if answer.values[1] == 0 => self.add(call, " 0 empty part".to_string()),
            _ => {}
        }
        if matches!(call, Call::Run | Call::Screen) {
            for step in after.get(Buffer::Answers) {
                self.add(call, format!(" 0 with step answer {step}"));
            }
        }
    }

    fn add(&mut self, call: Call, answer: String) {
        *self.by_answer.entry((call, answer)).or_default() += 1;
    }

    /// Refusal 2 by a client, and calls that are done with clients.
    fn add_clients(&mut self, call: Call, actor: u16, answer: &Answer, itinerary: &[u8]) {
        let words = match (answer.number, Itinerary::read(itinerary)) {
            (2, _) => refused_clients(&itinerary[usize::from(answer.record) * 8 - 8..][..8]),
            (0, Ok(read)) if call == Call::Step => {
                [with_clients(&read), moved_clients(&read, actor)].concat()
            }
            (0, Ok(read)) => with_clients(&read),
            _ => Vec::new(),
        };
        words.into_iter().for_each(|word| self.add(call, format!("{:2} {word}", answer.number)));
    }

    fn add_verdict(&mut self, call: Call, code: u32, label: u32) {
        let word = match (code, label) {
            (1, _) => "exposed",
            (2, 0) => "hinted 0",
            (2, _) => "hinted",
            _ => "sealed",
        };
        self.add(call, format!(" 0 {word}"));
    }

    /// What the number is, and what is met on the way up from a record that stands.
    fn add_climb(&mut self, number: u16, after: &Buffers) {
        let policy = Policy::try_from(&after.get(Buffer::Policy)[..]);
        let (Ok(policy), Ok(itinerary)) = (policy, Itinerary::read(after.get(Buffer::Itinerary))) else {
            return;
        };
        let word = match itinerary.get(number) {
            None if number == 0 => "number 0",
            None => "over the count",
            Some(record) if record.kind == Kind::Gone => "gone",
            Some(_) => return self.add_way(&itinerary, &policy, number),
        };
        self.add(Call::Climb, format!(" 0 {word}"));
    }

    fn add_way(&mut self, itinerary: &Itinerary, policy: &Policy, number: u16) {
        let above = itinerary.above(number);
        let is = |at: &u16, class: u8| {
            let ambient = itinerary.get(*at).filter(|record| record.kind == Kind::Ambient);
            ambient.is_some_and(|record| policy[record.label as usize] == class)
        };
        let places: Vec<usize> = (0..above.len()).filter(|&place| is(&above[place], BOUNDARY)).collect();
        let below = &above[..places.first().copied().unwrap_or(above.len())];
        let met = [
            ("boundary right above", places.first() == Some(&0)),
            ("boundary farther up", places.first().is_some_and(|&place| place > 0)),
            ("several boundaries above", places.len() > 1),
            ("no boundary above", places.is_empty()),
            ("itself a boundary", is(&number, BOUNDARY)),
            ("itself the only boundary", is(&number, BOUNDARY) && places.is_empty()),
            ("capability before it", below.iter().any(|&at| !itinerary.is_ambient(at))),
            ("high before it", below.iter().any(|at| is(at, HIGH))),
            ("from a capability", !itinerary.is_ambient(number)),
            ("parent of a higher number", above.first().is_some_and(|&parent| parent > number)),
        ];
        for (word, _) in met.into_iter().filter(|&(_, so)| so) {
            self.add(Call::Climb, format!(" 0 {word}"));
        }
    }

    /// Where the first high label can stand, or what the verdict is without one.
    fn add_exposed(&mut self, yes: bool, after: &Buffers) {
        let policy = Policy::try_from(&after.get(Buffer::Policy)[..]);
        let (Ok(policy), Some(table)) = (policy, Table::read(after.get(Buffer::Table))) else { return };
        let in_row = |x: u8| (1..64u8).any(|k| table.inside(x, k) && policy[k as usize] == HIGH);
        let word = match verdict(&policy, &table) {
            Verdict::Exposed(_) if in_row(0) => "by row 0",
            Verdict::Exposed(_) => "rows away",
            Verdict::Hinted(_) => "hinted",
            Verdict::Sealed => "sealed",
        };
        self.add(Call::Exposed, format!(" 0 {} {word}", if yes { "yes," } else { "no," }));
        let reached = reached(&policy, &table);
        let behind = |x: u8| reached[x as usize] && policy[x as usize] == BOUNDARY && in_row(x);
        if !yes && (1..64).any(behind) {
            self.add(Call::Exposed, " 0 no, behind a boundary".to_string());
        }
    }

    /// How much room the list had.
    fn add_room(&mut self, number: u8, after: &Buffers) {
        let room = after.get(Buffer::List).len();
        let itinerary = Itinerary::read(after.get(Buffer::Itinerary));
        let needed = itinerary.map_or(0, |it| 4 * steps::moves(Law::Document, &it).0.len());
        let good = matches!(number, 0 | 15);
        let met = [
            ("no bytes", room == 0),
            ("with bytes", room > 0),
            ("one byte less", good && room + 1 == needed),
            ("just as long", good && room == needed && needed > 0),
            ("longer by no multiple of 4", good && room > needed && room % 4 != 0),
            ("longer by a multiple of 4", good && room > needed && room % 4 == 0),
            ("the longest list", needed == LONGEST),
        ];
        for (word, _) in met.into_iter().filter(|&(_, so)| so) {
            self.add(Call::Moves, format!("{number:2} {word}"));
        }
    }

    /// What stands on the list, and what was answered.
    fn add_moves(&mut self, answer: &Answer, after: &Buffers) {
        let Ok(itinerary) = Itinerary::read(after.get(Buffer::Itinerary)) else { return };
        let pairs = steps::script_steps(&after.get(Buffer::List)[..4 * answer.values[0] as usize]);
        let mut actors: Vec<u16> = pairs.iter().map(|&(actor, _)| actor).collect();
        actors.dedup();
        let full = itinerary.count() == MOST_RECORDS;
        let all = |place: usize| full && answer.values[place] as usize == MOST_RECORDS * MOST_RECORDS;
        let acts = |kind: Kind| {
            actors.iter().any(|&actor| itinerary.get(actor).is_some_and(|record| record.kind == kind))
        };
        let met = [
            ("no records", itinerary.count() == 0),
            ("no pairs", actors.is_empty()),
            ("all answers", answer.values[..4].iter().all(|&times| times > 0)),
            ("all 10", all(1)),
            ("all 11", all(2)),
            ("all 12", all(3)),
            ("in", acts(Kind::In)),
            ("out", acts(Kind::Out)),
            ("open", acts(Kind::Open)),
            ("an actor with several", actors.len() < pairs.len()),
            ("few actors of 1,024", full && (1..=4).contains(&actors.len())),
            ("a gone record", itinerary.standing() < itinerary.count()),
        ];
        for (word, _) in met.into_iter().filter(|&(_, so)| so) {
            self.add(Call::Moves, format!(" 0 {word}"));
        }
    }

    /// How many calls were made.
    pub fn calls(&self) -> usize {
        let whole = self.by_answer.iter().filter(|((_, answer), _)| answer.len() == 2);
        whole.map(|(_, count)| count).sum()
    }

    pub fn lines(&self) -> Vec<String> {
        let line = |((call, answer), count): (&(Call, String), &usize)| {
            format!("{:<10}{:<28}{:>8}", format!("{call:?}").to_lowercase(), answer, count)
        };
        self.by_answer.iter().map(line).collect()
    }

    /// Answers that these calls can get and that never turned up.
    pub fn missing(&self, calls: &[Call]) -> Vec<String> {
        let wanted =
            calls.iter().flat_map(|&call| reachable(call).into_iter().map(move |answer| (call, answer)));
        let absent = wanted.filter(|key| !self.by_answer.contains_key(key));
        absent.map(|(call, answer)| format!("{call:?} {answer}")).collect()
    }
}

/// The itinerary that an answer is about: of a join the member that is refused, or what was joined.
fn looked_at<'a>(call: Call, before: &'a Buffers, after: &'a Buffers) -> &'a [u8] {
    match call {
        Call::Join => join_words::refused_member(before).unwrap_or(after.get(Buffer::Joined)),
        _ => before.get(Buffer::Itinerary),
    }
}

/// What is wrong with the client of a record that is refused with 2, if its client is all that 2 is about.
fn refused_clients(record: &[u8]) -> Vec<&'static str> {
    let client = u16::from_le_bytes([record[6], record[7]]);
    if record[0] == 0 {
        let alone = record[..6].iter().all(|&byte| byte == 0);
        return if alone { vec!["gone with a client"] } else { Vec::new() };
    }
    if record[0] > Kind::LAST || record[3] != 0 {
        return Vec::new();
    }
    let kind = Kind::ALL[usize::from(record[0])];
    let met = [
        ("client over 999", true),
        ("client 1000", client == 1000),
        ("client by its high byte alone", client % 256 == 0),
        ("client before 3 or 4", !kind.labels().contains(&record[1]) || !kind.names().contains(&record[2])),
    ];
    met.into_iter().filter(|&(_, so)| so).map(|(word, _)| word).collect()
}

fn with_clients(itinerary: &Itinerary) -> Vec<&'static str> {
    let clients = || itinerary.records.iter().map(|record| record.client);
    let met = [
        ("with clients", clients().any(|client| client > 0)),
        ("with client 999", clients().any(|client| client == LAST_CLIENT)),
        ("with a client of two bytes", clients().any(|client| client > 255 && client % 256 > 0)),
    ];
    met.into_iter().filter(|&(_, so)| so).map(|(word, _)| word).collect()
}

/// Clients of what a step that is done moves or enters, leaves or opens, and of what follows the actor.
fn moved_clients(itinerary: &Itinerary, actor: u16) -> Vec<&'static str> {
    let Some(c) = itinerary.get(actor) else { return Vec::new() };
    let client = |number: u16| itinerary.get(number).is_some_and(|record| record.client > 0);
    let children = itinerary.records.iter().any(|record| record.parent == actor && record.client > 0);
    let words = match c.kind {
        Kind::In => ["in, mover's client", "in, children's clients"],
        Kind::Out => ["out, mover's client", "out, children's clients"],
        _ => ["open, actor's client", "open, children's clients"],
    };
    let first = if c.kind == Kind::Open { c.client > 0 } else { client(c.parent) };
    words.into_iter().zip([first, children]).filter(|&(_, so)| so).map(|(word, _)| word).collect()
}

/// What each call that reads an itinerary has to meet: answer and words.
const CLIENTS: [(u8, &str); 8] = [
    (0, "with clients"),
    (0, "with client 999"),
    (0, "with a client of two bytes"),
    (2, "client over 999"),
    (2, "client 1000"),
    (2, "client by its high byte alone"),
    (2, "client before 3 or 4"),
    (2, "gone with a client"),
];
const MOVED: [&str; 6] = [
    "in, mover's client",
    "in, children's clients",
    "out, mover's client",
    "out, children's clients",
    "open, actor's client",
    "open, children's clients",
];

/// What the cases of the climb have to meet.
const CLIMBS: [&str; 13] = [
    "number 0",
    "over the count",
    "gone",
    "boundary right above",
    "boundary farther up",
    "several boundaries above",
    "no boundary above",
    "itself a boundary",
    "itself the only boundary",
    "capability before it",
    "high before it",
    "from a capability",
    "parent of a higher number",
];

/// What the cases of the list have to meet: rooms, then what stands on it.
const ROOMS: [&str; 5] = [
    "just as long",
    "longer by no multiple of 4",
    "longer by a multiple of 4",
    "no bytes",
    "the longest list",
];
const MOVES: [&str; 12] = [
    "no records",
    "no pairs",
    "all answers",
    "all 10",
    "all 11",
    "all 12",
    "in",
    "out",
    "open",
    "an actor with several",
    "few actors of 1,024",
    "a gone record",
];

/// Every answer that the call can get.
fn reachable(call: Call) -> Vec<String> {
    let numbers: &[u8] = match call {
        Call::Validate => &[],
        Call::Climb => &[7],
        Call::Sheet => &[8, 14],
        Call::Step => &[10, 11, 12],
        Call::Run => &[13],
        Call::Check | Call::Verdict | Call::Exposed => &[7, 8, 9],
        Call::Maker => &[7, 8],
        Call::Row => return vec![" 0".to_string(), " 0 empty part".to_string()],
        Call::Screen => &[7, 13],
        Call::Moves => &[15],
        Call::Join => &[7, 8, 9, 16],
        Call::Copy => &[17, 18],
    };
    let mut all: Vec<String> =
        (0..=6).chain(numbers.iter().copied()).map(|number: u8| format!("{number:2}")).collect();
    all.extend(CLIENTS.map(|(number, word)| format!("{number:2} {word}")));
    all.extend(copier_words::wanted(call));
    if call == Call::Step {
        all.extend(MOVED.map(|word| format!(" 0 {word}")));
    }
    if matches!(call, Call::Verdict | Call::Screen) {
        all.extend(["exposed", "hinted", "hinted 0", "sealed"].map(|word| format!(" 0 {word}")));
    }
    if call == Call::Climb {
        all.extend(CLIMBS.map(|word| format!(" 0 {word}")));
    }
    if call == Call::Join {
        all.extend(join_words::wanted());
    }
    if call == Call::Copy {
        all.extend(copy_words::wanted());
    }
    if call == Call::Exposed {
        let words = ["yes, by row 0", "yes, rows away", "no, hinted", "no, sealed", "no, behind a boundary"];
        all.extend(words.map(|word| format!(" 0 {word}")));
    }
    if call == Call::Moves {
        all.extend(ROOMS.into_iter().chain(MOVES).map(|word| format!(" 0 {word}")));
        all.extend(["no bytes", "one byte less", "the longest list"].map(|word| format!("15 {word}")));
        let both = |number: u8| ["no bytes", "with bytes"].map(|word| format!("{number:2} {word}"));
        all.extend((1..=6).flat_map(both));
    }
    if matches!(call, Call::Run | Call::Screen) {
        all.extend([0, 10, 11, 12].map(|step| format!(" 0 with step answer {step}")));
    }
    all
}
