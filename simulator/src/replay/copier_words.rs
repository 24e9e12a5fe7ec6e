//! What the calls met of copiers, in words.

use super::stream::{Buffer, Buffers, Call};
use crate::answer::Answer;
use crate::record::{Itinerary, Kind, Record};
use crate::table::{hidden, Table};

/// The words for an answer of a call on that itinerary, each behind its number.
pub fn met(
    call: Call,
    (x, y): (u16, u16),
    answer: &Answer,
    itinerary: &[u8],
    before: &Buffers,
) -> Vec<String> {
    let words = match (answer.number, Itinerary::read(itinerary)) {
        (2..=4, _) => refused(answer.number, &itinerary[usize::from(answer.record) * 8 - 8..][..8]),
        (10..=12, Ok(read)) if call == Call::Step => of_a_step(&read, x, y),
        (0, Ok(read)) => [done(&read), of_a_call(call, &read, x, before)].concat(),
        _ => Vec::new(),
    };
    words.into_iter().map(|word| format!("{:2} {word}", answer.number)).collect()
}

fn refused(number: u8, record: &[u8]) -> Vec<&'static str> {
    match (number, record[0]) {
        (2, 6) => vec!["kind 6"],
        (3, 5) if record[2] > 0 => vec!["copier's label", "copier's label before its name"],
        (3, 5) => vec!["copier's label"],
        (4, 5) => vec!["copier's name"],
        _ => Vec::new(),
    }
}

fn is_copier(record: &&Record) -> bool {
    record.kind == Kind::Copier
}

fn done(itinerary: &Itinerary) -> Vec<&'static str> {
    let copier = |number: u16| itinerary.is(Kind::Copier, number);
    let below = |number: u16| itinerary.upward(number).any(copier);
    let capability = |number: u16| itinerary.get(number).is_some_and(|record| record.kind.is_capability());
    so(&[
        ("with a copier", itinerary.records.iter().any(|record| is_copier(&record))),
        ("an ambient beneath a copier", itinerary.numbers().any(|k| itinerary.is_ambient(k) && below(k))),
        ("a capability beneath a copier", itinerary.numbers().any(|k| capability(k) && below(k))),
    ])
}

/// Words for which something is so.
fn so(words: &[(&'static str, bool)]) -> Vec<&'static str> {
    words.iter().filter(|&&(_, so)| so).map(|&(word, _)| word).collect()
}

fn of_a_step(itinerary: &Itinerary, actor: u16, partner: u16) -> Vec<&'static str> {
    let copier = |number: u16| itinerary.is(Kind::Copier, number);
    let c = itinerary.get(actor).copied().unwrap_or(Record::GONE);
    so(&[
        ("copier as actor", copier(actor)),
        ("right beneath a copier", c.kind.is_capability() && copier(c.parent)),
        ("beneath a copier", c.kind.is_capability() && itinerary.upward(actor).any(copier)),
        ("copier as partner", c.kind.is_capability() && copier(partner)),
    ])
}

fn of_a_call(call: Call, itinerary: &Itinerary, x: u16, before: &Buffers) -> Vec<&'static str> {
    let copier = |number: u16| itinerary.is(Kind::Copier, number);
    match call {
        Call::Climb => {
            let below = itinerary.upward(x).take_while(|&above| !itinerary.is_ambient(above)).any(copier);
            so(&[("copier before the container", below), ("from a copier", copier(x))])
        }
        Call::Sheet => {
            let Some(table) = Table::read(before.get(Buffer::Table)) else { return Vec::new() };
            let copiers: Vec<u16> = itinerary.numbers().filter(|&number| copier(number)).collect();
            let is_hidden = |number: &u16| hidden(itinerary, &table, *number);
            let all_hidden = copiers.iter().any(is_hidden);
            so(&[("a hidden copier", all_hidden), ("a shown copier", !copiers.iter().all(is_hidden))])
        }
        _ => Vec::new(),
    }
}

/// What the cases of a call that reads an itinerary have to meet.
pub fn wanted(call: Call) -> Vec<String> {
    let mut all: Vec<(u8, &str)> = vec![
        (0, "with a copier"),
        (0, "an ambient beneath a copier"),
        (0, "a capability beneath a copier"),
        (2, "kind 6"),
        (3, "copier's label"),
        (3, "copier's label before its name"),
        (4, "copier's name"),
    ];
    match call {
        Call::Climb => all.extend([(0, "copier before the container"), (0, "from a copier")]),
        Call::Sheet => all.extend([(0, "a hidden copier"), (0, "a shown copier")]),
        Call::Step => all.extend([
            (10, "copier as actor"),
            (11, "right beneath a copier"),
            (11, "beneath a copier"),
            (12, "copier as partner"),
        ]),
        _ => {}
    }
    all.into_iter().map(|(number, word)| format!("{number:2} {word}")).collect()
}
