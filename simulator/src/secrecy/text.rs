//! Counterexamples as text that people can read and the replay reads back.

use super::{Case, Event};
use crate::law::Law;
use crate::record::{Itinerary, Kind, Record};
use crate::table::{h_bit, i_bit, s_bit, Policy, Table, BOUNDARY, HIGH, LOW};
use std::fmt::Write;

/// A stored counterexample: the change, the part it makes false, and the case.
pub struct Stored {
    pub law: Law,
    pub part: u8,
    pub case: Case,
}

const HEADINGS: [&str; 7] = ["x", "y", "policy", "I", "H", "S", "steps"];

pub fn print(stored: &Stored) -> String {
    let Case { x, y, policy, table, events } = &stored.case;
    let mut text = format!("change {}\npart {}\n", stored.law.name(), stored.part);
    for (heading, itinerary) in [("x", x), ("y", y)] {
        let _ = writeln!(text, "\n{heading}");
        for r in &itinerary.records {
            let client = if r.client == 0 { String::new() } else { format!(" {}", r.client) };
            let _ = writeln!(text, "{} {} {} {}{client}", r.kind as u8, r.label, r.name, r.parent);
        }
    }
    text += "\npolicy\n";
    for (label, &class) in policy.iter().enumerate().filter(|(_, &class)| class != LOW) {
        let _ = writeln!(text, "{label} {}", if class == HIGH { "high" } else { "boundary" });
    }
    text += "\nI\n";
    for (outer, inner) in pairs(64, 128).filter(|&(outer, inner)| table.inside(outer, inner)) {
        let _ = writeln!(text, "{outer} {inner}");
    }
    text += "\nH\n";
    for (label, name) in pairs(64, 64).filter(|&(label, name)| table.bears(label, name)) {
        let _ = writeln!(text, "{label} {name}");
    }
    text += "\nS\n";
    for label in (0..64).filter(|&label| table.suspect(label)) {
        let _ = writeln!(text, "{label}");
    }
    text += "\nsteps\n";
    for event in events {
        let _ = match event {
            Event::Step(actor, partner) => writeln!(text, "{actor} {partner}"),
            Event::Copy(copier) => writeln!(text, "copy {copier}"),
        };
    }
    text
}

fn pairs(outer: u8, inner: u8) -> impl Iterator<Item = (u8, u8)> {
    (0..outer).flat_map(move |a| (0..inner).map(move |b| (a, b)))
}

/// Reads the text back; the error says which line is not understood.
pub fn read(text: &str) -> Result<Stored, String> {
    let mut stored = Stored { law: Law::Document, part: 0, case: empty_case() };
    let mut heading = "";
    for line in text.lines().map(str::trim).filter(|line| !line.is_empty()) {
        match HEADINGS.iter().find(|known| **known == line) {
            Some(known) => heading = known,
            None => read_line(&mut stored, heading, line).ok_or(format!("not understood: {line}"))?,
        }
    }
    for itinerary in [&stored.case.x, &stored.case.y] {
        Itinerary::read(&itinerary.bytes()).map_err(|refusal| format!("an itinerary gets {refusal:?}"))?;
    }
    Ok(stored)
}

fn empty_case() -> Case {
    let none = Itinerary { records: Vec::new() };
    Case {
        x: none.clone(),
        y: none,
        policy: Policy::from([LOW; 64]),
        table: Table::empty(),
        events: Vec::new(),
    }
}

fn read_line(stored: &mut Stored, heading: &str, line: &str) -> Option<()> {
    let words: Vec<&str> = line.split_whitespace().collect();
    let number = |place: usize| words.get(place)?.parse::<u16>().ok();
    let label = |place: usize| words.get(place)?.parse::<u8>().ok();
    let case = &mut stored.case;
    match heading {
        "" if words[0] == "change" => stored.law = Law::change(words.get(1)?)?,
        "" if words[0] == "part" => stored.part = label(1)?,
        "x" | "y" => {
            let kind = *Kind::ALL.get(number(0)? as usize)?;
            let client = if words.len() > 4 { number(4)? } else { 0 };
            let record = Record { kind, label: label(1)?, name: label(2)?, parent: number(3)?, client };
            if heading == "x" {
                case.x.records.push(record)
            } else {
                case.y.records.push(record)
            }
        }
        "policy" => {
            let class = if *words.get(1)? == "high" { HIGH } else { BOUNDARY };
            *case.policy.get_mut(number(0)? as usize)? = class;
        }
        "I" => case.table.set(i_bit(label(0)?, label(1)?)),
        "H" => case.table.set(h_bit(label(0)?, label(1)?)),
        "S" => case.table.set(s_bit(label(0)?)),
        "steps" if words[0] == "copy" => case.events.push(Event::Copy(number(1)?)),
        "steps" => case.events.push(Event::Step(number(0)?, number(1)?)),
        _ => return None,
    }
    Some(())
}
