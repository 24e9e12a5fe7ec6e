//! The calls on lent bytes, each with its refusals in the document's order.
//!
//! A call first looks at everything it may refuse, and only then writes.

use crate::answer::{refuse, values, Outcome, Refusal};
use crate::copies;
use crate::law::Law;
use crate::record::{self, Itinerary, Kind, MOST_RECORDS, RECORD_LENGTH};
use crate::steps;
use crate::table::{self, Policy, Table, BOUNDARY, LOW, ROW_LENGTH, TABLE_LENGTH};

const MOST_SCRIPT: usize = 4096;
const STEP_LENGTH: usize = 4;

/// Refusal 7.
fn read_policy(bytes: &[u8]) -> Result<Policy, Refusal> {
    match Policy::try_from(bytes) {
        Ok(policy) if policy[0] == LOW && policy.iter().all(|&class| class <= BOUNDARY) => Ok(policy),
        _ => refuse(7),
    }
}

/// Refusal 8 in full.
fn read_table(bytes: &[u8]) -> Result<Table, Refusal> {
    match Table::read(bytes) {
        Some(table) if table.is_formed() => Ok(table),
        _ => refuse(8),
    }
}

/// Refusal 13.
fn look_at_script(script: &[u8], answers: &[u8]) -> Result<(), Refusal> {
    let whole = script.len() % STEP_LENGTH == 0 && script.len() <= MOST_SCRIPT;
    if whole && answers.len() == script.len() / STEP_LENGTH {
        Ok(())
    } else {
        refuse(13)
    }
}

/// The table when it is accepted, and the policy.
fn accept(law: Law, itinerary: &[u8], policy: &[u8], table: &[u8]) -> Result<(Policy, Table), Refusal> {
    let itinerary = Itinerary::read(itinerary)?;
    let policy = read_policy(policy)?;
    let table = read_table(table)?;
    if !table::holds(law, &itinerary, &policy, &table) {
        return refuse(9);
    }
    Ok((policy, table))
}

pub fn validate(itinerary: &[u8]) -> Outcome {
    let itinerary = Itinerary::read(itinerary)?;
    Ok(values(&[itinerary.count() as u32]))
}

/// The container and the number of the nearest boundary ambient above; both 0 for a
/// number that is 0, over the count or a gone record's.
pub fn climb(law: Law, itinerary: &[u8], policy: &[u8], number: u16) -> Outcome {
    let itinerary = Itinerary::read(itinerary)?;
    let policy = read_policy(policy)?;
    let stands = itinerary.get(number).is_some_and(|record| record.kind != Kind::Gone);
    if !stands {
        return Ok(values(&[]));
    }
    let container = itinerary.container(law, number).into();
    Ok(values(&[container, table::boundary_above(&itinerary, &policy, number).into()]))
}

pub fn sheet(itinerary: &[u8], table: &[u8], sheet: &mut [u8]) -> Outcome {
    let read = Itinerary::read(itinerary)?;
    let table = read_table(table)?;
    if sheet.len() != itinerary.len() {
        return refuse(14);
    }
    sheet.copy_from_slice(&table::sheet(&read, &table));
    Ok(values(&[]))
}

pub fn step(law: Law, itinerary: &mut [u8], actor: u16, partner: u16) -> Outcome {
    let mut read = Itinerary::read(itinerary)?;
    match steps::step(law, &mut read, actor, partner) {
        Ok(_) => itinerary.copy_from_slice(&read.bytes()),
        Err(refusal) => return refuse(refusal),
    }
    Ok(values(&[]))
}

/// Writes every pair whose step would be done, if the list has room for them. The values:
/// how many of all pairs would answer 0, 10, 11 and 12.
pub fn moves(law: Law, itinerary: &[u8], list: &mut [u8]) -> Outcome {
    let itinerary = Itinerary::read(itinerary)?;
    let (pairs, tally) = steps::moves(law, &itinerary);
    let bytes = steps::script(&pairs);
    if list.len() < bytes.len() {
        return refuse(15);
    }
    list[..bytes.len()].copy_from_slice(&bytes);
    Ok(values(&[tally.done, tally.no_capability, tally.inactive, tally.unfit]))
}

/// Copies what stands beneath a copier. The value: how many records.
pub fn copy(law: Law, itinerary: &mut [u8], number: u16) -> Outcome {
    let mut read = Itinerary::read(itinerary)?;
    match copies::copy(law, &mut read, number) {
        Ok(copied) => {
            itinerary.copy_from_slice(&read.bytes());
            Ok(values(&[copied.into()]))
        }
        Err(refusal) => refuse(refusal),
    }
}

pub fn run(law: Law, itinerary: &mut [u8], script: &[u8], answers: &mut [u8]) -> Outcome {
    let mut read = Itinerary::read(itinerary)?;
    look_at_script(script, answers)?;
    let done = steps::run(law, &mut read, script, answers);
    itinerary.copy_from_slice(&read.bytes());
    Ok(values(&[done.ins.into(), done.outs.into(), done.opens.into()]))
}

pub fn check(law: Law, itinerary: &[u8], policy: &[u8], table: &[u8]) -> Outcome {
    accept(law, itinerary, policy, table)?;
    Ok(values(&[]))
}

/// Checks the joined itinerary, and writes it. Each member's 1 to 6 come first, with records counted in that member.
pub fn join(law: Law, members: [&[u8]; 4], policy: &[u8], table: &[u8], joined: &mut [u8]) -> Outcome {
    let mut read = Vec::new();
    for member in members {
        read.push(Itinerary::read(member)?);
    }
    let bytes = record::join(&read).bytes();
    if bytes.len() > MOST_RECORDS * RECORD_LENGTH || joined.len() != bytes.len() {
        return refuse(16);
    }
    accept(law, &bytes, policy, table)?;
    joined.copy_from_slice(&bytes);
    Ok(values(&[]))
}

pub fn maker(law: Law, itinerary: &[u8], policy: &[u8], table: &mut [u8]) -> Outcome {
    let itinerary = Itinerary::read(itinerary)?;
    let policy = read_policy(policy)?;
    if table.len() != TABLE_LENGTH {
        return refuse(8);
    }
    let made = table::least(law, &[&itinerary], &policy);
    table.copy_from_slice(&made.bytes);
    Ok(values(&[made.ones().into()]))
}

pub fn verdict(law: Law, itinerary: &[u8], policy: &[u8], table: &[u8]) -> Outcome {
    let (policy, table) = accept(law, itinerary, policy, table)?;
    let (code, label) = table::verdict(&policy, &table).numbers();
    Ok(values(&[code.into(), label.into()]))
}

/// 1 for yes, 0 for no; refused as the verdict is.
pub fn exposed(law: Law, itinerary: &[u8], policy: &[u8], table: &[u8]) -> Outcome {
    let (policy, table) = accept(law, itinerary, policy, table)?;
    Ok(values(&[u32::from(table::exposed(&policy, &table))]))
}

/// Offset and length of the row's part of the table; 0 and 0 for the empty part.
pub fn row(table: &[u8], label: u16) -> Outcome {
    if label > 63 || table.len() != TABLE_LENGTH {
        return Ok(values(&[]));
    }
    Ok(values(&[u32::from(label) * ROW_LENGTH as u32, ROW_LENGTH as u32]))
}

/// What the program does with its three files: table and verdict are made from
/// the itinerary as it was lent, then the script is run.
pub fn screen(law: Law, itinerary: &mut [u8], policy: &[u8], script: &[u8], answers: &mut [u8]) -> Outcome {
    let mut read = Itinerary::read(itinerary)?;
    let policy = read_policy(policy)?;
    look_at_script(script, answers)?;
    let made = table::least(law, &[&read], &policy);
    let (code, label) = table::verdict(&policy, &made).numbers();
    let done = steps::run(law, &mut read, script, answers);
    itinerary.copy_from_slice(&read.bytes());
    let standing = read.standing() as u16;
    let all = [code * 256 + label, made.ones(), done.ins, done.outs, done.opens, standing];
    Ok(all.map(u32::from))
}
