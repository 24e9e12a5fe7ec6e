//! Bytes that are refused by 1 to 6, each cause by itself.

use super::clients;
use crate::random::Random;
use crate::record::{Kind, MOST_RECORDS, RECORD_LENGTH};

const COPIER: u8 = Kind::Copier as u8;

/// Damages the bytes so that refusal `cause` has a reason; says whether it could.
pub fn damage(random: &mut Random, bytes: &mut Vec<u8>, cause: u8) -> bool {
    match cause {
        1 => spoil_length(random, bytes),
        2 => spoil_form(random, bytes),
        3 => spoil_label(random, bytes),
        4 => spoil_name(random, bytes),
        5 => spoil_parent(random, bytes),
        _ => make_ring(random, bytes),
    }
}

fn places(bytes: &[u8], gone: bool) -> Vec<usize> {
    let count = bytes.len() / RECORD_LENGTH;
    (0..count).map(|place| place * RECORD_LENGTH).filter(|&at| (bytes[at] == 0) == gone).collect()
}

fn spoil_length(random: &mut Random, bytes: &mut Vec<u8>) -> bool {
    let more = random.between(1, 7);
    if bytes.len() + more > RECORD_LENGTH * MOST_RECORDS || random.chance(50) {
        bytes.resize(bytes.len() + more, 0);
    } else if bytes.len() >= RECORD_LENGTH {
        bytes.truncate(bytes.len() - more);
    } else {
        bytes.push(0);
    }
    true
}

/// Any byte of a gone record; kind, spare byte or client of another.
fn spoil_form(random: &mut Random, bytes: &mut [u8]) -> bool {
    let gone = places(bytes, true);
    if !gone.is_empty() && random.chance(40) {
        let at = random.pick(&gone) + random.between(1, 7);
        bytes[at] = random.between(1, 255) as u8;
        return true;
    }
    let count = bytes.len() / RECORD_LENGTH;
    if count == 0 {
        return false;
    }
    let at = random.below(count) * RECORD_LENGTH;
    match random.below(4) {
        0 => bytes[at] = random.pick(&[6, 7, 8, 9, 128, 255]),
        1 => bytes[at + 3] = random.pick(&[1, 2, 128, 255]),
        // Of a gone record any client is too much.
        _ => put_client(bytes, at, random.pick(&clients::REFUSED)),
    }
    true
}

fn put_client(bytes: &mut [u8], at: usize, client: u16) {
    bytes[at + 6..at + 8].copy_from_slice(&client.to_le_bytes());
}

/// Refusal 2 by a client alone: one over 999, or any on a gone record, where there is one and it is
/// asked for. Says whether it could.
pub fn spoil_client(random: &mut Random, bytes: &mut [u8], on_gone: bool) -> bool {
    let Some(at) = random.choose(&places(bytes, on_gone)) else { return false };
    let client = match on_gone && random.chance(60) {
        true => clients::any(random),
        false => random.pick(&clients::REFUSED),
    };
    put_client(bytes, at, client);
    true
}

fn spoil_label(random: &mut Random, bytes: &mut [u8]) -> bool {
    let Some(at) = random.choose(&places(bytes, false)) else { return false };
    bytes[at + 1] = match bytes[at] {
        1 => random.pick(&[0, 64, 65, 127, 128, 255]),
        COPIER => random.pick(&[1, 2, 63, 64, 65, 127, 128, 255]),
        _ => random.pick(&[0, 1, 62, 63, 128, 129, 255]),
    };
    true
}

fn spoil_name(random: &mut Random, bytes: &mut [u8]) -> bool {
    let Some(at) = random.choose(&places(bytes, false)) else { return false };
    bytes[at + 2] = match bytes[at] {
        COPIER => random.pick(&[1, 2, 63, 64, 128, 255]),
        _ => random.pick(&[64, 65, 127, 128, 255]),
    };
    true
}

/// Over the count, in one or both bytes, or a gone record.
fn spoil_parent(random: &mut Random, bytes: &mut [u8]) -> bool {
    let Some(at) = random.choose(&places(bytes, false)) else { return false };
    let count = bytes.len() / RECORD_LENGTH;
    let gone = places(bytes, true);
    let parent = match random.choose(&gone) {
        Some(gone) if random.chance(60) => gone / RECORD_LENGTH + 1,
        _ => random.pick(&[count + 1, count + 2, count + 256, 1025, 2049, 32769, 65535]),
    };
    bytes[at + 4..at + 6].copy_from_slice(&(parent as u16).to_le_bytes());
    true
}

/// A ring of some length; what stood below its records now leads into it.
fn make_ring(random: &mut Random, bytes: &mut [u8]) -> bool {
    let mut places = places(bytes, false);
    if places.is_empty() {
        return false;
    }
    random.shuffle(&mut places);
    let most = places.len().min(5);
    places.truncate(random.between(1, most));
    for (place, &at) in places.iter().enumerate() {
        let next = places[(place + 1) % places.len()] / RECORD_LENGTH + 1;
        bytes[at + 4..at + 6].copy_from_slice(&(next as u16).to_le_bytes());
    }
    true
}
