//! Writes a replay file, making each call itself to know what to expect.

use super::counts::Counts;
use super::stream::*;
use crate::answer::Answer;
use crate::law::Law;
use crate::table::{Table, TABLE_LENGTH};

/// Equal bytes between two changed ones that are cheaper to repeat than to skip.
const CHEAP_GAP: usize = 10;

/// What the command for a block of pairs takes, and that for what stands behind it.
const BLOCK_COST: usize = 22 + 10;

pub struct Writer {
    out: Vec<u8>,
    now: Buffers,
    counts: Counts,
}

fn put_number(out: &mut Vec<u8>, number: usize) {
    out.extend((number as u32).to_le_bytes());
}

/// The head of a command on a buffer, which has a count.
fn put_head(out: &mut Vec<u8>, code: u8, buffer: u8, count: usize) {
    out.extend([code, buffer]);
    put_number(out, count);
}

/// A command with the numbers of bits of the table.
fn put_bits(out: &mut Vec<u8>, code: u8, bits: &[usize]) {
    put_head(out, code, Buffer::Table as u8, bits.len());
    for &bit in bits {
        put_number(out, bit);
    }
}

/// The bits set in exactly one of two tables.
fn differing_bits(one: &Table, other: &Table) -> Vec<usize> {
    (0..TABLE_LENGTH * 8).filter(|&bit| one.has(bit) != other.has(bit)).collect()
}

/// The commands that turn an expected content into another, part by part.
fn expect_parts(buffer: Buffer, before: &[u8], after: &[u8]) -> Vec<u8> {
    let mut out = Vec::new();
    let mut at = 0;
    while let Some(start) = (at..after.len()).find(|&k| before[k] != after[k]) {
        let mut end = start + 1;
        while let Some(next) = (end..after.len().min(end + CHEAP_GAP)).find(|&k| before[k] != after[k]) {
            end = next + 1;
        }
        put_head(&mut out, EXPECT_BYTES, buffer as u8, end - start);
        put_number(&mut out, start);
        out.extend(&after[start..end]);
        at = end;
    }
    out
}

/// The pair that stands as number `place` in a list, counted from 0.
fn pair(list: &[u8], place: usize) -> Option<(usize, usize)> {
    let four = list.get(4 * place..4 * place + 4)?;
    let number = |at: usize| usize::from(u16::from_le_bytes([four[at], four[at + 1]]));
    Some((number(0), number(2)))
}

/// How many actors follow one another from that place on, each with the same partners that follow one another,
/// and how many partners.
fn block(list: &[u8], place: usize) -> (usize, usize) {
    let Some((actor, partner)) = pair(list, place) else { return (0, 0) };
    let follows = |actors: usize, partners: usize, at: usize| {
        pair(list, place + at) == Some((actor + actors, partner + partners))
    };
    let partners = (1..).take_while(|&more| follows(0, more, more)).count() + 1;
    let whole = |&more: &usize| (0..partners).all(|k| follows(more, k, more * partners + k));
    ((1..).take_while(whole).count() + 1, partners)
}

/// The commands for a list's blocks, then those for what is left.
fn expect_pairs(before: &[u8], after: &[u8]) -> Vec<u8> {
    let (mut out, mut now) = (Vec::new(), before.to_vec());
    let mut place = 0;
    while let Some((actor, partner)) = pair(after, place) {
        let (actors, partners) = block(after, place);
        let part = 4 * place..4 * (place + actors * partners);
        if part.len() <= BLOCK_COST {
            place += 1;
            continue;
        }
        if now[part.clone()] != after[part.clone()] {
            put_head(&mut out, EXPECT_PAIRS, Buffer::List as u8, part.start);
            [actor, actors, partner, partners].into_iter().for_each(|number| put_number(&mut out, number));
            now[part.clone()].copy_from_slice(&after[part]);
        }
        place += actors * partners;
    }
    [out, expect_parts(Buffer::List, &now, after)].concat()
}

/// The shortest commands for a content that the call changes.
fn expect(buffer: Buffer, before: &[u8], after: &[u8]) -> Vec<u8> {
    if before == after {
        return Vec::new();
    }
    let mut zero = Vec::new();
    put_head(&mut zero, EXPECT_ZEROS, buffer as u8, after.len());
    let parts = expect_parts(buffer, before, after);
    let from_zero = [zero.clone(), expect_parts(buffer, &vec![0; after.len()], after)].concat();
    let mut ways = vec![parts, from_zero];
    if let (Buffer::Table, Some(old), Some(new)) = (buffer, Table::read(before), Table::read(after)) {
        let mut bits = zero;
        put_bits(&mut bits, EXPECT_BITS, &new.bits());
        ways.push(bits);
        if old.bits().iter().all(|&bit| new.has(bit)) {
            let mut bits = Vec::new();
            put_bits(&mut bits, EXPECT_BITS, &differing_bits(&old, &new));
            ways.push(bits);
        }
    }
    if buffer == Buffer::List {
        ways.push(expect_pairs(before, after));
    }
    ways.into_iter().min_by_key(Vec::len).unwrap_or_default()
}

impl Writer {
    /// A file begins with its header, and all buffers with no bytes.
    pub fn new() -> Writer {
        Writer { out: HEADER.to_vec(), now: Buffers::default(), counts: Counts::default() }
    }

    pub fn get(&self, buffer: Buffer) -> &[u8] {
        self.now.get(buffer)
    }

    /// Sets a buffer, unless it has that content already.
    pub fn put(&mut self, buffer: Buffer, content: &[u8]) {
        if self.now.get(buffer) == content {
            return;
        }
        let mut command = Vec::new();
        put_head(&mut command, SET, buffer as u8, content.len());
        command.extend(content);
        if content.iter().all(|&byte| byte == 0) {
            command.clear();
            put_head(&mut command, SET_ZEROS, buffer as u8, content.len());
        } else if buffer == Buffer::Table {
            command = self.shortest_table(content, command);
        } else if matches!(buffer, Buffer::List | Buffer::Joined)
            && content.iter().all(|&byte| byte == content[0])
        {
            command.clear();
            put_head(&mut command, FILL, buffer as u8, content.len());
            command.push(content[0]);
        }
        self.out.extend(command);
        *self.now.get_mut(buffer) = content.to_vec();
    }

    /// The table by its bytes, or by bits turned in zeros or in the table as it is.
    fn shortest_table(&self, content: &[u8], whole: Vec<u8>) -> Vec<u8> {
        let Some(table) = Table::read(content) else { return whole };
        let mut zero = Vec::new();
        put_head(&mut zero, SET_ZEROS, Buffer::Table as u8, content.len());
        put_bits(&mut zero, TURN_BITS, &table.bits());
        let mut ways = vec![whole, zero];
        if let Some(now) = Table::read(self.now.get(Buffer::Table)) {
            let mut flips = Vec::new();
            put_bits(&mut flips, TURN_BITS, &differing_bits(&now, &table));
            ways.push(flips);
        }
        ways.into_iter().min_by_key(Vec::len).unwrap_or_default()
    }

    /// Turns one bit of a table of the right length.
    pub fn flip(&mut self, bit: usize) {
        put_bits(&mut self.out, TURN_BITS, &[bit]);
        self.now.get_mut(Buffer::Table)[bit / 8] ^= 1 << (bit % 8);
    }

    /// Makes the call and writes what it must change, the call, and its answer.
    pub fn call(&mut self, call: Call, x: u16, y: u16) -> Answer {
        let mut after = self.now.clone();
        let answer = perform(Law::Document, call, x, y, &mut after);
        for buffer in Buffer::ALL {
            self.out.extend(expect(buffer, self.now.get(buffer), after.get(buffer)));
        }
        let used = answer.values.iter().rposition(|&value| value != 0).map_or(0, |last| last + 1);
        self.out.extend([call as u8, used as u8]);
        self.out.extend(x.to_le_bytes());
        self.out.extend(y.to_le_bytes());
        self.out.push(answer.number);
        self.out.extend(answer.record.to_le_bytes());
        for &value in &answer.values[..used] {
            put_number(&mut self.out, value as usize);
        }
        self.counts.note(call, (x, y), &answer, &self.now, &after);
        self.now = after;
        answer
    }

    pub fn finish(mut self) -> (Vec<u8>, Counts) {
        put_head(&mut self.out, END, 0, 0);
        (self.out, self.counts)
    }
}
