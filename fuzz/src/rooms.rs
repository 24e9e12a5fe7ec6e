//! Rooms to lend the buffers in, such that what a call does beside a buffer is seen.

use crate::buffers::{hex, Buffer, Buffers, Overlap};
use crate::memory::{Memory, Pages};
use std::slice;

const GUARD: usize = 64;
const SHIFTS: usize = 8;
/// The longest buffer that is drawn.
pub const MOST: usize = (1 << 20) + (1 << 12);

#[derive(Clone, Copy, Debug, PartialEq, Eq)]
pub enum Side {
    Start,
    End,
}

/// How buffers are lent.
#[derive(Clone, Copy, Debug, Default)]
pub struct Lending {
    /// In heap blocks of just the size, and not between guard pages.
    pub exact: bool,
    /// The room of this buffer lacks a byte on this side: a run must see that it is touched.
    pub spoilt: Option<(Buffer, Side)>,
}

/// Where in its pages a buffer stands.
#[derive(Clone, Copy)]
enum Place {
    First,
    Last,
    /// Bytes to compare on both sides, at that shift from an aligned address.
    Between(usize),
}

/// First byte and length, as a call is told them.
#[derive(Clone, Copy)]
pub struct Part {
    pub start: *mut u8,
    pub length: usize,
}

impl Part {
    /// # Safety
    /// The part is a room's, and nobody writes it as long as the slice is used.
    pub unsafe fn shared<'a>(self) -> &'a [u8] {
        unsafe { slice::from_raw_parts(self.start, self.length) }
    }

    /// # Safety
    /// The part is a room's, and nobody else uses it as long as the slice is used.
    pub unsafe fn unique<'a>(self) -> &'a mut [u8] {
        unsafe { slice::from_raw_parts_mut(self.start, self.length) }
    }
}

/// A buffer with guards on both sides: a page that can't be touched, or 64 bytes to compare.
struct Room {
    memory: Memory,
    start: usize,
    length: usize,
    /// The length that a call is told.
    told: usize,
    guard: u8,
    /// The byte that a spoilt room lacks.
    lacks: Option<Side>,
}

impl Room {
    fn new(lending: Lending, buffer: Buffer) -> Room {
        let memory = match lending.exact {
            true => Memory::Block(Box::default()),
            false => Memory::Pages(Pages::new(GUARD + SHIFTS + MOST + GUARD)),
        };
        let lacks = lending.spoilt.filter(|(spoilt, _)| *spoilt == buffer).map(|(_, side)| side);
        Room { memory, start: 0, length: 0, told: 0, guard: 0, lacks }
    }

    /// What of the content the room has.
    fn kept<'a>(&self, content: &'a [u8]) -> &'a [u8] {
        match (self.lacks, content.len()) {
            (None, _) | (_, 0) => content,
            (Some(Side::Start), _) => &content[1..],
            (Some(Side::End), length) => &content[..length - 1],
        }
    }

    fn load(&mut self, content: &[u8], place: Place, guard: u8) {
        self.told = content.len();
        let content = self.kept(content);
        (self.length, self.guard) = (content.len(), guard);
        if let Memory::Block(block) = &mut self.memory {
            *block = content.into();
            return;
        }
        let place = match self.lacks {
            None => place,
            Some(Side::Start) => Place::First,
            Some(Side::End) => Place::Last,
        };
        self.start = match place {
            Place::First => 0,
            Place::Last => self.memory.bytes().len() - self.length,
            Place::Between(shift) => GUARD + shift % SHIFTS,
        };
        let (before, end) = (self.start.saturating_sub(GUARD), self.start + self.length);
        let after = (end + GUARD).min(self.memory.bytes().len());
        let bytes = self.memory.bytes_mut();
        bytes[before..self.start].fill(guard);
        bytes[self.start..end].copy_from_slice(content);
        bytes[end..after].fill(guard);
    }

    fn content(&self) -> &[u8] {
        &self.memory.bytes()[self.start..self.start + self.length]
    }

    /// Pointer and length as if the room lacked nothing; no bytes lack none.
    fn part(&mut self) -> Part {
        let start = self.memory.bytes_mut()[self.start..].as_mut_ptr();
        match self.lacks {
            Some(Side::Start) if self.told > 0 => Part { start: start.wrapping_sub(1), length: self.told },
            _ => Part { start, length: self.told },
        }
    }

    /// Whether no guard byte was changed.
    fn is_guarded(&self) -> bool {
        let (bytes, end) = (self.memory.bytes(), self.start + self.length);
        let beside = [&bytes[self.start.saturating_sub(GUARD)..self.start], &bytes[end..]];
        beside.iter().all(|part| part.iter().take(GUARD).all(|&byte| byte == self.guard))
    }
}

/// The rooms of all buffers.
pub struct Rooms {
    rooms: [Room; 11],
    overlap: Option<Overlap>,
}

impl Rooms {
    pub fn new(lending: Lending) -> Rooms {
        let rooms = Buffer::ALL.map(|buffer| Room::new(lending, buffer));
        Rooms { rooms, overlap: None }
    }

    /// Loads all rooms; `noise` decides places, shifts and guard bytes. The inner buffer of an overlap is lent as
    /// a part of the outer one's room.
    pub fn load(&mut self, buffers: &Buffers, overlap: Option<Overlap>, noise: u64) {
        let guard = (noise >> 32) as u8;
        let place = |number: usize| match noise >> (40 + 2 * number) & 3 {
            0 => Place::First,
            1 => Place::Between((noise >> (4 * number)) as usize),
            _ => Place::Last,
        };
        for (number, (room, buffer)) in self.rooms.iter_mut().zip(Buffer::ALL).enumerate() {
            room.load(buffers.get(buffer), place(number), guard);
        }
        self.overlap = overlap;
    }

    pub fn part(&mut self, buffer: Buffer) -> Part {
        match self.overlap {
            Some(Overlap { inner, outer, at, length }) if inner == buffer => {
                let start = self.rooms[outer as usize].part().start.wrapping_add(at);
                Part { start, length }
            }
            _ => self.rooms[buffer as usize].part(),
        }
    }

    /// What is not as expected: contents, then guards.
    pub fn differences(&self, expected: &Buffers) -> Vec<String> {
        let mut found = Vec::new();
        for (room, buffer) in self.rooms.iter().zip(Buffer::ALL) {
            let (name, wanted) = (buffer.name(), room.kept(expected.get(buffer)));
            if room.content() != wanted {
                found.push(format!("{name} is {}\n  not {}", hex(room.content()), hex(wanted)));
            }
            if !room.is_guarded() {
                found.push(format!("{name}: a guard byte was changed"));
            }
        }
        found
    }
}
