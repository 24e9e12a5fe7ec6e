//! Plays a replay file: a reference for other readers of the format, and a test
//! that a file notices a changed definition.

use super::stream::*;
use crate::answer::{Answer, VALUES};
use crate::law::Law;
use crate::steps;

/// Reads numbers from a file; reading past the end is an error in words.
struct Reader<'a> {
    bytes: &'a [u8],
    at: usize,
}

impl<'a> Reader<'a> {
    fn take(&mut self, count: usize) -> Result<&'a [u8], String> {
        let part = self.bytes.get(self.at..self.at + count);
        self.at += count;
        part.ok_or_else(|| "the file ends early".to_string())
    }

    fn byte(&mut self) -> Result<u8, String> {
        Ok(self.take(1)?[0])
    }

    fn half(&mut self) -> Result<u16, String> {
        let two = self.take(2)?;
        Ok(u16::from_le_bytes([two[0], two[1]]))
    }

    fn number(&mut self) -> Result<u32, String> {
        let four = self.take(4)?;
        Ok(u32::from_le_bytes([four[0], four[1], four[2], four[3]]))
    }

    fn numbers(&mut self, count: usize) -> Result<Vec<usize>, String> {
        (0..count).map(|_| Ok(self.number()? as usize)).collect()
    }
}

/// Some actors, each in turn with the same partners.
fn block(reader: &mut Reader) -> Result<Vec<(u16, u16)>, String> {
    let [actor, actors, partner, partners] =
        [reader.number()?, reader.number()?, reader.number()?, reader.number()?].map(u64::from);
    if actor + actors > 65_536 || partner + partners > 65_536 {
        return Err("a number over 65,535 in a pair".to_string());
    }
    let of = |actor| (partner..partner + partners).map(move |partner| (actor as u16, partner as u16));
    Ok((actor..actor + actors).flat_map(of).collect())
}

struct Player {
    now: Buffers,
    shadow: Buffers,
}

impl Player {
    fn set(&mut self, buffer: Buffer, content: &[u8]) {
        *self.now.get_mut(buffer) = content.to_vec();
        *self.shadow.get_mut(buffer) = content.to_vec();
    }

    /// The part of a shadow that a command is about.
    fn shadow(&mut self, buffer: Buffer, offset: usize, length: usize) -> Result<&mut [u8], String> {
        let part = self.shadow.get_mut(buffer).get_mut(offset..offset + length);
        part.ok_or_else(|| format!("no {length} bytes at {offset} of {buffer:?}"))
    }

    /// The byte with that bit, in the shadow or in the content.
    fn byte_of(&mut self, shadow: bool, buffer: Buffer, bit: usize) -> Result<&mut u8, String> {
        let buffers = if shadow { &mut self.shadow } else { &mut self.now };
        buffers.get_mut(buffer).get_mut(bit / 8).ok_or_else(|| format!("no bit {bit} in {buffer:?}"))
    }

    fn prepare(&mut self, code: u8, buffer: Buffer, count: usize, reader: &mut Reader) -> Result<(), String> {
        match code {
            SET => self.set(buffer, reader.take(count)?),
            SET_ZEROS => self.set(buffer, &vec![0; count]),
            FILL => self.set(buffer, &vec![reader.byte()?; count]),
            TURN_BITS => {
                for bit in reader.numbers(count)? {
                    *self.byte_of(false, buffer, bit)? ^= 1 << (bit % 8);
                    *self.byte_of(true, buffer, bit)? ^= 1 << (bit % 8);
                }
            }
            EXPECT_BYTES => {
                let offset = reader.number()? as usize;
                let bytes = reader.take(count)?;
                self.shadow(buffer, offset, count)?.copy_from_slice(bytes);
            }
            EXPECT_ZEROS => self.shadow.get_mut(buffer).fill(0),
            EXPECT_BITS => {
                for bit in reader.numbers(count)? {
                    *self.byte_of(true, buffer, bit)? |= 1 << (bit % 8);
                }
            }
            EXPECT_PAIRS => {
                let bytes = steps::script(&block(reader)?);
                self.shadow(buffer, count, bytes.len())?.copy_from_slice(&bytes);
            }
            _ => return Err(format!("no command {code}")),
        }
        Ok(())
    }

    fn call(&mut self, law: Law, call: Call, reader: &mut Reader) -> Result<(), String> {
        let count = reader.byte()? as usize;
        let (x, y) = (reader.half()?, reader.half()?);
        let mut expected = Answer { number: reader.byte()?, record: reader.half()?, values: [0; VALUES] };
        if count > VALUES {
            return Err(format!("{count} values"));
        }
        for value in &mut expected.values[..count] {
            *value = reader.number()?;
        }
        let answer = perform(law, call, x, y, &mut self.now);
        if answer != expected {
            return Err(format!("{call:?} {x} {y}: {answer:?} instead of {expected:?}"));
        }
        for buffer in Buffer::ALL {
            if self.now.get(buffer) != self.shadow.get(buffer) {
                return Err(format!("{call:?} {x} {y}: wrong bytes in {buffer:?}"));
            }
        }
        Ok(())
    }
}

/// Plays the whole file and gives the number of calls, or the first difference.
pub fn play(law: Law, file: &[u8]) -> Result<usize, String> {
    let mut reader = Reader { bytes: file, at: 0 };
    if reader.take(HEADER.len())? != HEADER {
        return Err("no replay file of this version".to_string());
    }
    let mut player = Player { now: Buffers::default(), shadow: Buffers::default() };
    let mut calls = 0;
    loop {
        let at = reader.at;
        let code = reader.byte()?;
        let result = match Call::of_code(code) {
            Some(call) => player.call(law, call, &mut reader),
            None => {
                let (number, count) = (reader.byte()?, reader.number()? as usize);
                if code == END {
                    let whole = reader.at == file.len();
                    return if whole { Ok(calls) } else { Err("bytes after the end".to_string()) };
                }
                let buffer = Buffer::of_number(number).ok_or_else(|| format!("no buffer {number}"));
                buffer.and_then(|buffer| player.prepare(code, buffer, count, &mut reader))
            }
        };
        result.map_err(|what| format!("at byte {at}, after {calls} calls: {what}"))?;
        calls += usize::from(code >= Call::Validate as u8);
    }
}
