//! A bench on which the calls of a file are made one after the other.

use super::stream::{Buffer, Call};
use super::writer::Writer;
use crate::copies::active_copiers;
use crate::generate::policies;
use crate::generate::scripts::{done_copy, done_step, script};
use crate::generate::trees::{tree, Mix};
use crate::law::Law;
use crate::random::Random;
use crate::record::{Itinerary, RECORD_LENGTH};
use crate::steps;
use crate::table::{least, Policy};

/// A bench on which each of the calls can be done; the itinerary is lent anew before each call.
pub struct Bench {
    pub itinerary: Itinerary,
    policy: Policy,
    script: Vec<u8>,
    step: (u16, u16),
    copier: u16,
    calls: Vec<Call>,
}

impl Bench {
    /// With those steps, of which the first is done.
    pub fn of(itinerary: Itinerary, steps: &[(u16, u16)], calls: &[Call]) -> Bench {
        let (policy, calls) = (policies::usual(), calls.to_vec());
        let copier = active_copiers(&itinerary).first().copied().unwrap_or(1);
        Bench { itinerary, policy, script: steps::script(steps), step: steps[0], copier, calls }
    }

    pub fn drawn(random: &mut Random, calls: &[Call], mix: &Mix) -> Bench {
        let itinerary = tree(random, mix);
        let policy = policies::telling(random, &itinerary);
        let count = random.pick(&[1, 3, 6]);
        let script = script(random, &itinerary, count, 80);
        let step = done_step(random, &itinerary).unwrap_or((1, 1));
        let copier = done_copy(random, &itinerary).unwrap_or(1);
        Bench { itinerary, policy, script, step, copier, calls: calls.to_vec() }
    }

    /// All but the itinerary, as the calls need it.
    pub fn put(&self, writer: &mut Writer) {
        writer.put(Buffer::Policy, &self.policy);
        writer.put(Buffer::Table, &least(Law::Document, &[&self.itinerary], &self.policy).bytes);
        writer.put(Buffer::Script, &self.script);
        writer.put(Buffer::Answers, &vec![0xee; self.script.len() / 4]);
        writer.put(Buffer::Sheet, &vec![7; self.itinerary.count() * RECORD_LENGTH]);
        if self.calls.contains(&Call::Moves) {
            let pairs = steps::moves(Law::Document, &self.itinerary).0.len();
            writer.put(Buffer::List, &vec![7; 4 * pairs + 3]);
        }
    }

    /// Makes each call on these bytes.
    pub fn ask(&self, writer: &mut Writer, bytes: &[u8]) {
        for &call in &self.calls {
            writer.put(Buffer::Itinerary, bytes);
            let (x, y) = match call {
                Call::Climb => (self.itinerary.count() as u16, 0),
                Call::Step => self.step,
                Call::Copy => (self.copier, 0),
                _ => (0, 0),
            };
            writer.call(call, x, y);
        }
    }

    /// The itinerary with some bytes of that record changed.
    pub fn with_bytes(&self, number: usize, changes: &[(usize, u8)]) -> Vec<u8> {
        let mut bytes = self.itinerary.bytes();
        for &(place, byte) in changes {
            bytes[(number - 1) * RECORD_LENGTH + place] = byte;
        }
        bytes
    }
}
