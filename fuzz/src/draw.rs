//! Drawing inputs: small ones mostly, good and damaged, and calls on them.

use crate::buffers::{Buffer, Buffers, Overlap};
use crate::calls::Call;
use crate::copiers;
use crate::families::Family;
use crate::overlaps;
use crate::rings;
use crate::rooms::MOST;
use crate::sets;
use simulator::generate::clients;
use simulator::generate::damage::{damage, spoil_client};
use simulator::generate::examples;
use simulator::generate::policies;
use simulator::generate::relabel::Relabel;
use simulator::generate::scripts;
use simulator::generate::tables;
use simulator::generate::trees::{chain, tree, Links, Mix};
use simulator::law::Law;
use simulator::random::Random;
use simulator::record::{Itinerary, Kind, Record, MOST_RECORDS, RECORD_LENGTH};
use simulator::steps;
use simulator::table::{Policy, POLICY_LENGTH, TABLE_LENGTH};

/// Buffers, and what is needed to draw changes that fit them.
pub struct Case {
    pub family: Family,
    pub buffers: Buffers,
    overlap: Option<Overlap>,
    first: Vec<u8>,
    relabel: Relabel,
}

fn of_mix(random: &mut Random, mix: fn(&mut Random) -> Mix) -> Itinerary {
    let mix = mix(random);
    tree(random, &mix)
}

/// An itinerary and a policy, before relabelling.
fn draw_bench(random: &mut Random, family: Family) -> (Itinerary, Policy) {
    let itinerary = match family {
        Family::Hinted if random.chance(92) => return policies::with_verdict(random, 2),
        Family::Hinted => return (examples::environment_suspect(), policies::usual()),
        Family::Medium => of_mix(random, Mix::medium),
        Family::Large => {
            of_mix(random, |random| Mix { records: random.between(81, 1023), ..Mix::medium(random) })
        }
        Family::Full => of_mix(random, Mix::full),
        Family::Crowded => of_mix(random, Mix::crowded),
        Family::Longest | Family::Long(Buffer::List) => half_opens(random),
        Family::Copies => of_mix(random, Mix::copying),
        Family::FullCopies => copiers::of_full(random),
        Family::FullSet => sets::first_of_full(random),
        Family::Chain => draw_chain(random),
        Family::Empty => Itinerary { records: vec![] },
        Family::Ring => rings::some_ring(random),
        Family::FullRing => rings::full_ring(random),
        Family::TailIntoRing => rings::tail_into_ring(random),
        Family::Clients | Family::BadClient => {
            of_mix(random, |random| Mix { clients: 100, gone: 15, ..Mix::lively(random) })
        }
        _ if random.chance(50) => of_mix(random, Mix::small),
        _ => of_mix(random, Mix::lively),
    };
    let policy = match random.below(100) {
        0..=54 => policies::good(random),
        55..=95 => policies::telling(random, &itinerary),
        _ => [0; POLICY_LENGTH],
    };
    (itinerary, policy)
}

fn draw_chain(random: &mut Random) -> Itinerary {
    let kind = random.pick(&[Kind::In, Kind::Out, Kind::Open]);
    let links = random.pick(&[Links::Ambients, Links::Capabilities, Links::Turns, Links::LastActs(kind)]);
    let links = chain(random.pick(&[255, 256, 257, 1023, 1024]), links, random.chance(50));
    clients::given(random, 70, &links)
}

/// 512 ambients and as many capabilities that can open each of them, now and then a few less; in any order or one
/// sort behind the other.
fn half_opens(random: &mut Random) -> Itinerary {
    let half = MOST_RECORDS / 2;
    let mut itinerary = examples::runs(&[(Kind::Ambient, half), (Kind::Open, half)]);
    if random.chance(50) {
        random.shuffle(&mut itinerary.records);
    }
    if random.chance(40) {
        for _ in 0..random.between(1, 3) {
            let place = random.below(MOST_RECORDS);
            itinerary.records[place] = Record::GONE;
        }
    }
    let share = random.pick(&[0, 80]);
    clients::give(random, share, &mut itinerary);
    itinerary
}

/// Damages one in four, by a known cause or anywhere.
fn spoil(random: &mut Random, bytes: &mut Vec<u8>) {
    match random.below(100) {
        0..=15 => {
            for _ in 0..random.between(1, 2) {
                let cause = random.between(1, 6) as u8;
                damage(random, bytes, cause);
            }
        }
        16..=22 if !bytes.is_empty() => {
            for _ in 0..random.between(1, 3) {
                let at = random.below(bytes.len());
                bytes[at] = if random.chance(70) { random.below(7) as u8 } else { random.byte() };
            }
        }
        23 => bytes.iter_mut().for_each(|byte| *byte = random.byte()),
        24 if random.chance(5) => bytes.resize(random.pick(&[8184, 8191, 8192, 8193, 8200]), 0),
        _ => {}
    }
}

/// A client that is refused, on a record that stands or on a new gone one; now and then with another fault of 3 to 5,
/// in that record or elsewhere.
pub fn bad_client(random: &mut Random, bytes: &mut Vec<u8>) {
    if !random.chance(70) || !spoil_client(random, bytes, false) {
        bytes.extend([0; RECORD_LENGTH]);
        spoil_client(random, bytes, true);
    }
    if random.chance(30) {
        let cause = random.between(3, 5) as u8;
        damage(random, bytes, cause);
    }
}

/// Not the made table, which the call `make` puts there.
fn draw_table(random: &mut Random, relabel: &Relabel) -> Vec<u8> {
    match random.below(100) {
        0..=4 => vec![random.byte(); tables::bad_length(random)],
        5..=9 => tables::noise(random).bytes.to_vec(),
        10..=14 => tables::full().bytes.to_vec(),
        15..=24 => tables::sparse(random, relabel, 20).bytes.to_vec(),
        _ => vec![random.byte(); TABLE_LENGTH],
    }
}

fn draw_script(random: &mut Random, itinerary: &Itinerary) -> (Vec<u8>, Vec<u8>) {
    let long = random.below(2000);
    let count = if long == 0 { random.pick(&[1023, 1024, 1025]) } else { random.below(9) };
    let mut script = scripts::script(random, itinerary, count, 75);
    let mut room = script.len() / 4;
    match random.below(40) {
        0 => script.push(random.byte()),
        1 => script.truncate(script.len().saturating_sub(random.between(1, 4))),
        2 => room += random.between(1, 4),
        3 => room = room.saturating_sub(random.between(1, 4)),
        _ => {}
    }
    (script, vec![random.byte(); room])
}

/// Makes a buffer far longer than it may be, and most of the time the one that must fit it as well; some lengths are
/// right in their low 16 bits.
fn lengthen(random: &mut Random, buffer: Buffer, buffers: &mut Buffers) {
    let (limit, length) = (buffer.limit(), buffers.get(buffer).len());
    let length = match random.below(8) {
        0 => limit + random.between(1, 8),
        1 => 2 * limit,
        2 => random.pick(&[8193, 8200, 16_384]),
        3 | 4 => (1 << 16) + length,
        5 => (1 << 19) + length,
        6 => random.between(8193, MOST),
        _ => MOST,
    };
    let (length, fill) = (length.clamp(limit + 1, MOST), if random.chance(50) { 0 } else { random.byte() });
    buffers.get_mut(buffer).resize(length, fill);
    match buffer {
        Buffer::Itinerary if random.chance(80) => buffers.sheet.resize(length, fill),
        Buffer::Script if random.chance(80) => buffers.answers.resize(length / 4, fill),
        _ => {}
    }
}

/// Room for a list of that length, a byte too little, much too little, and more; none where it may stay as it is.
fn draw_room(random: &mut Random, needed: usize) -> Option<usize> {
    match random.below(16) {
        0 => Some(0),
        1..=2 => needed.checked_sub(1),
        3 => needed.checked_sub(random.between(2, 8)),
        4 => Some(random.below(needed + 1)),
        5..=8 => Some(needed),
        9..=12 => Some(needed + random.between(1, 9)),
        13 => Some(needed + random.between(10, 100)),
        _ => None,
    }
}

impl Case {
    pub fn draw(random: &mut Random, family: Family) -> Case {
        let relabel = Relabel::draw(random);
        let (itinerary, policy) = draw_bench(random, family);
        let (itinerary, policy) = (relabel.itinerary(&itinerary), relabel.policy(&policy));
        // What climbs would never end on a ring.
        let ring = matches!(family, Family::Ring | Family::FullRing | Family::TailIntoRing);
        let climbable = if ring { &Itinerary { records: vec![] } } else { &itinerary };
        let table = match random.below(50) {
            0 => tables::above_made(random, &relabel, climbable, &policy).bytes.to_vec(),
            _ => draw_table(random, &relabel),
        };
        let (script, answers) = draw_script(random, climbable);
        let policy = if random.chance(8) { policies::bad(random) } else { policy.to_vec() };
        let mut bytes = itinerary.bytes();
        if matches!(
            family,
            Family::Small | Family::Medium | Family::Large | Family::Full | Family::Hinted | Family::Crowded
        ) {
            spoil(random, &mut bytes);
        }
        if family == Family::BadClient {
            bad_client(random, &mut bytes);
        }
        let sheet = vec![random.byte(); bytes.len()];
        let list = vec![random.byte(); random.below(40)];
        let [second, third, fourth] = sets::others(random, family, &relabel, bytes.len() / RECORD_LENGTH);
        let joined = vec![random.byte(); bytes.len() + second.len() + third.len() + fourth.len()];
        let mut buffers = Buffers {
            itinerary: bytes,
            policy,
            table,
            script,
            answers,
            sheet,
            list,
            second,
            third,
            fourth,
            joined,
        };
        if let Family::Long(buffer) = family {
            lengthen(random, buffer, &mut buffers);
        }
        let overlap = overlaps::overlap(random, family, &mut buffers);
        let first = buffers.itinerary.clone();
        Case { family, buffers, overlap, first, relabel }
    }

    /// Lends a list buffer of about the length that the list has, with any bytes in it. One that is to be too long
    /// stays so.
    pub fn fit_list(&mut self, random: &mut Random) {
        if self.family == Family::Long(Buffer::List) {
            return;
        }
        let itinerary = Itinerary::read(&self.buffers.itinerary);
        let needed = itinerary.map_or(8, |read| 4 * steps::moves(Law::Document, &read).0.len());
        if let Some(room) = draw_room(random, needed) {
            self.buffers.list = (0..room).map(|_| random.byte()).collect();
        }
    }

    /// Lends a buffer of about the joined length, and most of the time a table for the set; and each member at another
    /// place, that many places on. What is to be too long stays so, and what overlaps stays where it is.
    pub fn fit_set(&mut self, random: &mut Random, overlap: Option<Overlap>) -> usize {
        let fixed = overlap.is_some() || matches!(self.family, Family::Long(_)) || random.chance(60);
        let places = if fixed { 0 } else { random.between(1, 3) };
        sets::rotate(&mut self.buffers, places);
        if self.family != Family::Long(Buffer::Joined) {
            sets::fit_joined(random, &mut self.buffers);
        }
        let lies_apart =
            overlap.is_none_or(|overlap| ![overlap.inner, overlap.outer].contains(&Buffer::Table));
        if lies_apart && random.chance(70) {
            sets::fit_table(random, &mut self.buffers);
        }
        places
    }

    /// How this call's buffers overlap; the inner one then has its part of the outer one.
    pub fn overlapping(&mut self, call: Call) -> Option<Overlap> {
        let fitting = self.overlap.filter(|&overlap| call.reads_both(overlap));
        fitting.filter(|overlap| overlap.put(&mut self.buffers))
    }

    /// Whether the next call could show what the family is about.
    fn suits(&self, call: Call) -> bool {
        match self.overlap {
            Some(overlap) => call.reads_both(overlap),
            None => self.family.is_seen_by(call, &self.buffers, None),
        }
    }

    /// Some change before the next call, seldom of more than one buffer.
    pub fn disturb(&mut self, random: &mut Random) {
        let buffers = &mut self.buffers;
        match random.below(60) {
            0..=14 => buffers.itinerary.clone_from(&self.first),
            15..=18 if buffers.table.len() == TABLE_LENGTH => {
                let bit = match random.below(8) {
                    0 => tables::forbidden_bit(random),
                    1 => random.below(8 * TABLE_LENGTH),
                    _ => self.relabel.bit(tables::any_bit(random)),
                };
                buffers.table[bit / 8] ^= 1 << (bit % 8);
            }
            19 => buffers.table = draw_table(random, &self.relabel),
            20 => buffers.sheet.resize(random.pick(&[0, 1, 8, 16, 80]), 7),
            21 => buffers.sheet = vec![random.byte(); buffers.itinerary.len()],
            22 if !buffers.policy.is_empty() => {
                let at = random.below(buffers.policy.len());
                buffers.policy[at] = random.below(4) as u8;
            }
            23 if !buffers.itinerary.is_empty() => {
                let at = random.below(buffers.itinerary.len());
                buffers.itinerary[at] = random.below(8) as u8;
            }
            24 => {
                let buffer = random.pick(&[Buffer::Second, Buffer::Third, Buffer::Fourth]);
                *buffers.get_mut(buffer) = sets::member(random, self.family, &self.relabel);
            }
            _ => {}
        }
    }

    /// The first call of a case makes its table most of the time; then any call.
    pub fn next_call(&self, random: &mut Random, first: bool) -> Call {
        if first && random.chance(70) {
            return Call::Make;
        }
        let call = self.any_call(random);
        if self.suits(call) || random.chance(50) {
            return call;
        }
        (0..30).map(|_| self.any_call(random)).find(|&call| self.suits(call)).unwrap_or(call)
    }

    fn any_call(&self, random: &mut Random) -> Call {
        match random.below(142) {
            0..=5 => Call::Validate,
            6..=12 => Call::Climb(self.any_number(random)),
            13..=22 => Call::Sheet,
            23..=44 => self.draw_step(random),
            45..=56 => Call::Run,
            57..=70 => Call::Check,
            71..=76 => Call::Make,
            77..=88 => Call::Verdict,
            89..=98 => Call::Exposed,
            99..=108 => Call::Moves,
            109..=113 => Call::Row(if random.chance(80) { random.below(66) as u8 } else { random.byte() }),
            114..=125 => Call::Join,
            126..=135 => {
                let number = self.any_number(random);
                copiers::draw_copy(random, &self.buffers.itinerary, number)
            }
            _ => Call::Screen,
        }
    }

    fn any_number(&self, random: &mut Random) -> u16 {
        if random.chance(3) {
            return random.pick(&[255, 256, 1024, 1025, 8192, 65535]);
        }
        random.below(self.buffers.itinerary.len() / 8 + 2) as u16
    }

    /// A step that is done if there is one, one near to it, or any.
    fn draw_step(&self, random: &mut Random) -> Call {
        let any = (self.any_number(random), self.any_number(random));
        let Ok(itinerary) = Itinerary::read(&self.buffers.itinerary) else { return Call::Step(any.0, any.1) };
        let drawn = match random.below(10) {
            0..=5 => scripts::done_step(random, &itinerary),
            6..=7 => random.choose(&scripts::capabilities(&itinerary)).and_then(|actor| {
                let partners = scripts::partners(random, &itinerary, actor);
                Some((actor, random.choose(&partners)?))
            }),
            _ => None,
        };
        let (actor, partner) = drawn.unwrap_or(any);
        Call::Step(actor, partner)
    }
}
