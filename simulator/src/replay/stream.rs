//! The commands of a replay file and the buffers they are about.

use crate::answer::Answer;
use crate::calls;
use crate::law::Law;

/// What a file begins with: a word, and the version of the format.
pub const HEADER: &[u8; 5] = b"case\x03";

pub const END: u8 = 0;
pub const SET: u8 = 3;
pub const SET_ZEROS: u8 = 4;
pub const TURN_BITS: u8 = 5;
pub const EXPECT_BYTES: u8 = 6;
pub const EXPECT_ZEROS: u8 = 7;
pub const EXPECT_BITS: u8 = 8;
pub const EXPECT_PAIRS: u8 = 9;
pub const FILL: u8 = 10;

/// The buffers, numbered as in the file.
#[derive(Clone, Copy, Debug, PartialEq, Eq)]
pub enum Buffer {
    Itinerary = 1,
    Policy,
    Table,
    Script,
    Answers,
    Sheet,
    List,
    Second,
    Third,
    Fourth,
    Joined,
}

/// The four itineraries that a join is lent, in their order.
pub const MEMBERS: [Buffer; 4] = [Buffer::Itinerary, Buffer::Second, Buffer::Third, Buffer::Fourth];

impl Buffer {
    pub const ALL: [Buffer; 11] = [
        Buffer::Itinerary,
        Buffer::Policy,
        Buffer::Table,
        Buffer::Script,
        Buffer::Answers,
        Buffer::Sheet,
        Buffer::List,
        Buffer::Second,
        Buffer::Third,
        Buffer::Fourth,
        Buffer::Joined,
    ];

    pub fn of_number(number: u8) -> Option<Buffer> {
        Buffer::ALL.into_iter().find(|&buffer| buffer as u8 == number)
    }
}

#[derive(Clone, Copy, Debug, PartialEq, Eq, PartialOrd, Ord)]
pub enum Call {
    Validate = 16,
    Climb,
    Sheet,
    Step,
    Run,
    Check,
    Maker,
    Verdict,
    Row,
    Screen,
    Exposed,
    Moves,
    Join,
    Copy,
}

impl Call {
    pub const ALL: [Call; 14] = [
        Call::Validate,
        Call::Climb,
        Call::Sheet,
        Call::Step,
        Call::Run,
        Call::Check,
        Call::Maker,
        Call::Verdict,
        Call::Row,
        Call::Screen,
        Call::Exposed,
        Call::Moves,
        Call::Join,
        Call::Copy,
    ];

    pub fn of_code(code: u8) -> Option<Call> {
        Call::ALL.into_iter().find(|&call| call as u8 == code)
    }
}

/// The eleven buffers; buffer number k is `contents[k - 1]`.
#[derive(Clone, Debug, Default, PartialEq, Eq)]
pub struct Buffers {
    pub contents: [Vec<u8>; 11],
}

impl Buffers {
    pub fn get(&self, buffer: Buffer) -> &Vec<u8> {
        &self.contents[buffer as usize - 1]
    }

    pub fn get_mut(&mut self, buffer: Buffer) -> &mut Vec<u8> {
        &mut self.contents[buffer as usize - 1]
    }
}

/// Makes the call on the buffers.
pub fn perform(law: Law, call: Call, x: u16, y: u16, buffers: &mut Buffers) -> Answer {
    let [itinerary, policy, table, script, answers, sheet, list, second, third, fourth, joined] =
        &mut buffers.contents;
    let outcome = match call {
        Call::Validate => calls::validate(itinerary),
        Call::Climb => calls::climb(law, itinerary, policy, x),
        Call::Sheet => calls::sheet(itinerary, table, sheet),
        Call::Step => calls::step(law, itinerary, x, y),
        Call::Run => calls::run(law, itinerary, script, answers),
        Call::Check => calls::check(law, itinerary, policy, table),
        Call::Maker => calls::maker(law, itinerary, policy, table),
        Call::Verdict => calls::verdict(law, itinerary, policy, table),
        Call::Row => calls::row(table, x),
        Call::Screen => calls::screen(law, itinerary, policy, script, answers),
        Call::Exposed => calls::exposed(law, itinerary, policy, table),
        Call::Moves => calls::moves(law, itinerary, list),
        Call::Join => calls::join(law, [itinerary, second, third, fourth], policy, table, joined),
        Call::Copy => calls::copy(law, itinerary, x),
    };
    outcome.into()
}
