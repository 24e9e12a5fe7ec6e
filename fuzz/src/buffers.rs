//! The eleven buffers of the calls.

/// What is lent to a call; a call uses some of them.
#[derive(Clone, Debug, Default, PartialEq, Eq)]
pub struct Buffers {
    pub itinerary: Vec<u8>,
    pub policy: Vec<u8>,
    pub table: Vec<u8>,
    pub script: Vec<u8>,
    pub answers: Vec<u8>,
    pub sheet: Vec<u8>,
    pub list: Vec<u8>,
    pub second: Vec<u8>,
    pub third: Vec<u8>,
    pub fourth: Vec<u8>,
    pub joined: Vec<u8>,
}

#[derive(Clone, Copy, Debug, PartialEq, Eq, PartialOrd, Ord)]
pub enum Buffer {
    Itinerary,
    Policy,
    Table,
    Script,
    Answers,
    Sheet,
    List,
    Second,
    Third,
    Fourth,
    Joined,
}

/// The four that are joined, in their order.
pub const MEMBERS: [Buffer; 4] = [Buffer::Itinerary, Buffer::Second, Buffer::Third, Buffer::Fourth];

const NAMES: [&str; 11] = [
    "itinerary",
    "policy",
    "table",
    "script",
    "answers",
    "sheet",
    "list",
    "second",
    "third",
    "fourth",
    "joined",
];

impl Buffer {
    pub const ALL: [Buffer; 11] = [
        Buffer::Itinerary,
        Buffer::Policy,
        Buffer::Table,
        Buffer::Script,
        Buffer::Answers,
        Buffer::Sheet,
        Buffer::List,
        Buffer::Second,
        Buffer::Third,
        Buffer::Fourth,
        Buffer::Joined,
    ];

    pub fn name(self) -> &'static str {
        NAMES[self as usize]
    }

    pub fn named(name: &str) -> Option<Buffer> {
        Buffer::ALL.into_iter().find(|buffer| buffer.name() == name)
    }

    /// The greatest length that a call may take it with; of the list, which may be longer, the greatest that is written.
    pub fn limit(self) -> usize {
        [8192, 64, 1544, 4096, 1024, 8192, 1 << 20, 8192, 8192, 8192, 8192][self as usize]
    }
}

impl Buffers {
    pub fn get(&self, buffer: Buffer) -> &Vec<u8> {
        match buffer {
            Buffer::Itinerary => &self.itinerary,
            Buffer::Policy => &self.policy,
            Buffer::Table => &self.table,
            Buffer::Script => &self.script,
            Buffer::Answers => &self.answers,
            Buffer::Sheet => &self.sheet,
            Buffer::List => &self.list,
            Buffer::Second => &self.second,
            Buffer::Third => &self.third,
            Buffer::Fourth => &self.fourth,
            Buffer::Joined => &self.joined,
        }
    }

    pub fn get_mut(&mut self, buffer: Buffer) -> &mut Vec<u8> {
        match buffer {
            Buffer::Itinerary => &mut self.itinerary,
            Buffer::Policy => &mut self.policy,
            Buffer::Table => &mut self.table,
            Buffer::Script => &mut self.script,
            Buffer::Answers => &mut self.answers,
            Buffer::Sheet => &mut self.sheet,
            Buffer::List => &mut self.list,
            Buffer::Second => &mut self.second,
            Buffer::Third => &mut self.third,
            Buffer::Fourth => &mut self.fourth,
            Buffer::Joined => &mut self.joined,
        }
    }

    pub fn members(&self) -> [&[u8]; 4] {
        MEMBERS.map(|member| &self.get(member)[..])
    }
}

/// One buffer lent as a part of another.
#[derive(Clone, Copy, Debug, PartialEq, Eq)]
pub struct Overlap {
    pub inner: Buffer,
    pub outer: Buffer,
    /// Where in the outer one, and how long.
    pub at: usize,
    pub length: usize,
}

impl Overlap {
    /// Gives the inner buffer the content of its part of the outer one, if that has the part.
    pub fn put(&self, buffers: &mut Buffers) -> bool {
        let part = buffers.get(self.outer).get(self.at..self.at + self.length).map(<[u8]>::to_vec);
        match part {
            Some(part) => *buffers.get_mut(self.inner) = part,
            None => return false,
        }
        true
    }
}

/// All bytes as hex; of a long buffer the first and the length.
pub fn hex(bytes: &[u8]) -> String {
    let shown = &bytes[..bytes.len().min(10_000)];
    let text: String = shown.iter().map(|byte| format!("{byte:02x}")).collect();
    if shown.len() < bytes.len() {
        return format!("{text}.. ({} bytes)", bytes.len());
    }
    text
}
