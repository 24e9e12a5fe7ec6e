//! What a call of join met, in words.

use super::stream::{Buffer, Buffers, MEMBERS};
use crate::answer::{Answer, Refusal};
use crate::calls;
use crate::law::Law;
use crate::record::{join, Itinerary, Kind, MOST_RECORDS, RECORD_LENGTH};
use crate::table::{holds, least, Policy, Table, LOW, POLICY_LENGTH, TABLE_LENGTH};

/// What a call was lent.
struct Lent<'a> {
    members: [&'a [u8]; 4],
    read: [Result<Itinerary, Refusal>; 4],
    policy: &'a [u8],
    table: &'a [u8],
    room: usize,
}

/// Words for which something is so.
fn so(words: &[(&'static str, bool)]) -> Vec<String> {
    words.iter().filter(|&&(_, so)| so).map(|(word, _)| word.to_string()).collect()
}

/// The member that is refused, if one is.
pub fn refused_member(before: &Buffers) -> Option<&[u8]> {
    MEMBERS
        .map(|member| before.get(member))
        .into_iter()
        .find(|it| Itinerary::read(it).is_err())
        .map(|it| &it[..])
}

/// The words for an answer, each behind its number.
pub fn met(before: &Buffers, answer: &Answer) -> Vec<String> {
    let members = MEMBERS.map(|member| &before.get(member)[..]);
    let lent = Lent {
        members,
        read: members.map(Itinerary::read),
        policy: before.get(Buffer::Policy),
        table: before.get(Buffer::Table),
        room: before.get(Buffer::Joined).len(),
    };
    let words = match lent.read.iter().position(Result::is_err) {
        Some(place) => lent.refused_member(place, answer),
        None => lent.about_the_set(answer.number),
    };
    words.into_iter().map(|word| format!("{:2} {word}", answer.number)).collect()
}

impl Lent<'_> {
    fn bytes_before(&self, place: usize) -> usize {
        self.members[..place].iter().map(|member| member.len()).sum()
    }

    fn records(&self) -> usize {
        self.bytes_before(4) / RECORD_LENGTH
    }

    /// 16: too many records, or another length than theirs.
    fn wrong_set(&self) -> bool {
        self.records() > MOST_RECORDS || self.room != self.bytes_before(4)
    }

    fn bad_policy(&self) -> bool {
        calls::climb(Law::Document, &[], self.policy, 0).is_err()
    }

    fn bad_table(&self) -> bool {
        let low = [LOW; POLICY_LENGTH];
        calls::check(Law::Document, &[], &low, self.table).is_err_and(|refusal| refusal.number == 8)
    }

    /// Whether the table doesn't hold, as far as can be told where policy or form of the table are bad.
    fn lacks(&self, joined: &Itinerary) -> bool {
        let policy = Policy::try_from(self.policy).unwrap_or([LOW; POLICY_LENGTH]);
        Table::read(self.table).is_some_and(|table| !holds(Law::Document, joined, &policy, &table))
    }

    /// One of 1 to 6: in which member, where its record would be in the set, and what else is wrong.
    fn refused_member(&self, place: usize, answer: &Answer) -> Vec<String> {
        let (own, all) = (self.members[place].len() / RECORD_LENGTH, self.records());
        let number = usize::from(answer.record) * RECORD_LENGTH;
        let record = self.members[place].get(number.wrapping_sub(RECORD_LENGTH)..number).unwrap_or(&[]);
        let parent =
            if record.is_empty() { 0 } else { usize::from(record[4]) + 256 * usize::from(record[5]) };
        let whole = self.bytes_before(4) % RECORD_LENGTH == 0 && all <= MOST_RECORDS;
        let mut words = so(&[
            ("behind other records", answer.number > 1 && self.bytes_before(place) >= RECORD_LENGTH),
            ("before another member's", self.read[place + 1..].iter().any(Result::is_err)),
            ("before 16", self.wrong_set()),
            ("before 7", self.bad_policy()),
            ("before 8", self.bad_table()),
            ("with whole records together", answer.number == 1 && whole),
            ("of 1,025 records", answer.number == 1 && self.members[place].len() == 8200),
            ("by a number of the set", answer.number == 5 && parent > own && parent <= all),
        ]);
        words.push(format!("in member {}", place + 1));
        words
    }

    fn about_the_set(&self, number: u8) -> Vec<String> {
        let members: Vec<Itinerary> = self.read.iter().flatten().cloned().collect();
        let joined = join(&members);
        match number {
            0 => self.done(&members, &joined),
            9 => self.not_held(&members),
            16 => self.refused_set(&joined),
            _ => so(&[("before 8", number < 8 && self.bad_table()), ("before 9", self.lacks(&joined))]),
        }
    }

    fn refused_set(&self, joined: &Itinerary) -> Vec<String> {
        let (count, room, right) = (joined.count(), self.room, joined.count() * RECORD_LENGTH);
        let (many, fits) = (count > MOST_RECORDS, count <= MOST_RECORDS);
        so(&[
            ("1,025 records", count == MOST_RECORDS + 1),
            ("4,096 records", count == 4 * MOST_RECORDS),
            ("too many in a buffer of their length", many && room == right),
            ("too many in 8,192 bytes", many && room == MOST_RECORDS * RECORD_LENGTH),
            ("a byte short", fits && room + 1 == right),
            ("a byte long", fits && room == right + 1),
            ("a record short", fits && room + RECORD_LENGTH == right),
            ("a record long", fits && room == right + RECORD_LENGTH),
            ("1,024 records, a record long", count == MOST_RECORDS && room == right + RECORD_LENGTH),
            ("1,024 records, a byte short", count == MOST_RECORDS && room + 1 == right),
            ("no records, a byte long", count == 0 && room == 1),
            ("no bytes", fits && room == 0),
            ("before 7", self.bad_policy()),
            ("before 8", self.bad_table()),
            ("before 9", self.lacks(joined)),
        ])
    }

    /// Which members the table holds for.
    fn not_held(&self, members: &[Itinerary]) -> Vec<String> {
        let (Ok(policy), Some(table)) = (Policy::try_from(self.policy), Table::read(self.table)) else {
            return Vec::new();
        };
        let held = |member: &&Itinerary| holds(Law::Document, member, &policy, &table);
        let failing: Vec<usize> = (0..4).filter(|&place| !held(&&members[place])).collect();
        match failing[..] {
            [place] => vec![format!("by member {} alone", place + 1)],
            _ => so(&[("by several members", failing.len() > 1)]),
        }
    }

    fn done(&self, members: &[Itinerary], joined: &Itinerary) -> Vec<String> {
        let used: Vec<usize> = (0..4).filter(|&place| members[place].count() > 0).collect();
        let mut words = so(&[
            ("no records", used.is_empty()),
            ("four members", used.len() == 4),
            ("an unused place between", used.last().is_some_and(|last| last - used[0] >= used.len())),
            ("1,024 records", joined.count() == MOST_RECORDS),
            ("a gone record", joined.standing() < joined.count()),
            ("a table above the least", self.is_above_least(joined)),
        ]);
        words.extend((0..4).flat_map(|place| self.parents(&members[place], place)));
        if let [place] = used[..] {
            words.push(format!("member {} alone", place + 1));
        }
        words
    }

    fn is_above_least(&self, joined: &Itinerary) -> bool {
        let Ok(policy) = Policy::try_from(self.policy) else { return false };
        let made = if self.table.len() == TABLE_LENGTH {
            least(Law::Document, &[joined], &policy).bytes
        } else {
            return false;
        };
        made != self.table
    }

    /// What becomes of the parents of a member behind others.
    fn parents(&self, member: &Itinerary, place: usize) -> Vec<String> {
        let (before, neighbour) =
            (self.bytes_before(place) / RECORD_LENGTH, self.bytes_before(place.saturating_sub(1)));
        let parents: Vec<usize> =
            member.records.iter().filter(|r| r.kind != Kind::Gone).map(|r| usize::from(r.parent)).collect();
        let below =
            |wanted: &dyn Fn(usize) -> bool| parents.iter().any(|&parent| parent > 0 && wanted(parent));
        so(&[
            ("parent 0 behind others", before > 0 && parents.contains(&0)),
            ("a parent behind one member", before > 0 && neighbour == 0 && below(&|_| true)),
            ("a parent behind several", neighbour > 0 && below(&|_| true)),
            ("a parent with a carry", below(&|parent| parent % 256 + before % 256 > 255)),
        ])
    }
}

/// What the cases have to meet.
pub fn wanted() -> Vec<String> {
    let mut all = Vec::new();
    for number in 1..=6 {
        all.extend((1..5).map(|member| format!("{number:2} in member {member}")));
    }
    all.extend((2..=6).map(|number| format!("{number:2} behind other records")));
    for member in 1..5 {
        all.push(format!(" 9 by member {member} alone"));
        all.push(format!(" 0 member {member} alone"));
    }
    all.extend(WANTED.map(|(number, word)| format!("{number:2} {word}")));
    all
}

const WANTED: [(u8, &str); 41] = [
    (0, "no records"),
    (0, "four members"),
    (0, "an unused place between"),
    (0, "1,024 records"),
    (0, "a gone record"),
    (0, "a table above the least"),
    (0, "parent 0 behind others"),
    (0, "a parent behind one member"),
    (0, "a parent behind several"),
    (0, "a parent with a carry"),
    (1, "with whole records together"),
    (1, "of 1,025 records"),
    (1, "before another member's"),
    (1, "before 16"),
    (2, "before another member's"),
    (2, "before 16"),
    (2, "before 7"),
    (2, "before 8"),
    (5, "by a number of the set"),
    (6, "before another member's"),
    (6, "before 16"),
    (6, "before 7"),
    (6, "before 8"),
    (7, "before 8"),
    (7, "before 9"),
    (8, "before 9"),
    (9, "by several members"),
    (16, "1,025 records"),
    (16, "4,096 records"),
    (16, "too many in a buffer of their length"),
    (16, "too many in 8,192 bytes"),
    (16, "a byte short"),
    (16, "a byte long"),
    (16, "a record short"),
    (16, "a record long"),
    (16, "1,024 records, a record long"),
    (16, "1,024 records, a byte short"),
    (16, "no records, a byte long"),
    (16, "before 7"),
    (16, "before 8"),
    (16, "before 9"),
];
