//! Families of cases, each drawn on purpose and counted.

use crate::buffers::{Buffer, Buffers, Overlap};
use crate::calls::Call;
use simulator::random::Random;

#[derive(Clone, Copy, Debug, PartialEq, Eq, PartialOrd, Ord)]
pub enum Family {
    /// Up to 14 records.
    Small,
    /// 20 to 80, 81 to 1,023, and 1,024 records.
    Medium,
    Large,
    Full,
    Chain,
    /// Drawn for its verdict.
    Hinted,
    /// Drawn for its moves: many, and half of 1,024 records with each of the other half.
    Crowded,
    Longest,
    /// Drawn for the copy: copiers and gone records; a copier of 1,024 records, with about half of them beneath it.
    Copies,
    FullCopies,
    /// Drawn for the join: four good members and a table for all of them; the same of 1,024 records or a few more.
    Set,
    FullSet,
    Empty,
    Ring,
    FullRing,
    TailIntoRing,
    /// Each record has a client; the same, but one that is refused.
    Clients,
    BadClient,
    /// That buffer far over its limit.
    Long(Buffer),
    PolicyInTable,
    PolicyInItinerary,
    TableInItinerary,
    ItineraryInTable,
    PolicyInScript,
    ScriptInPolicy,
    /// The second member is the first, or a part of it; the policy is a part of the fourth.
    MemberInMember,
    PolicyInMember,
}

use Family::*;

/// Each with how many of 4,000 cases are of it; what is left is small.
pub const FAMILIES: [(Family, usize); 37] = [
    (Small, 0),
    (Medium, 60),
    (Large, 8),
    (Full, 2),
    (Chain, 2),
    (Hinted, 108),
    (Crowded, 200),
    (Longest, 2),
    (Copies, 200),
    (FullCopies, 8),
    (Set, 200),
    (FullSet, 6),
    (Empty, 20),
    (Ring, 6),
    (FullRing, 4),
    (TailIntoRing, 6),
    (Clients, 60),
    (BadClient, 60),
    (Long(Buffer::Itinerary), 6),
    (Long(Buffer::Policy), 6),
    (Long(Buffer::Table), 6),
    (Long(Buffer::Script), 6),
    (Long(Buffer::Answers), 6),
    (Long(Buffer::Sheet), 6),
    (Long(Buffer::List), 2),
    (Long(Buffer::Second), 4),
    (Long(Buffer::Third), 4),
    (Long(Buffer::Fourth), 4),
    (Long(Buffer::Joined), 4),
    (PolicyInTable, 20),
    (PolicyInItinerary, 20),
    (TableInItinerary, 10),
    (ItineraryInTable, 20),
    (PolicyInScript, 20),
    (ScriptInPolicy, 20),
    (MemberInMember, 20),
    (PolicyInMember, 20),
];

impl Family {
    pub fn draw(random: &mut Random) -> Family {
        let mut left = random.below(4000);
        for (family, share) in FAMILIES {
            if left < share {
                return family;
            }
            left -= share;
        }
        Small
    }

    pub fn name(self) -> String {
        match self {
            Small => "up to 14 records".to_string(),
            Medium => "20 to 80 records".to_string(),
            Large => "81 to 1,023 records".to_string(),
            Full => "1,024 records".to_string(),
            Chain => "long chain".to_string(),
            Hinted => "drawn for the verdict".to_string(),
            Crowded => "drawn for the moves".to_string(),
            Longest => "the longest list of moves".to_string(),
            Copies => "drawn for the copy".to_string(),
            FullCopies => "a copier of 1,024 records".to_string(),
            Set => "drawn for the join".to_string(),
            FullSet => "1,024 records joined, or more".to_string(),
            Long(Buffer::List) => "list longer than any needed".to_string(),
            Empty => "empty itinerary".to_string(),
            Ring => "ring of 1 to 1,023".to_string(),
            FullRing => "ring of 1,024".to_string(),
            TailIntoRing => "tail into a ring".to_string(),
            Clients => "clients on each record".to_string(),
            BadClient => "a client that is refused".to_string(),
            Long(buffer) => format!("{} far over its limit", buffer.name()),
            PolicyInTable => "policy in table".to_string(),
            PolicyInItinerary => "policy in itinerary".to_string(),
            TableInItinerary => "table in itinerary".to_string(),
            ItineraryInTable => "itinerary in table".to_string(),
            PolicyInScript => "policy in script".to_string(),
            ScriptInPolicy => "script in policy".to_string(),
            MemberInMember => "member in member".to_string(),
            PolicyInMember => "policy in member".to_string(),
        }
    }

    /// Whether calls that see what makes it can be done. No row request is ever refused, and no list too long.
    pub fn can_be_done(self) -> bool {
        !matches!(self, Ring | FullRing | TailIntoRing | BadClient)
            && (matches!(self, Long(Buffer::Table | Buffer::List)) || !matches!(self, Long(_)))
    }

    /// Whether the call gets to see what makes the family.
    pub fn is_seen_by(self, call: Call, lent: &Buffers, overlap: Option<Overlap>) -> bool {
        match self {
            Long(buffer) => call.is_lent(buffer) && lent.get(buffer).len() > buffer.limit(),
            PolicyInTable | PolicyInItinerary | TableInItinerary | ItineraryInTable | PolicyInScript
            | ScriptInPolicy | MemberInMember | PolicyInMember => overlap.is_some(),
            Crowded | Longest => call == Call::Moves,
            Copies | FullCopies => matches!(call, Call::Copy(_)),
            Set | FullSet => call == Call::Join,
            _ => call.is_lent(Buffer::Itinerary),
        }
    }
}
