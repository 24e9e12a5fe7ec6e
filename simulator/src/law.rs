//! The definitions in force: the document's, or those with one change.
//!
//! The changes exist to show that the secrecy statement needs each of these places as it
//! stands, and that replay files notice one; nothing but the hunt, the replay and the tests
//! use them.

#[derive(Clone, Copy, Debug, PartialEq, Eq)]
pub enum Law {
    /// Everything as the document says.
    Document,
    /// The in rule says nothing of suspects.
    NoSuspectIn,
    /// The out rule says nothing of suspects.
    NoSuspectOut,
    /// The open rule says nothing of suspects.
    NoSuspectOpen,
    /// The rules range over p from 1 to 63, leaving the environment out.
    PNever0,
    /// The in and out rules are passed over when a equals b.
    SkipAEqualsB,
    /// The open rule asks for the ambient labels of row b only.
    OpenAmbientsOnly,
    /// Only active capabilities have rules.
    OnlyActiveCapabilities,
    /// A partner that is no ambient is answered by 11, an unfit ambient by 12.
    PartnerNotAmbientDiffers,
    /// What stands beneath a copier has container 0.
    ContainersStopAtCopiers,
    /// Copies of a copier's own children get the copier as their parent.
    CopiesUnderTheCopier,
    /// Copies get their originals' parents.
    CopiesUnderOriginalsParents,
    /// Copies go into gone records from the highest number down.
    HighestGoneFirst,
    /// 18 comes before 17.
    GoneBeforeActive,
    /// A copier that has records other than ambients above it copies.
    InactiveCopiersCopy,
    /// The copier is copied too.
    CopierCopiedToo,
    /// Only a copier's own children are copied.
    ChildrenAlone,
    /// What stands beneath a copier that is copied isn't copied with it.
    CopiersBeneathEmpty,
    /// Copies have client 0.
    CopiesWithoutClients,
    /// What stands below a copier can be active.
    ActiveBelowCopiers,
    /// The table has (container, 0) in I for a copier.
    CopiersNest,
}

/// Every change that makes the secrecy statement false, with the name it has on the command line.
pub const CHANGES: [(&str, Law); 9] = [
    ("no-suspect-in", Law::NoSuspectIn),
    ("no-suspect-out", Law::NoSuspectOut),
    ("no-suspect-open", Law::NoSuspectOpen),
    ("p-never-0", Law::PNever0),
    ("skip-a-equals-b", Law::SkipAEqualsB),
    ("open-ambients-only", Law::OpenAmbientsOnly),
    ("only-active-capabilities", Law::OnlyActiveCapabilities),
    ("partner-not-ambient-differs", Law::PartnerNotAmbientDiffers),
    ("containers-stop-at-copiers", Law::ContainersStopAtCopiers),
];

/// Other mistakes about copiers.
pub const MISTAKES: [(&str, Law); 11] = [
    ("copies-under-the-copier", Law::CopiesUnderTheCopier),
    ("copies-under-originals-parents", Law::CopiesUnderOriginalsParents),
    ("highest-gone-first", Law::HighestGoneFirst),
    ("gone-before-active", Law::GoneBeforeActive),
    ("inactive-copiers-copy", Law::InactiveCopiersCopy),
    ("copier-copied-too", Law::CopierCopiedToo),
    ("children-alone", Law::ChildrenAlone),
    ("copiers-beneath-empty", Law::CopiersBeneathEmpty),
    ("copies-without-clients", Law::CopiesWithoutClients),
    ("active-below-copiers", Law::ActiveBelowCopiers),
    ("copiers-nest", Law::CopiersNest),
];

fn all() -> impl Iterator<Item = &'static (&'static str, Law)> {
    CHANGES.iter().chain(&MISTAKES)
}

impl Law {
    /// The change of that name.
    pub fn change(name: &str) -> Option<Law> {
        all().find(|(known, _)| *known == name).map(|(_, law)| *law)
    }

    pub fn name(self) -> &'static str {
        let known = all().find(|(_, law)| *law == self);
        known.map_or("document", |(name, _)| name)
    }

    /// The labels p that the table rules range over.
    pub fn outer_labels(self) -> std::ops::Range<u8> {
        if self == Law::PNever0 {
            1..64
        } else {
            0..64
        }
    }

    /// Whether the in and out rules look at this pair a, b at all.
    pub fn looks_at(self, a: u8, b: u8) -> bool {
        self != Law::SkipAEqualsB || a != b
    }

    /// The labels of row b that the open rule wants in row p.
    pub fn opened_labels(self) -> std::ops::Range<u8> {
        if self == Law::OpenAmbientsOnly {
            0..64
        } else {
            0..128
        }
    }
}
