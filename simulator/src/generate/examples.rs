//! Itineraries made by hand for what random ones seldom do.

use crate::record::{Itinerary, Kind, Record};

fn record(kind: Kind, label: u8, name: u8, parent: u16) -> Record {
    Record { kind, label, name, parent, client: 0 }
}

/// Ambients side by side in the environment.
pub fn in_parallel(labels: &[u8]) -> Itinerary {
    let one = |&label: &u8| record(Kind::Ambient, label, label, 0);
    Itinerary { records: labels.iter().map(one).collect() }
}

/// Ambients each in the one before, the first in the environment.
pub fn nested(labels: &[u8]) -> Itinerary {
    let one = |(above, &label): (usize, &u8)| record(Kind::Ambient, label, label, above as u16);
    Itinerary { records: labels.iter().enumerate().map(one).collect() }
}

/// The lettered examples A, B, D, E, H with out and H with open.
pub fn lettered() -> [Itinerary; 6] {
    let boundary = record(Kind::Ambient, 1, 0, 0);
    let a = [boundary, record(Kind::Ambient, 2, 1, 1)];
    let b = [&a[..], &[record(Kind::Out, 64, 0, 2)]].concat();
    let d = [&a[..], &[record(Kind::In, 64, 2, 2), record(Kind::Ambient, 3, 2, 1)]].concat();
    let e = [boundary, record(Kind::In, 64, 0, 1)];
    let [out, open] = [Kind::Out, Kind::Open].map(|kind| [boundary, record(kind, 64, 0, 0)]);
    [a.to_vec(), b, d, e.to_vec(), out.to_vec(), open.to_vec()].map(|records| Itinerary { records })
}

/// Example C: under the usual policy hinted 1.
pub fn c() -> Itinerary {
    Itinerary {
        records: vec![
            record(Kind::Ambient, 1, 0, 0),
            record(Kind::Ambient, 2, 1, 1),
            record(Kind::Open, 64, 1, 1),
            record(Kind::Ambient, 3, 2, 3),
            record(Kind::Out, 65, 0, 4),
        ],
    }
}

/// Under the usual policy, label 3 can enter the high label 2 inside the boundary
/// 1 and so is suspect; the environment can open it, so 0 is suspect too, and no
/// high label is reached: hinted 0.
pub fn environment_suspect() -> Itinerary {
    Itinerary {
        records: vec![
            record(Kind::Ambient, 1, 0, 0),
            record(Kind::Ambient, 2, 1, 1),
            record(Kind::Ambient, 3, 2, 1),
            record(Kind::In, 64, 1, 3),
            record(Kind::Ambient, 3, 3, 0),
            record(Kind::Open, 65, 3, 0),
        ],
    }
}

/// A bench that three clients share, each record with a client but one and one record gone: a packet goes out
/// of its boundary and into another ambient, where it is opened. What moves, what is entered, left and opened,
/// and what follows each of the three have clients of their own. `SHARED_STEPS` are the steps, each of them done.
pub fn shared() -> Itinerary {
    let client = |client: u16, record: Record| Record { client, ..record };
    Itinerary {
        records: vec![
            client(17, record(Kind::Ambient, 1, 0, 0)),
            client(999, record(Kind::Ambient, 2, 1, 1)),
            client(256, record(Kind::Out, 64, 0, 2)),
            client(1, record(Kind::In, 65, 2, 3)),
            Record::GONE,
            client(512, record(Kind::Ambient, 3, 2, 0)),
            client(255, record(Kind::Open, 66, 1, 6)),
            client(998, record(Kind::Ambient, 4, 3, 7)),
            client(257, record(Kind::Ambient, 5, 4, 4)),
            record(Kind::Ambient, 6, 5, 2),
        ],
    }
}

pub const SHARED_STEPS: [(u16, u16); 3] = [(3, 1), (4, 6), (7, 2)];

/// A copier, record 4, in a boundary; beneath it a packet, a high ambient, and a copier with an out. Their parents have
/// higher numbers and lower ones, and there are gone records between them, just enough for a copy. All have clients but
/// the last, and one of 1 to 3 bytes' sizes each.
pub fn wash() -> Itinerary {
    let client = |client: u16, record: Record| Record { client, ..record };
    let copier = |parent: u16| record(Kind::Copier, 0, 0, parent);
    Itinerary {
        records: vec![
            Record::GONE,
            client(999, record(Kind::Ambient, 3, 2, 4)),
            Record::GONE,
            client(17, copier(8)),
            client(256, record(Kind::In, 64, 1, 2)),
            client(1, copier(4)),
            Record::GONE,
            client(998, record(Kind::Ambient, 1, 0, 0)),
            client(257, record(Kind::Out, 65, 0, 6)),
            client(512, record(Kind::Ambient, 2, 1, 4)),
            Record::GONE,
            Record::GONE,
            record(Kind::Ambient, 4, 3, 0),
        ],
    }
}

/// The wash's first copier.
pub const WASH: u16 = 4;

/// Copiers, ambients and capabilities one beneath the other, beside them a copier in the environment, and one behind an
/// open, which is done by `RECURRING_STEPS`.
pub fn recurring() -> Itinerary {
    Itinerary {
        records: vec![
            record(Kind::Ambient, 1, 0, 0),
            record(Kind::Copier, 0, 0, 1),
            record(Kind::Open, 64, 1, 2),
            record(Kind::Copier, 0, 0, 3),
            record(Kind::Ambient, 2, 1, 4),
            record(Kind::Copier, 0, 0, 5),
            record(Kind::Out, 65, 0, 6),
            record(Kind::Ambient, 3, 2, 7),
            record(Kind::Copier, 0, 0, 0),
            record(Kind::Ambient, 4, 3, 9),
            record(Kind::Ambient, 5, 4, 0),
            record(Kind::Open, 66, 4, 0),
            record(Kind::Copier, 0, 0, 12),
            record(Kind::In, 67, 3, 13),
        ],
    }
}

pub const RECURRING_STEPS: [(u16, u16); 1] = [(12, 11)];

/// Copiers with one record beneath each, in every place in which one is or isn't active, and a gone record.
pub fn copiers() -> Itinerary {
    let mut records = vec![
        record(Kind::Ambient, 1, 0, 0),
        record(Kind::In, 64, 0, 1),
        record(Kind::Out, 65, 0, 1),
        record(Kind::Open, 66, 0, 1),
        record(Kind::Ambient, 2, 1, 2),
        record(Kind::Copier, 0, 0, 0),
        Record::GONE,
    ];
    for parent in 0..=6 {
        records.push(record(Kind::Copier, 0, 0, parent));
        records.push(record(Kind::Ambient, 3, 2, records.len() as u16));
    }
    Itinerary { records }
}

/// Runs of records of one kind in the environment, all with one name.
pub fn runs(runs: &[(Kind, usize)]) -> Itinerary {
    let one = |kind| match kind {
        Kind::Gone => Record::GONE,
        _ => record(kind, *kind.labels().start(), 0, 0),
    };
    let records = runs.iter().flat_map(|&(kind, count)| vec![one(kind); count]).collect();
    Itinerary { records }
}

/// Capabilities of that kind in the first ambient, which stands beside the others, all with one name; around them
/// stands the last record, an ambient too.
pub fn in_a_mover(kind: Kind, ambients: usize, capabilities: usize) -> Itinerary {
    let around = (ambients + capabilities + 1) as u16;
    let mut itinerary = runs(&[(Kind::Ambient, ambients), (kind, capabilities), (Kind::Ambient, 1)]);
    for (place, record) in itinerary.records[..ambients + capabilities].iter_mut().enumerate() {
        record.parent = if place < ambients { around } else { 1 };
    }
    itinerary
}

/// Ambients each in the one before, and in the last one capabilities, of which a few outs can act.
pub fn far_down(depth: usize, capabilities: usize) -> Itinerary {
    let ambient =
        |place: usize| record(Kind::Ambient, 1 + (place % 63) as u8, (place % 64) as u8, place as u16);
    let mut records: Vec<Record> = (0..depth).map(ambient).collect();
    for place in 0..capabilities {
        let name = (place / 3 % 64) as u8;
        records.push(record(Kind::ALL[2 + place % 3], 64 + (place % 64) as u8, name, depth as u16));
    }
    Itinerary { records }
}

/// Ambients with capabilities between them, three deep, and at the end a capability.
pub fn between() -> Itinerary {
    Itinerary {
        records: vec![
            record(Kind::Ambient, 1, 0, 0),
            record(Kind::Open, 64, 1, 1),
            record(Kind::In, 65, 1, 2),
            record(Kind::Ambient, 2, 1, 3),
            record(Kind::Out, 66, 0, 4),
            record(Kind::Ambient, 3, 2, 5),
            record(Kind::In, 65, 2, 6),
            record(Kind::Open, 64, 2, 7),
        ],
    }
}
