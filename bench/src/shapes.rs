//! Inputs among which the deepest of each call is looked for.

use crate::figures::grouped;
use crate::inputs::{self, Lent};
use simulator::generate::policies;
use simulator::generate::tables;
use simulator::generate::trees::{chain, Links};
use simulator::record::{Itinerary, Kind, Record, MOST_RECORDS};
use simulator::table::{Table, BOUNDARY, HIGH, LOW, POLICY_LENGTH, TABLE_LENGTH};

/// An input, and in words what it is: the itinerary, and what is lent or asked with it.
pub struct Shape {
    pub itinerary: String,
    pub rest: String,
    pub lent: Lent,
}

const LINKS: [(&str, Links); 6] = [
    ("ambients", Links::Ambients),
    ("capabilities", Links::Capabilities),
    ("ambients and capabilities in turn", Links::Turns),
    ("ambients, in at the end", Links::LastActs(Kind::In)),
    ("ambients, out at the end", Links::LastActs(Kind::Out)),
    ("ambients, open at the end", Links::LastActs(Kind::Open)),
];

/// Chains in both orders, rings, and rows of the benchmark that aren't chains.
fn itineraries() -> Vec<(String, Vec<u8>)> {
    let mut all = Vec::new();
    for reversed in [true, false] {
        let order = if reversed { "reversed" } else { "in file order" };
        for (what, links) in LINKS {
            let links = chain(MOST_RECORDS, links, reversed);
            all.push((format!("chain of {what}, {order}"), links.bytes()));
        }
        for kind in [Kind::In, Kind::Open] {
            all.push((format!("deep {kind:?} that is done, {order}"), done_below(kind, reversed).bytes()));
        }
        for length in [MOST_RECORDS, MOST_RECORDS / 2] {
            let name = format!("ring of {} ambients, {order}", grouped(length as u64));
            all.push((name, ring(length, reversed)));
        }
    }
    for (name, lent) in inputs::for_tables() {
        all.push((name.to_string(), lent.itinerary));
    }
    for (name, lent) in [("moves of few", inputs::few_ready()), ("longest list", inputs::half_opens())] {
        all.push((name.to_string(), lent.itinerary));
    }
    all
}

/// A chain with a capability and its partner at the end, so that the step is done there.
fn done_below(kind: Kind, reversed: bool) -> Itinerary {
    let links = if kind == Kind::Open { Links::LastActs(kind) } else { Links::Ambients };
    let mut itinerary = chain(MOST_RECORDS - 1, links, reversed);
    let deepest = if reversed { 1 } else { MOST_RECORDS - 1 };
    let end = itinerary.records[deepest - 1];
    let added = match kind {
        Kind::Open => Record { kind: Kind::Ambient, label: 1, ..end },
        _ => Record { kind, label: 64, name: end.name, parent: deepest as u16, client: 0 },
    };
    itinerary.records.push(added);
    if kind == Kind::In {
        // Another ambient takes the place beside the mover.
        let beside = if reversed { 2 } else { MOST_RECORDS - 2 };
        itinerary.records[deepest - 1].parent = itinerary.records[beside - 1].parent;
        itinerary.records[MOST_RECORDS - 1].name = itinerary.records[beside - 1].name;
    }
    itinerary
}

/// A chain whose top has another record as its parent: all that climbs there is refused.
fn ring(length: usize, reversed: bool) -> Vec<u8> {
    let mut itinerary = chain(MOST_RECORDS, Links::Ambients, reversed);
    let (top, other) = if reversed { (MOST_RECORDS, MOST_RECORDS - length + 1) } else { (1, length) };
    itinerary.records[top - 1].parent = other as u16;
    itinerary.bytes()
}

fn policies() -> [(&'static str, Vec<u8>); 4] {
    let all = |class: u8| {
        let mut policy = vec![class; POLICY_LENGTH];
        policy[0] = LOW;
        policy
    };
    [
        ("all low", all(LOW)),
        ("usual policy", policies::usual().to_vec()),
        ("all high", all(HIGH)),
        ("all boundary", all(BOUNDARY)),
    ]
}

/// The made table, it without its last bit, zeros, and all bits that may be set.
fn tables_for(itinerary: &[u8], policy: &[u8]) -> Vec<(&'static str, Vec<u8>)> {
    let mut all =
        vec![("table of zeros", vec![0; TABLE_LENGTH]), ("full table", tables::full().bytes.to_vec())];
    let mut made = Table::empty();
    if birnsket::make(itinerary, policy, &mut made.bytes).is_ok() {
        let mut less = made.clone();
        if let Some(last) = made.bits().pop() {
            less.bytes[last / 8] ^= 1 << (last % 8);
        }
        all.push(("made table", made.bytes.to_vec()));
        all.push(("made table without its last bit", less.bytes.to_vec()));
    }
    all
}

/// Steps of the ends of a chain and of what stands beside them.
fn steps() -> Vec<(u16, u16)> {
    let most = MOST_RECORDS as u16;
    let ends = [1, 2, 3, most - 2, most - 1, most];
    ends.iter().flat_map(|&actor| ends.map(|partner| (actor, partner))).collect()
}

/// Every itinerary with every policy and table, and with every step, alone and as a script of that step alone; the list
/// buffer is just long enough, and once has no bytes.
pub fn all() -> Vec<Shape> {
    let mut shapes = Vec::new();
    for (name, itinerary) in itineraries() {
        let bare = Lent::bare(&itinerary, &policies::usual(), vec![0; TABLE_LENGTH]);
        let list = bare.clone().with_list().list;
        for (policy_name, policy) in policies() {
            for (table_name, table) in tables_for(&itinerary, &policy) {
                let lent = Lent { list: list.clone(), ..Lent::bare(&itinerary, &policy, table) };
                let rest = format!("{policy_name}, {table_name}");
                shapes.push(Shape { itinerary: name.clone(), rest, lent });
            }
        }
        let base = Lent { list, ..bare.clone() };
        for (actor, partner) in steps() {
            let script = (0..MOST_RECORDS).map(|_| (actor, partner));
            let lent = base.clone().about(actor, partner).with_script(script);
            shapes.push(Shape { itinerary: name.clone(), rest: format!("step ({actor}, {partner})"), lent });
        }
        let rest = "no room for a list".to_string();
        shapes.push(Shape { itinerary: name, rest, lent: bare });
    }
    shapes.extend(copies());
    shapes.extend(sets().into_iter().flat_map(|(name, lent)| with_tables(name, &lent)));
    shapes
}

/// Copies of 511 records, of a third of all below a third of all, of none below 1,023, and one that is refused for the
/// gone records; chains in both orders.
fn copies() -> Vec<Shape> {
    let mut all = Vec::new();
    for reversed in [true, false] {
        let order = if reversed { "reversed" } else { "in file order" };
        for (above, below) in [(341, 341), (1, 511), (1, 1022), (1023, 0)] {
            let itinerary = format!("copier of {below} ambients in {above}, {order}");
            let lent = inputs::deep_to_copy(above, below, reversed);
            all.push(Shape { itinerary, rest: "the copier".to_string(), lent });
        }
    }
    for (name, several) in
        [("random", inputs::random_to_copy()), ("chain", vec![inputs::chain_to_copy(true)])]
    {
        all.extend(several.into_iter().next().map(|lent| Shape {
            itinerary: format!("{name} of 511 to copy"),
            rest: "the copier".to_string(),
            lent,
        }));
    }
    all
}

/// Four members of 256 records each: chains in both orders, the last one a ring, and the benchmark's.
fn sets() -> Vec<(String, Lent)> {
    let mut all = Vec::new();
    for reversed in [true, false] {
        let order = if reversed { "reversed" } else { "in file order" };
        for (what, links) in LINKS {
            all.push((format!("four chains of {what}, {order}"), inputs::set_of_chains(links, reversed)));
        }
        let mut ring = inputs::set_of_chains(Links::Ambients, reversed);
        let (top, deepest): (usize, u16) = if reversed { (256, 1) } else { (1, 256) };
        ring.others[2][8 * top - 4..8 * top - 2].copy_from_slice(&deepest.to_le_bytes());
        all.push((format!("three chains and a ring, {order}"), ring));
    }
    for (name, several) in [("random", inputs::random_sets()), ("dense", inputs::dense_sets())] {
        all.extend(several.into_iter().next().map(|lent| (format!("{name} set"), lent)));
    }
    all
}

/// A set under each policy, with each table that is made of the joined bytes.
fn with_tables(name: String, lent: &Lent) -> Vec<Shape> {
    let mut shapes = Vec::new();
    for (policy_name, policy) in policies() {
        for (table_name, table) in tables_for(&lent.whole, &policy) {
            let lent = Lent { policy: policy.clone(), table, ..lent.clone() };
            shapes.push(Shape {
                itinerary: name.clone(),
                rest: format!("{policy_name}, {table_name}"),
                lent,
            });
        }
    }
    shapes
}

#[cfg(test)]
mod tests {
    use super::*;

    /// The kinds of step that some input lets be done at the end of a chain in that order.
    fn kinds_done(order: &str) -> Vec<u8> {
        let mut kinds = Vec::new();
        for Shape { itinerary, mut lent, .. } in all() {
            let actor = usize::from(lent.number).checked_sub(1);
            let kind = actor.map(|place| lent.itinerary[8 * place]);
            let done = birnsket::step(&mut lent.itinerary, lent.number, lent.partner).is_ok();
            kinds.extend(kind.filter(|_| done && itinerary.ends_with(order)));
        }
        kinds.sort_unstable();
        kinds.dedup();
        kinds
    }

    #[test]
    fn each_kind_of_step_is_done_in_both_orders() {
        assert_eq!(kinds_done("in file order"), [2, 3, 4]);
        assert_eq!(kinds_done("reversed"), [2, 3, 4]);
    }
}
