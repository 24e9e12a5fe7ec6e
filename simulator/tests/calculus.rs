//! Steps against the published reductions, copies against the published unfolding, and the secrecy statement by running.

use simulator::law::Law;
use simulator::record::{Itinerary, Kind, Record};
use simulator::secrecy::{copying, pairs, search::search};
use simulator::term::{by_copies, by_steps, compare, read, reducts, unfoldings};

fn record(kind: Kind, label: u8, name: u8, parent: u16) -> Record {
    Record { kind, label, name, parent, client: 0 }
}

/// A[p[out A. in B]] | B[open p], with A, B, p as names 0, 1, 2.
fn packet() -> Itinerary {
    Itinerary {
        records: vec![
            record(Kind::Ambient, 1, 0, 0),
            record(Kind::Ambient, 2, 2, 1),
            record(Kind::Out, 64, 0, 2),
            record(Kind::In, 65, 1, 3),
            record(Kind::Ambient, 3, 1, 0),
            record(Kind::Open, 66, 2, 5),
        ],
    }
}

/// The published example reduces in three steps to A[] | B[], with no choice.
#[test]
fn the_packet_reaches_b() {
    let mut process = read(&packet(), 0);
    for _ in 0..3 {
        let next = reducts(&process);
        assert_eq!(next.len(), 1);
        process = next.into_iter().next().unwrap();
    }
    let end = Itinerary { records: vec![record(Kind::Ambient, 1, 0, 0), record(Kind::Ambient, 3, 1, 0)] };
    assert_eq!(process, read(&end, 0));
    assert!(reducts(&process).is_empty());
}

#[test]
fn the_packet_steps_as_it_reduces() {
    assert_eq!(by_steps(&packet()), reducts(&read(&packet(), 0)));
}

#[test]
fn steps_are_the_published_reductions() {
    let compared = compare(7, 3000);
    assert_eq!(compared.different, 0);
    assert!(compared.reducts > 3000 && compared.unfoldings > 300, "{compared:?}");
}

/// The packet that recurs, A[!p[out A. in B]] | B[open p], does nothing by itself. Each unfolding sends one to B, where
/// the first is opened.
#[test]
fn the_packet_recurs() {
    let mut recurring = packet();
    recurring.records[1].parent = 7;
    recurring.records.push(record(Kind::Copier, 0, 0, 1));
    let mut process = read(&recurring, 0);
    assert!(reducts(&process).is_empty());
    let unfolded = unfoldings(&process);
    assert_eq!((unfolded.len(), &unfolded), (1, &by_copies(&recurring)));
    for steps in [3, 2] {
        process = unfoldings(&process).into_iter().next().unwrap();
        for _ in 0..steps {
            let next = reducts(&process);
            assert_eq!(next.len(), 1);
            process = next.into_iter().next().unwrap();
        }
        assert!(reducts(&process).is_empty());
    }
    // A[!p[out A. in B]] | B[p[]]
    recurring.records[5] = record(Kind::Ambient, 2, 2, 5);
    assert_eq!(process, read(&recurring, 0));
}

/// Nothing is unfolded behind a capability or in a replication.
#[test]
fn nothing_unfolds_farther_in() {
    let records = vec![
        record(Kind::Copier, 0, 0, 0),
        record(Kind::Copier, 0, 0, 1),
        record(Kind::Ambient, 1, 0, 2),
        record(Kind::Open, 64, 0, 0),
        record(Kind::Copier, 0, 0, 4),
        record(Kind::Ambient, 2, 1, 5),
    ];
    let itinerary = Itinerary { records };
    let unfolded = unfoldings(&read(&itinerary, 0));
    assert_eq!((unfolded.len(), &unfolded), (1, &by_copies(&itinerary)));
}

#[test]
fn no_counterexample_under_the_documents_law() {
    let (found, tally) = search(Law::Document, pairs::draw, 7, 30_000);
    assert!(found.is_none());
    assert!(tally.different > 500 && tally.by_clients > 300, "{}", tally.line());
    assert!(tally.shown_done > 300 && tally.hidden_done > 200, "{}", tally.line());
    assert_eq!(tally.copies, 0);
}

/// With copiers, lists with copies and without. Where copies were done, sheets may differ, and do.
#[test]
fn no_counterexample_with_copies() {
    let (found, tally) = search(Law::Document, copying::draw, 7, 15_000);
    assert!(found.is_none());
    assert!(tally.different > 500 && tally.by_clients > 200, "{}", tally.line());
    assert!(tally.shown_done > 100 && tally.hidden_done > 50, "{}", tally.line());
    assert!(tally.copies > 500 && tally.suspects_copied > 100 && tally.apart > 50, "{}", tally.line());
}
