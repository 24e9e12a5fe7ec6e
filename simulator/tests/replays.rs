//! Replay files play as they were written, and notice changed definitions.

use simulator::generate::examples::runs;
use simulator::law::{Law, CHANGES, MISTAKES};
use simulator::record::Kind;
use simulator::replay::stream::{Buffer, Call, EXPECT_PAIRS, FILL, HEADER};
use simulator::replay::{file, player::play, writer::Writer, Size, SECTIONS};
use simulator::secrecy::{files::faults, text};
use std::fs;

const SEED: u64 = 1;

#[test]
fn samples_play_and_are_as_stored() {
    for section in &SECTIONS {
        let (bytes, counts) = file(section, SEED, Size::Sample);
        assert_eq!(play(Law::Document, &bytes), Ok(counts.calls()));
        let stored = fs::read(format!("sample/{}.cases", section.0)).unwrap();
        assert!(stored == bytes, "sample of {} has changed", section.0);
    }
}

#[test]
fn samples_notice_every_change() {
    let samples: Vec<Vec<u8>> = SECTIONS.iter().map(|section| file(section, SEED, Size::Sample).0).collect();
    for (name, law) in CHANGES.into_iter().chain(MISTAKES) {
        assert!(samples.iter().any(|sample| play(law, sample).is_err()), "{name} goes unnoticed");
    }
}

#[test]
fn a_damaged_file_is_an_error() {
    let (bytes, _) = file(&SECTIONS[2], SEED, Size::Sample);
    assert!(play(Law::Document, &bytes[..bytes.len() - 1]).is_err());
    let longer = [&bytes[..], &[0]].concat();
    assert!(play(Law::Document, &longer).is_err());
    for place in 0..HEADER.len() {
        let mut other = bytes.clone();
        other[place] += 1;
        assert!(play(Law::Document, &other).is_err(), "byte {place} of the header");
    }
}

/// A list of pairs that follow one another takes a few bytes, and each of its numbers matters.
#[test]
fn blocks_of_pairs_play() {
    let mut writer = Writer::new();
    writer.put(Buffer::Itinerary, &runs(&[(Kind::Ambient, 40), (Kind::Open, 40)]).bytes());
    writer.put(Buffer::List, &[7; 6405]);
    writer.call(Call::Moves, 0, 0);
    let (bytes, _) = writer.finish();
    assert_eq!(play(Law::Document, &bytes), Ok(1));
    let at = HEADER.len() + 6 + 640;
    assert_eq!(bytes[at..at + 7], [FILL, 7, 5, 25, 0, 0, 7]);
    let numbers = [0, 41, 40, 1, 40].map(|number: u32| number.to_le_bytes()).concat();
    assert_eq!(bytes[at + 7..at + 29], [&[EXPECT_PAIRS, 7][..], &numbers].concat());
    for place in at + 7..at + 29 {
        let mut other = bytes.clone();
        other[place] ^= 1;
        assert!(play(Law::Document, &other).is_err(), "byte {place}");
    }
}

#[test]
fn stored_counterexamples_stand() {
    for (name, law) in CHANGES {
        let content = fs::read_to_string(format!("counterexamples/{name}.txt")).unwrap();
        let stored = text::read(&content).unwrap();
        assert_eq!(stored.law, law);
        assert_eq!(faults(&stored), Vec::<String>::new(), "{name}");
        assert_eq!(text::print(&stored), content);
    }
}
