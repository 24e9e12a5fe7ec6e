//! Fuzzing of the programs: texts near valid for `hubtext` and back, itineraries, policies and scripts for the others.

mod compare;
mod edits;
mod running;
mod text;

use compare::{compare_bench, compare_text, Bench};
use edits::{apply, Edit, EDITS};
use fuzz::draw::Case;
use fuzz::families::{Family, FAMILIES};
use running::Runs;
use simulator::generate::clients;
use simulator::generate::trees::{chain, tree, Links, Mix};
use simulator::random::Random;
use simulator::record::{Itinerary, MOST_RECORDS};
use std::collections::BTreeMap;
use std::process::ExitCode;

const USAGE: &str = "usage: programs [--seed N] [--texts M] [--benches M] [--programs FOLDER] [--spoil]";

struct Options {
    seed: u64,
    texts: usize,
    benches: usize,
    programs: String,
    spoilt: bool,
}

impl Options {
    fn read() -> Option<Options> {
        let programs = "../target/bin".to_string();
        let mut options = Options { seed: 1, texts: 500, benches: 500, programs, spoilt: false };
        let mut words = std::env::args().skip(1);
        while let Some(word) = words.next() {
            match word.as_str() {
                "--seed" => options.seed = words.next()?.parse().ok()?,
                "--texts" => options.texts = words.next()?.parse().ok()?,
                "--benches" => options.benches = words.next()?.parse().ok()?,
                "--programs" => options.programs = words.next()?,
                "--spoil" => options.spoilt = true,
                _ => return None,
            }
        }
        Some(options)
    }
}

/// A text of the readable form.
fn draw_text(random: &mut Random) -> Vec<u8> {
    let itinerary = match random.below(100) {
        0 => clients::given(random, 70, &chain(MOST_RECORDS, Links::Turns, true)),
        1 => Itinerary { records: vec![] },
        2..=20 => {
            let mix = Mix::medium(random);
            tree(random, &mix)
        }
        _ => {
            let mix = Mix::lively(random);
            tree(random, &mix)
        }
    };
    text::write(&itinerary).into_bytes()
}

/// Counts, by edit, of texts read and texts with a fault.
type Read = BTreeMap<Edit, (usize, usize)>;

/// The first texts have each edit once; the others none, one or two.
fn fuzz_texts(random: &mut Random, runs: &Runs, count: usize) -> Result<Read, String> {
    let mut read = Read::new();
    for number in 0..count {
        let mut text = draw_text(random);
        let first = match EDITS.get(number) {
            Some(edit) => *edit,
            None if random.chance(20) => Edit::None,
            None => random.pick(&EDITS),
        };
        // Not every text has a place for every edit.
        while !apply(random, first, &mut text) {
            text = draw_text(random);
        }
        if number >= EDITS.len() && random.chance(30) {
            let second = random.pick(&EDITS);
            apply(random, second, &mut text);
        }
        let fault = compare_text(runs, &text).map_err(|difference| {
            format!("text {number}, {first:?}: {difference}\n{}", text.escape_ascii())
        })?;
        let counts = read.entry(first).or_default();
        *(if fault { &mut counts.1 } else { &mut counts.0 }) += 1;
    }
    Ok(read)
}

/// The first benches are one of each family of cases.
fn fuzz_benches(random: &mut Random, runs: &Runs, count: usize) -> Result<BTreeMap<String, usize>, String> {
    let mut lines = BTreeMap::new();
    for number in 0..count {
        let family = FAMILIES.get(number).map_or_else(|| Family::draw(random), |(family, _)| *family);
        let mut case = Case::draw(random, family);
        case.disturb(random);
        let bench = Bench::draw(random, case.buffers);
        for answer in compare_bench(runs, &bench)
            .map_err(|difference| format!("bench {number}, {}: {difference}\n{bench:?}", family.name()))?
        {
            *lines.entry(answer).or_default() += 1;
        }
    }
    Ok(lines)
}

/// Benches after which each answer is met by far.
const ENOUGH: usize = 200;

/// What runs of these lengths should have met and didn't.
fn missing(read: &Read, benches: &BTreeMap<String, usize>, options: &Options) -> Vec<String> {
    let mut missing = Vec::new();
    if options.texts + options.benches == 0 {
        missing.push("any text or bench".to_string());
    }
    if options.texts >= EDITS.len() {
        let absent = EDITS.iter().filter(|edit| !read.contains_key(edit));
        missing.extend(absent.map(|edit| format!("{edit:?}")));
        if read.values().all(|(good, _)| *good == 0) {
            missing.push("a text without a fault".to_string());
        }
        if read.values().all(|(_, faults)| *faults == 0) {
            missing.push("a text with a fault".to_string());
        }
    }
    if options.benches >= ENOUGH {
        let absent = compare::ANSWERS.iter().filter(|&&answer| !benches.contains_key(answer));
        missing.extend(absent.map(|answer| answer.to_string()));
    }
    missing
}

fn fuzz_programs(options: &Options) -> Result<(), String> {
    let runs = Runs::new(&options.programs, options.spoilt)?;
    let mut random = Random::new(options.seed);
    let read = fuzz_texts(&mut random, &runs, options.texts)?;
    println!("edit, texts read, texts with a fault");
    for (edit, (good, faults)) in &read {
        println!("{edit:?}, {good}, {faults}");
    }
    let benches = fuzz_benches(&mut random, &runs, options.benches)?;
    for (answer, count) in &benches {
        println!("{answer} {count}");
    }
    match missing(&read, &benches, options) {
        missing if missing.is_empty() => Ok(()),
        missing => Err(format!("never met: {}", missing.join(", "))),
    }
}

fn main() -> ExitCode {
    let Some(options) = Options::read() else {
        eprintln!("{USAGE}");
        return ExitCode::from(2);
    };
    match fuzz_programs(&options) {
        Ok(()) => {
            println!("{} texts and {} benches, no difference", options.texts, options.benches);
            ExitCode::SUCCESS
        }
        Err(problem) => {
            println!("NOT AS EXPECTED: {problem}");
            ExitCode::FAILURE
        }
    }
}
