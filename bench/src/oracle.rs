//! Compares the maker with the least model that clingo finds by rules.lp.

use crate::figures::{grouped, short};
use crate::inputs;
use birnsket::TABLE_LENGTH;
use simulator::generate::policies;
use simulator::generate::relabel::Relabel;
use simulator::generate::trees::{tree, Mix};
use simulator::random::Random;
use simulator::table::{h_bit, i_bit, s_bit, Table};
use std::fmt::Write as _;
use std::io::{self, Write as _};
use std::process::{Command, Stdio};
use std::time::{Duration, Instant};

/// Clingo is called that often more where a call takes less than this.
const CALLS: usize = 20;
const FEW: Duration = Duration::from_millis(500);
/// Calls of the library.
const MANY: usize = 1000;

/// Itinerary and policy as facts.
fn facts(itinerary: &[u8], policy: &[u8]) -> String {
    let mut facts = String::new();
    for (place, r) in itinerary.chunks_exact(8).enumerate().filter(|(_, r)| r[0] != 0) {
        let parent = u16::from_le_bytes([r[4], r[5]]);
        let _ = writeln!(facts, "record({},{},{},{},{parent}).", place + 1, r[0], r[1], r[2]);
    }
    for (label, _) in policy.iter().enumerate().filter(|(_, &class)| class == 1) {
        let _ = writeln!(facts, "high({label}).");
    }
    facts
}

/// The bit of an atom as i(1,64), h(2,3) or s(4).
fn bit(atom: &str) -> Option<usize> {
    let (name, rest) = atom.split_once('(')?;
    let numbers: Vec<u8> = rest.strip_suffix(')')?.split(',').map_while(|word| word.parse().ok()).collect();
    match (name, numbers[..].as_ref()) {
        ("i", &[outer, label]) => Some(i_bit(outer, label)),
        ("h", &[label, name]) => Some(h_bit(label, name)),
        ("s", &[label]) => Some(s_bit(label)),
        _ => None,
    }
}

/// The least table by clingo, and the time it took.
fn ask(itinerary: &[u8], policy: &[u8]) -> io::Result<(Vec<u8>, Duration)> {
    let rules = concat!(env!("CARGO_MANIFEST_DIR"), "/rules.lp");
    let start = Instant::now();
    let mut command = Command::new("clingo");
    command.args(["--verbose=0", rules, "-"]).stdin(Stdio::piped()).stdout(Stdio::piped());
    let mut child = command.spawn()?;
    if let Some(mut input) = child.stdin.take() {
        input.write_all(facts(itinerary, policy).as_bytes())?;
    }
    let output = child.wait_with_output()?;
    let time = start.elapsed();
    let text = String::from_utf8_lossy(&output.stdout).into_owned();
    let mut table = Table::empty();
    text.lines().next().unwrap_or("").split_whitespace().filter_map(bit).for_each(|bit| table.set(bit));
    Ok((table.bytes.to_vec(), time))
}

/// The library's table, and the time it took.
fn make(itinerary: &[u8], policy: &[u8]) -> (Vec<u8>, Duration) {
    let mut table = vec![0; TABLE_LENGTH];
    let start = Instant::now();
    birnsket::make(itinerary, policy, &mut table).expect("a good itinerary");
    (table, start.elapsed())
}

fn compare(itinerary: &[u8], policy: &[u8]) -> io::Result<(Duration, Duration)> {
    let (wanted, slow) = ask(itinerary, policy)?;
    let (made, fast) = make(itinerary, policy);
    assert!(made == wanted, "the tables differ for {}", facts(itinerary, policy));
    Ok((fast, slow))
}

/// The median in seconds.
fn median(mut times: Vec<Duration>) -> f64 {
    times.sort_unstable();
    times[times.len() / 2].as_secs_f64()
}

fn compare_all(seed: u64, count: usize) -> io::Result<()> {
    let mut random = Random::new(seed);
    for place in 0..count {
        let mix = match place % 3 {
            0 => Mix::small(&mut random),
            1 => Mix::lively(&mut random),
            _ => Mix::medium(&mut random),
        };
        let (drawn, relabel) = (tree(&mut random, &mix), Relabel::draw(&mut random));
        let policy = relabel.policy(&policies::telling(&mut random, &drawn));
        compare(&relabel.itinerary(&drawn).bytes(), &policy)?;
    }
    println!("clingo and the maker give the same table for {count} random itineraries.\n");
    println!("| least table of | library, first call | library | clingo | times as fast |");
    println!("|---|---:|---:|---:|---:|");
    for (name, lent) in inputs::for_tables() {
        let (first, slow) = compare(&lent.itinerary, &lent.policy)?;
        let more = if slow < FEW { CALLS } else { 0 };
        let again = (0..more).map(|_| Ok(compare(&lent.itinerary, &lent.policy)?.1));
        let slow = median(again.chain([Ok(slow)]).collect::<io::Result<_>>()?);
        let fast = median((0..MANY).map(|_| make(&lent.itinerary, &lent.policy).1).collect());
        let times = grouped((slow / fast) as u64);
        let (first, fast) = (short(first.as_secs_f64() * 1e6), short(fast * 1e6));
        println!("| {name} | {first} µs | {fast} µs | {} ms | {times} |", short(slow * 1e3));
    }
    Ok(())
}

/// Compares and prints; says so where clingo isn't installed.
pub fn print(seed: u64, count: usize) {
    match compare_all(seed, count) {
        Err(error) if error.kind() == io::ErrorKind::NotFound => println!("clingo: not installed"),
        Err(error) => println!("clingo: {error}"),
        Ok(()) => {}
    }
}
