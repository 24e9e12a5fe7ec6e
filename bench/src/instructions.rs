//! How many instructions verdict and exposed take after the check: valgrind's callgrind
//! counts those of one call of each, made by this program itself.

use crate::figures::grouped;
use crate::inputs::{self, Lent};
use simulator::generate::examples::{in_parallel, nested};
use simulator::generate::policies;
use std::io;
use std::process::Command;

/// What is known of an input before it is counted.
#[derive(Clone, Copy, PartialEq, Eq)]
enum Sort {
    /// No high label is reached, so that all of R is to be seen.
    Sealed,
    /// A high label stands in the environment, among many others.
    InRowZero,
    /// Neither; for comparison.
    Other,
}

impl Sort {
    /// The most that exposed may take, verdict being 1.
    fn limit(self) -> f64 {
        match self {
            Sort::Sealed => 1.1,
            Sort::InRowZero => 0.25,
            Sort::Other => f64::INFINITY,
        }
    }
}

struct Input {
    name: &'static str,
    sort: Sort,
    lent: Lent,
}

fn input(name: &'static str, sort: Sort, itinerary: &[u8], high: &[u8], boundaries: &[u8]) -> Input {
    Input { name, sort, lent: Lent::under(itinerary, &policies::of(high, boundaries)) }
}

/// The labels side by side in the environment, but for the last, which is in the first.
fn last_in_first(labels: &[u8]) -> Vec<u8> {
    let mut itinerary = in_parallel(labels);
    if let Some(last) = itinerary.records.last_mut() {
        last.parent = 1;
    }
    itinerary.bytes()
}

fn all() -> Vec<Input> {
    let labels: Vec<u8> = (1..64).collect();
    let (beside, chain) = (in_parallel(&labels).bytes(), nested(&labels).bytes());
    let (inside, small) = (last_in_first(&labels), last_in_first(&[1, 2, 3, 4, 9]));
    let two = in_parallel(&[1, 2]).bytes();
    let [random, dense] = [inputs::random(), inputs::dense()].map(|several| several[0].itinerary.clone());
    vec![
        input("63 labels in the environment, none high", Sort::Sealed, &beside, &[], &[]),
        input("62 labels there, 63 high in boundary 1", Sort::Sealed, &inside, &[63], &[1]),
        input("chain of 63 labels, none high", Sort::Sealed, &chain, &[], &[]),
        input("random, 1,024 records, none high", Sort::Sealed, &random, &[], &[]),
        input("dense, 1,024 records, none high", Sort::Sealed, &dense, &[], &[]),
        input("five records, 9 high in boundary 1", Sort::Sealed, &small, &[9], &[1]),
        input("63 labels in the environment, 1 high", Sort::InRowZero, &beside, &[1], &[]),
        input("63 labels in the environment, 63 high", Sort::InRowZero, &beside, &[63], &[]),
        input("two records in the environment, 2 high", Sort::Other, &two, &[2], &[]),
        input("chain of 63 labels, the last high", Sort::Other, &chain, &[63], &[]),
    ]
}

const CALLS: [&str; 3] = ["check", "verdict", "exposed"];

/// Makes one call on the input of that place; says whether it was done.
pub fn call(input: &str, call: &str) -> bool {
    let place = input.parse::<usize>().ok();
    let Some(Input { lent: l, .. }) = place.and_then(|place| all().into_iter().nth(place)) else {
        return false;
    };
    match call {
        "check" => birnsket::check(&l.itinerary, &l.policy, &l.table).is_ok(),
        "verdict" => birnsket::verdict(&l.itinerary, &l.policy, &l.table).is_ok(),
        "exposed" => birnsket::exposed(&l.itinerary, &l.policy, &l.table).is_ok(),
        _ => false,
    }
}

/// The instructions between entering and leaving the call.
fn count(place: usize, call: &str) -> io::Result<u64> {
    let mut command = Command::new("valgrind");
    command.args(["--tool=callgrind", "--callgrind-out-file=/dev/null"]);
    command.arg(format!("--toggle-collect=hub_{call}")).arg(std::env::current_exe()?);
    let output = command.args(["call", &place.to_string(), call]).output()?;
    let told = String::from_utf8_lossy(&output.stderr);
    let collected = told.lines().find_map(|line| line.split_once("Collected : ")?.1.trim().parse().ok());
    match collected {
        Some(count) if count > 0 && output.status.success() => Ok(count),
        _ => Err(io::Error::other(format!("no count of {call}\n{told}"))),
    }
}

fn count_all() -> io::Result<bool> {
    Command::new("valgrind").arg("--version").output()?;
    println!("| input | verdict less check | exposed less check | ratio |\n|---|---:|---:|---:|");
    let mut kept = true;
    for (place, Input { name, sort, .. }) in all().iter().enumerate() {
        let [check, verdict, exposed] = CALLS.map(|call| count(place, call));
        let check = check?;
        let (verdict, exposed) = (verdict? - check, exposed? - check);
        let ratio = exposed as f64 / verdict as f64;
        let word = if ratio > sort.limit() { ", TOO MUCH" } else { "" };
        println!("| {name} | {} | {} | {ratio:.2}{word} |", grouped(verdict), grouped(exposed));
        kept &= ratio <= sort.limit();
    }
    Ok(kept)
}

/// Counts and prints; says so where valgrind isn't installed. Whether exposed takes no more than it may.
pub fn print() -> bool {
    match count_all() {
        Err(error) if error.kind() == io::ErrorKind::NotFound => println!("valgrind: not installed"),
        Err(error) => {
            println!("valgrind: {error}");
            return false;
        }
        Ok(kept) => return kept,
    }
    true
}

#[cfg(test)]
mod tests {
    use super::*;
    use birnsket::Verdict;

    #[test]
    fn each_input_is_of_its_sort() {
        for Input { name, sort, lent } in all() {
            let verdict = birnsket::verdict(&lent.itinerary, &lent.policy, &lent.table);
            let row = u64::from_le_bytes(lent.table[..8].try_into().unwrap());
            let high = (1..64).any(|k| row >> k & 1 == 1 && lent.policy[k] == 1);
            match sort {
                Sort::Sealed => assert_eq!(verdict, Ok(Verdict::Sealed), "{name}"),
                Sort::InRowZero => assert!(high && row.count_ones() == 63, "{name}"),
                Sort::Other => assert!(matches!(verdict, Ok(Verdict::Exposed(_))), "{name}"),
            }
        }
    }

    #[test]
    fn each_call_is_done() {
        assert!((0..all().len()).all(|place| CALLS.iter().all(|name| call(&place.to_string(), name))));
        assert!(!call(&all().len().to_string(), "check") && !call("0", "row"));
    }
}
