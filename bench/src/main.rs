//! Times the library beside the same algorithms in plain Rust, measures its stack,
//! counts instructions of verdict and exposed, and compares its least tables with
//! clingo's.

mod clock;
mod figures;
mod inputs;
mod instructions;
mod oracle;
mod plain;
mod rows;
mod shapes;
mod stack;
mod timing;

use std::process::ExitCode;

const SEED: u64 = 1;
const COUNT: usize = 300;

fn main() -> ExitCode {
    let words: Vec<String> = std::env::args().skip(1).collect();
    let words: Vec<&str> = words.iter().map(String::as_str).collect();
    let mut kept = true;
    match words[..] {
        ["time"] => {
            rows::print();
            println!();
            rows::print_file_order();
            println!();
            kept = rows::print_moves();
            println!();
            kept &= rows::print_joins();
            println!();
            kept &= rows::print_copies();
        }
        ["moves"] => kept = rows::print_moves(),
        ["joins"] => kept = rows::print_joins(),
        ["copies"] => kept = rows::print_copies(),
        ["order"] => rows::print_file_order(),
        ["stack"] => kept = stack::print(),
        ["instructions"] => kept = instructions::print(),
        // What valgrind runs.
        ["call", input, call] => kept = instructions::call(input, call),
        ["clingo"] => oracle::print(SEED, COUNT),
        [] => {
            rows::print();
            println!();
            rows::print_file_order();
            println!();
            kept = rows::print_moves();
            println!();
            kept &= rows::print_joins();
            println!();
            kept &= rows::print_copies();
            println!();
            kept &= stack::print();
            println!();
            kept &= instructions::print();
            println!();
            oracle::print(SEED, COUNT);
        }
        _ => {
            eprintln!("usage: bench [time|order|moves|joins|copies|stack|instructions|clingo]");
            return ExitCode::from(2);
        }
    }
    if kept {
        ExitCode::SUCCESS
    } else {
        ExitCode::FAILURE
    }
}
