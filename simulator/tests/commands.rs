//! A command that compared nothing fails, and says so.

use std::fs;
use std::process::{Command, Output};

fn simulator(arguments: &str) -> Output {
    let mut command = Command::new(env!("CARGO_BIN_EXE_simulator"));
    command.args(arguments.split_whitespace()).output().unwrap()
}

fn compares_nothing(arguments: &str) -> bool {
    let output = simulator(arguments);
    let told = String::from_utf8_lossy(&output.stderr).starts_with("nothing was compared: ");
    told && !output.status.success()
}

#[test]
fn runs_that_compare_nothing_fail() {
    for arguments in ["secrecy --seed 1 --count 0", "reducts --seed 1 --count 0", "play", "replay src"] {
        assert!(compares_nothing(arguments), "{arguments}");
    }
}

#[test]
fn a_replay_file_without_calls_fails() {
    let path = std::env::temp_dir().join(format!("no_calls_{}.cases", std::process::id()));
    fs::write(&path, b"case\x03\0\0\0\0\0\0").unwrap();
    let failed = compares_nothing(&format!("play {}", path.display()));
    fs::remove_file(&path).unwrap();
    assert!(failed);
}

#[test]
fn a_secrecy_run_without_a_pair_as_supposed_fails() {
    let unlucky = |seed: &u64| {
        let output = simulator(&format!("secrecy --seed {seed} --count 1"));
        String::from_utf8_lossy(&output.stdout).contains(" 0 as supposed,")
    };
    let seed = (1..1000).find(unlucky).unwrap();
    assert!(compares_nothing(&format!("secrecy --seed {seed} --count 1")));
}

#[test]
fn runs_that_compare_something_pass() {
    for arguments in [
        "secrecy --seed 1 --count 300",
        "secrecy --seed 1 --count 300 --copying",
        "secrecy --seed 1 --count 300 --joined",
        "reducts --seed 1 --count 50",
        "replay counterexamples",
    ] {
        assert!(simulator(arguments).status.success(), "{arguments}");
    }
}
