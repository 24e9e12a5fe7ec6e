//! What the programs have to write, and whether they do.

use crate::running::Runs;
use crate::text;
use fuzz::buffers::{hex, Buffers};
use simulator::hub;
use simulator::random::Random;
use simulator::record::Itinerary;
use simulator::table::{hidden, Table, TABLE_LENGTH};
use std::process::Output;

/// What `hubtext` writes to standard output on a fault: a byte, which is no itinerary.
pub const ON_FAULT: &[u8] = b"\0";

fn shown(bytes: &[u8]) -> String {
    let first = &bytes[..bytes.len().min(2000)];
    format!("{} ({} bytes)", first.escape_ascii(), bytes.len())
}

/// Standard output as wanted, nothing on standard error, and a good end.
fn wrote(program: &str, output: &Output, wanted: &[u8]) -> Result<(), String> {
    if output.stdout != wanted {
        return Err(format!("{program} wrote {}\n  not {}", shown(&output.stdout), shown(wanted)));
    }
    if !output.stderr.is_empty() {
        return Err(format!("{program} wrote to standard error: {}", shown(&output.stderr)));
    }
    if !output.status.success() {
        return Err(format!("{program} ended with {}", output.status));
    }
    Ok(())
}

/// As many lines as starts, each with more after its start, in whatever words.
fn lines_start(errors: &[u8], starts: &[String]) -> bool {
    let lines: Vec<&[u8]> = errors.split_inclusive(|&byte| byte == b'\n').collect();
    let right = |(line, start): (&&[u8], &String)| {
        line.starts_with(start.as_bytes()) && line.ends_with(b"\n") && line.len() > start.len() + 1
    };
    lines.len() == starts.len() && lines.iter().zip(starts).all(right)
}

/// One line that names the line of the fault, in whatever words.
fn names_line(errors: &[u8], line: usize) -> bool {
    lines_start(errors, &[format!("line {line}: ")])
}

/// Nothing on standard output, and lines with these starts on standard error.
fn told(program: &str, output: &Output, starts: &[String]) -> Result<(), String> {
    let instead: &[u8] = if program == "hubshow" { b"?" } else { b"" };
    if output.stdout == instead && lines_start(&output.stderr, starts) && output.status.success() {
        return Ok(());
    }
    let (stdout, stderr) = (shown(&output.stdout), shown(&output.stderr));
    Err(format!("{program} wrote {stdout} and to standard error {stderr}\n  not {instead:?} and {starts:?}"))
}

/// Text to bytes, and back if there is no fault; says whether there is one.
pub fn compare_text(runs: &Runs, text: &[u8]) -> Result<bool, String> {
    runs.put("itinerary.txt", Some(text))?;
    let output = runs.run("hubtext")?;
    match text::read(text) {
        Ok(bytes) => {
            wrote("hubtext", &output, &bytes)?;
            runs.put("itinerary.bin", Some(&output.stdout))?;
            wrote("hubshow", &runs.run("hubshow")?, text)?;
            Ok(false)
        }
        Err(line) => {
            // A program may stop to read where no text can be right any more, and name the line there.
            let other = text.len() > text::LONGEST && (1..line).any(|line| names_line(&output.stderr, line));
            let told = names_line(&output.stderr, line) || other;
            if told && output.stdout == ON_FAULT {
                return Ok(true);
            }
            let (stdout, stderr) = (shown(&output.stdout), shown(&output.stderr));
            Err(format!("a fault in line {line}, and hubtext wrote {stdout} and to standard error {stderr}"))
        }
    }
}

/// The files of the other programs; one that is none isn't there.
#[derive(Default)]
pub struct Bench {
    itinerary: Option<Vec<u8>>,
    policy: Option<Vec<u8>>,
    script: Option<Vec<u8>>,
}

impl std::fmt::Debug for Bench {
    fn fmt(&self, to: &mut std::fmt::Formatter) -> std::fmt::Result {
        let file = |content: &Option<Vec<u8>>| content.as_deref().map_or("no file".to_string(), hex);
        let (itinerary, policy, script) = (file(&self.itinerary), file(&self.policy), file(&self.script));
        write!(to, "itinerary {itinerary}\npolicy {policy}\nscript {script}")
    }
}

impl Bench {
    pub fn draw(random: &mut Random, buffers: Buffers) -> Bench {
        let mut file = |content: Vec<u8>| (!random.chance(3)).then_some(content);
        Bench {
            itinerary: file(buffers.itinerary),
            policy: file(buffers.policy),
            script: file(buffers.script),
        }
    }
}

/// Answers that a run has to meet, as `compare_bench` gives them.
pub const ANSWERS: [&str; 11] = [
    "hubscreen exposed",
    "hubscreen hinted",
    "hubscreen sealed",
    "hubscreen refused",
    "hubshow no file",
    "hubshow refused",
    "hubshow text",
    "hublist no file",
    "hublist refused",
    "hublist text",
    "hublist hidden",
];

/// What a program has to write: a text, or lines with these starts on standard error, and beside them nothing (hublist) or a
/// question mark, which is no text (hubshow).
enum Wanted {
    Text(String),
    Told(Vec<String>),
}

impl Wanted {
    fn compare(&self, program: &str, output: &Output) -> Result<(), String> {
        match self {
            Wanted::Text(text) => wrote(program, output, text.as_bytes()),
            Wanted::Told(starts) => told(program, output, starts),
        }
    }
}

/// The number, and the record if there is one.
fn refusal(program: &str, answer: &simulator::Answer) -> Wanted {
    let record = if answer.record == 0 { String::new() } else { format!(" at record {}", answer.record) };
    Wanted::Told(vec![format!("{program}: refused {}{record}: ", answer.number)])
}

/// What is told of the files that aren't there, if any.
fn missing(files: &[(&str, &Option<Vec<u8>>)]) -> Option<Wanted> {
    let absent = files.iter().filter(|(_, content)| content.is_none());
    let starts: Vec<String> = absent.map(|(file, _)| format!("{file}: ")).collect();
    (!starts.is_empty()).then_some(Wanted::Told(starts))
}

/// The text, or the refusal.
fn show(itinerary: &[u8]) -> (Wanted, &'static str) {
    match Itinerary::read(itinerary) {
        Ok(read) => (Wanted::Text(text::write(&read)), "hubshow text"),
        Err(_) => (refusal("hubshow", &simulator::validate(itinerary)), "hubshow refused"),
    }
}

/// The tree with the marks of the made table, or the maker's refusal.
fn list(itinerary: &[u8], policy: &[u8]) -> (Wanted, &'static str) {
    let mut table = Table { bytes: [0; TABLE_LENGTH] };
    let answer = simulator::maker(itinerary, policy, &mut table.bytes);
    let refused = || (refusal("hublist", &answer), "hublist refused");
    let Ok(read) = Itinerary::read(itinerary) else { return refused() };
    if answer.number != 0 {
        return refused();
    }
    let listed = text::list(&read, &|number| hidden(&read, &table, number));
    let marked = listed.contains("hidden");
    (Wanted::Text(listed), if marked { "hublist hidden" } else { "hublist text" })
}

/// Runs the three programs; says in a word what each answered.
pub fn compare_bench(runs: &Runs, bench: &Bench) -> Result<Vec<String>, String> {
    let Bench { itinerary, policy, script } = bench;
    for (file, content) in [("itinerary.bin", itinerary), ("policy.bin", policy), ("script.bin", script)] {
        runs.put(file, content.as_deref())?;
    }
    let unshown = missing(&[("itinerary.bin", itinerary)]);
    let unlisted = missing(&[("itinerary.bin", itinerary), ("policy.bin", policy)]);
    let [itinerary, policy, script] =
        [itinerary, policy, script].map(|file| file.as_deref().unwrap_or_default());
    let listing = hub::listing(itinerary, policy, script);
    wrote("hubscreen", &runs.run("hubscreen")?, listing.as_bytes())?;
    let (text, text_answer) = unshown.map_or_else(|| show(itinerary), |told| (told, "hubshow no file"));
    text.compare("hubshow", &runs.run("hubshow")?)?;
    let (list, list_answer) =
        unlisted.map_or_else(|| list(itinerary, policy), |told| (told, "hublist no file"));
    list.compare("hublist", &runs.run("hublist")?)?;
    let first = listing.split(' ').next().unwrap_or_default();
    Ok(vec![format!("hubscreen {first}"), text_answer.to_string(), list_answer.to_string()])
}
