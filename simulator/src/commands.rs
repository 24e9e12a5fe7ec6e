//! Reads the arguments and does one command. `Ok(false)` means that what the
//! command looks for was not as wanted; an error is about arguments or files, or
//! says that nothing was compared.

use simulator::hub;
use simulator::law::Law;
use simulator::replay::{self, counts::Counts, player, Section, Size, SECTIONS};
use simulator::secrecy::search::{search, Draw};
use simulator::secrecy::{copying, files::faults, pairs, sets, text, text::Stored, Case};
use simulator::term;
use std::fs;
use std::path::Path;

type Result<T> = std::result::Result<T, String>;

const USAGE: &str = "usage: simulator COMMAND
  cases --seed N --out DIR [--calls itinerary|table|screen|moves|join|copy] [--sample]
  cases --seed N --check DIR [--calls itinerary|table|screen|moves|join|copy] [--sample]
  play [--change NAME] FILE...
  reducts --seed N --count M
  secrecy --seed N --count M [--copying|--joined]
  hunt --change NAME --seed N --count M [--copying] [--out DIR]
  replay DIR
  hub DIR";

pub fn run(arguments: &[String]) -> Result<bool> {
    let (command, rest) = arguments.split_first().ok_or(USAGE)?;
    let options = Options::read(rest)?;
    match command.as_str() {
        "cases" => cases(&options),
        "play" => play(&options),
        "reducts" => reducts(&options),
        "secrecy" => secrecy(&options),
        "hunt" => hunt(&options),
        "replay" => replay_folder(&options),
        "hub" => hub_listing(&options),
        _ => Err(USAGE.to_string()),
    }
}

/// `--name value` pairs, flags without a value, and the words between them.
struct Options {
    pairs: Vec<(String, String)>,
    words: Vec<String>,
}

const FLAGS: [&str; 3] = ["--sample", "--copying", "--joined"];

impl Options {
    fn read(arguments: &[String]) -> Result<Options> {
        let mut options = Options { pairs: Vec::new(), words: Vec::new() };
        let mut rest = arguments.iter();
        while let Some(argument) = rest.next() {
            if FLAGS.contains(&argument.as_str()) {
                options.pairs.push((argument.clone(), String::new()));
            } else if argument.starts_with("--") {
                let value = rest.next().ok_or(format!("{argument} needs a value"))?;
                options.pairs.push((argument.clone(), value.clone()));
            } else {
                options.words.push(argument.clone());
            }
        }
        Ok(options)
    }

    fn get(&self, name: &str) -> Option<&str> {
        self.pairs.iter().find(|(known, _)| known == name).map(|(_, value)| value.as_str())
    }

    fn number(&self, name: &str) -> Result<u64> {
        let value = self.get(name).ok_or(format!("{name} is missing"))?;
        value.parse().map_err(|_| format!("{name} {value} is no number"))
    }

    fn word(&self) -> Result<&str> {
        self.words.first().map(String::as_str).ok_or(USAGE.to_string())
    }

    fn size(&self) -> Size {
        if self.get("--sample").is_some() {
            Size::Sample
        } else {
            Size::Whole
        }
    }

    /// The sections asked for; all if none is named.
    fn sections(&self) -> Result<Vec<Section>> {
        let name = self.get("--calls");
        let chosen: Vec<Section> =
            SECTIONS.into_iter().filter(|section| name.is_none_or(|name| name == section.0)).collect();
        if chosen.is_empty() {
            Err(USAGE.to_string())
        } else {
            Ok(chosen)
        }
    }
}

fn cases(options: &Options) -> Result<bool> {
    let seed = options.number("--seed")?;
    let mut good = true;
    for section in options.sections()? {
        let (bytes, counts) = replay::file(&section, seed, options.size());
        let file = format!("{}.cases", section.0);
        good &= match (options.get("--out"), options.get("--check")) {
            (Some(folder), None) => write_file(folder, &file, &bytes)?,
            (None, Some(folder)) => unchanged(folder, &file, &bytes),
            _ => return Err(USAGE.to_string()),
        };
        eprintln!("{file}: {} bytes, {} calls", bytes.len(), counts.calls());
        good &= told(&section, &counts, options.size());
    }
    Ok(good)
}

fn write_file(folder: &str, file: &str, bytes: &[u8]) -> Result<bool> {
    fs::create_dir_all(folder).map_err(|problem| format!("{folder}: {problem}"))?;
    fs::write(Path::new(folder).join(file), bytes).map_err(|problem| format!("{file}: {problem}"))?;
    Ok(true)
}

fn unchanged(folder: &str, file: &str, bytes: &[u8]) -> bool {
    let same = fs::read(Path::new(folder).join(file)).is_ok_and(|stored| stored == bytes);
    println!("{file}: {}", if same { "unchanged" } else { "changed or missing" });
    same
}

/// Prints the counts; a whole file must reach every answer there is.
fn told(section: &Section, counts: &Counts, size: Size) -> bool {
    for line in counts.lines() {
        eprintln!("  {line}");
    }
    let missing = counts.missing(section.2);
    for answer in &missing {
        eprintln!("  never reached: {answer}");
    }
    missing.is_empty() || size == Size::Sample
}

fn change(options: &Options) -> Result<Law> {
    match options.get("--change") {
        None => Ok(Law::Document),
        Some(name) => Law::change(name).ok_or(format!("no change is called {name}")),
    }
}

/// A run that compared nothing must not pass for one that found no difference.
fn compared(something: bool, what: &str) -> Result<()> {
    if something {
        Ok(())
    } else {
        Err(format!("nothing was compared: {what}"))
    }
}

fn play(options: &Options) -> Result<bool> {
    let law = change(options)?;
    compared(!options.words.is_empty(), "no file is named")?;
    let mut good = true;
    for name in &options.words {
        let file = fs::read(name).map_err(|problem| format!("{name}: {problem}"))?;
        match player::play(law, &file) {
            Ok(calls) => {
                println!("{name}: {calls} calls as expected");
                compared(calls > 0, &format!("{name} has no calls"))?;
            }
            Err(difference) => {
                println!("{name}: {difference}");
                good = false;
            }
        }
    }
    Ok(good)
}

fn reducts(options: &Options) -> Result<bool> {
    let sets = term::compare(options.number("--seed")?, options.number("--count")?);
    println!(
        "{} cases, {} of them with reducts, {} reducts and {} unfoldings compared, {} cases different",
        sets.cases, sets.with_some, sets.reducts, sets.unfoldings, sets.different
    );
    compared(sets.reducts > 0, "no itinerary had a reduct")?;
    compared(sets.unfoldings > 0, "no itinerary had a replication to unfold")?;
    Ok(sets.different == 0)
}

/// Which pairs are drawn.
fn draw(options: &Options) -> Draw {
    match (options.get("--joined"), options.get("--copying")) {
        (Some(_), _) => sets::draw,
        (_, Some(_)) => copying::draw,
        _ => pairs::draw,
    }
}

/// Under the document's law no counterexample may be found, neither of one itinerary each nor of a joined set.
fn secrecy(options: &Options) -> Result<bool> {
    let (seed, count) = (options.number("--seed")?, options.number("--count")?);
    let (found, tally) = search(Law::Document, draw(options), seed, count);
    println!("{}", tally.line());
    if let Some(case) = &found {
        print!("{}", text::print(&stored(Law::Document, case)));
    }
    compared(tally.supposed > 0, "no pair was as supposed")?;
    compared(tally.different > 0, "each pair as supposed was of two equal itineraries")?;
    compared(tally.steps > 0, "no pair as supposed had a step")?;
    let copied = options.get("--copying").is_none() || tally.copies > 0;
    compared(copied, "no copy was done in a pair as supposed")?;
    Ok(found.is_none())
}

/// Under a changed law one is looked for, and the smallest printed or stored.
fn hunt(options: &Options) -> Result<bool> {
    let law = change(options)?;
    if law == Law::Document {
        return Err("--change is missing".to_string());
    }
    let (found, tally) = search(law, draw(options), options.number("--seed")?, options.number("--count")?);
    eprintln!("{}", tally.line());
    let Some(case) = found else { return Ok(false) };
    let text = text::print(&stored(law, &case));
    match options.get("--out") {
        Some(folder) => write_file(folder, &format!("{}.txt", law.name()), text.as_bytes()),
        None => {
            print!("{text}");
            Ok(true)
        }
    }
}

fn stored(law: Law, case: &Case) -> Stored {
    let part = case.false_parts(law).first().copied().unwrap_or(0);
    Stored { law, part, case: case.clone() }
}

/// Every stored counterexample of the folder, in the order of names.
fn replay_folder(options: &Options) -> Result<bool> {
    let folder = options.word()?;
    let entries = fs::read_dir(folder).map_err(|problem| format!("{folder}: {problem}"))?;
    let mut paths: Vec<_> = entries.flatten().map(|entry| entry.path()).collect();
    paths.retain(|path| path.extension().is_some_and(|extension| extension == "txt"));
    paths.sort();
    compared(!paths.is_empty(), &format!("{folder} has no counterexample"))?;
    let mut good = true;
    for path in paths {
        let name = path.file_stem().unwrap_or_default().to_string_lossy().into_owned();
        let content = fs::read_to_string(&path).map_err(|problem| format!("{name}: {problem}"))?;
        let stored = text::read(&content).map_err(|problem| format!("{name}: {problem}"))?;
        let faults = faults(&stored);
        good &= faults.is_empty() && stored.law.name() == name;
        let told = if faults.is_empty() { "stands".to_string() } else { faults.join("; ") };
        println!("{name}: part {} false, {told}", stored.part);
    }
    Ok(good)
}

fn hub_listing(options: &Options) -> Result<bool> {
    let folder = Path::new(options.word()?);
    let content = |name: &str| fs::read(folder.join(name)).unwrap_or_default();
    print!("{}", hub::listing(&content("itinerary.bin"), &content("policy.bin"), &content("script.bin")));
    Ok(true)
}
