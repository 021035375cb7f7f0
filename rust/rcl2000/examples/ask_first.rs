//! Asks before judging: for each rule of a folder the ceiling on its full choices and the longest wait, then
//! the verdict, where the wait is short or the person says so.
//!
//! `ask_first [FOLDER [SECONDS]]`, where the folder has `tables.bin` and `rules.txt`. Above so many seconds,
//! 1 unless given, it asks on standard error and judges where standard input says `y`; no answer is a no.

use std::error::Error;
use std::path::Path;
use std::time::Duration;
use std::{env, fs, io};

use rcl2000::{forecast, judge_in_turn, Refusal};

/// The slowest full choice that was measured (docs/BENCHMARKS.md). Most take a tenth of it or less.
const PER_CHOICE: Duration = Duration::from_micros(2);

/// The longest wait that nobody is asked about, unless another is given.
const PATIENCE: Duration = Duration::from_secs(1);

/// The seconds of longer units, the longest first.
const UNITS: [(u64, &str); 3] = [(86_400, "days"), (3_600, "hours"), (60, "minutes")];

fn main() -> Result<(), Box<dyn Error>> {
    let mut words = env::args_os().skip(1);
    let here = Path::new(env!("CARGO_MANIFEST_DIR"));
    let folder = words
        .next()
        .map_or(here.join("../../samples/closing"), Into::into);
    let patience = match words.next().map(|word| word.to_string_lossy().parse()) {
        Some(seconds) => Duration::try_from_secs_f64(seconds?)?,
        None => PATIENCE,
    };
    let tables = fs::read(folder.join("tables.bin"))?;
    let rules = fs::read_to_string(folder.join("rules.txt"))?;
    for (place, rule) in rules.split_terminator('\n').enumerate() {
        match line(&tables, rule, patience) {
            Ok(line) => println!("{} {line}", place + 1),
            Err(refusal) => println!("{} refused {}", place + 1, refusal.number()),
        }
    }
    Ok(())
}

/// What is told of a rule, and then its verdict or that it was not judged.
fn line(tables: &[u8], rule: &str, patience: Duration) -> Result<String, Refusal> {
    let told = forecast(tables, rule.as_bytes())?;
    let wait = told.at_most(PER_CHOICE);
    let told = format!("at most {} choices, {}", told.ceiling, shown(wait));
    if wait > patience && !wanted(rule, &told) {
        return Ok(format!("{told}: not judged"));
    }
    let verdict = judge_in_turn(tables, rule.as_bytes())?;
    Ok(format!("{told}: {verdict}"))
}

/// Whether the person wants to wait.
fn wanted(rule: &str, told: &str) -> bool {
    eprint!("{rule}\n{told}: judge it (y)? ");
    let mut said = String::new();
    io::stdin().read_line(&mut said).is_ok() && said.trim() == "y"
}

/// A wait in the longest unit of which it has two, rounded up.
fn shown(wait: Duration) -> String {
    let unit = UNITS.iter().find(|(unit, _)| wait.as_secs() / unit >= 2);
    match unit {
        Some((unit, name)) => format!("{} {name}", 1 + wait.as_secs() / unit),
        None => format!("{wait:?}"),
    }
}
