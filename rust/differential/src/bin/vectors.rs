//! Holds the proved library and the reference to vectors: `vectors PATH..`, each a file `NAME.in`
//! with one command to a line, beside which `NAME.out` has the answer to each, or a folder of such
//! files. It fails on any difference, and where a file is missing or empty. Of verdicts on more choices than
//! the reference can try, the library alone is asked, and it says how many these are.

use std::path::{Path, PathBuf};
use std::{env, fs, process};

use differential::vectors::{hold, Held};

/// How many differences of a file are printed.
const PRINTED: usize = 10;

fn main() {
    let paths: Vec<PathBuf> = env::args_os().skip(1).map(PathBuf::from).collect();
    if paths.is_empty() {
        eprintln!("vectors PATH.., each a folder or a file NAME.in");
        process::exit(2);
    }
    let mut failed = false;
    for path in &paths {
        match files(path) {
            Ok(files) => failed |= files.iter().filter(|file| !held(file)).count() > 0,
            Err(message) => {
                println!("{}: {message}", path.display());
                failed = true;
            }
        }
    }
    process::exit(i32::from(failed));
}

/// The files of commands: the path itself, or those of the folder that it is, in order. Answers
/// without their commands are a fault too.
fn files(path: &Path) -> Result<Vec<PathBuf>, String> {
    if !path.is_dir() {
        return Ok(vec![path.to_path_buf()]);
    }
    let mut files = Vec::new();
    for entry in fs::read_dir(path).map_err(|error| error.to_string())? {
        let file = entry.map_err(|error| error.to_string())?.path();
        let extension = file.extension().and_then(|extension| extension.to_str());
        if matches!(extension, Some("in" | "out")) {
            files.push(file.with_extension("in"));
        }
    }
    files.sort();
    files.dedup();
    match files.is_empty() {
        true => Err("no file of commands in this folder".to_string()),
        false => Ok(files),
    }
}

/// Whether all who are asked answer a file's commands as its answers say. Says what they do otherwise.
fn held(commands: &Path) -> bool {
    let name = commands.display();
    let (texts, answers) = (fs::read(commands), fs::read(commands.with_extension("out")));
    let (texts, answers) = match (texts, answers) {
        (Ok(texts), Ok(answers)) => (texts, answers),
        (Err(error), _) => {
            println!("{name}: {error}");
            return false;
        }
        (_, Err(error)) => {
            println!("{name}: its answers: {error}");
            return false;
        }
    };
    match hold(&texts, &answers) {
        Ok(Held { lines, alone }) => {
            let alone = match alone {
                0 => String::new(),
                _ => format!(", {alone} of them by the library alone"),
            };
            println!("{name}: {lines} lines, as expected{alone}");
            true
        }
        Err(faults) => {
            for fault in faults.iter().take(PRINTED) {
                println!("{name}: {fault}");
            }
            println!("{name}: {} faults", faults.len());
            false
        }
    }
}
