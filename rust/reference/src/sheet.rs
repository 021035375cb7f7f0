//! Document 01, "Day sheet", and document 02, N1: what the listing program prints for two files.

use crate::tables::Tables;
use crate::verdict::{read_order, walk, Verdict};
use crate::{rule, tables, Answer};

/// The most bytes of rules that are listed.
pub const LONGEST: usize = 32_768;

/// The one line of longer rules.
pub const TOO_LONG: &str = "rules too long";

/// The sheet for the bytes of `tables.bin` and `rules.txt`.
pub fn sheet(tables: &[u8], rules: &[u8]) -> String {
    let lines = match tables::read(tables) {
        Err(number) => vec![format!("tables refused {number}")],
        Ok(tables) => listed(&tables, rules),
    };
    lines.iter().map(|line| line.to_string() + "\n").collect()
}

/// The lines of the sheet of accepted tables, the total among them, each without byte 10.
pub fn listed(tables: &Tables, rules: &[u8]) -> Vec<String> {
    if rules.len() > LONGEST {
        return vec![TOO_LONG.to_string()];
    }
    let texts = lines(rules);
    let judged = texts.iter().map(|text| judged(tables, text));
    let mut lines: Vec<String> = judged.zip(1..).map(|(v, place)| line(place, v)).collect();
    lines.push(total(&lines));
    lines
}

/// "Print a last line `total L held H idle I broken B refused R`. L is the number of lines; each
/// other number is how many lines above carry that word."
pub fn total(lines: &[String]) -> String {
    let carrying = |word: &str| {
        let carries = |line: &&String| line.split_whitespace().nth(1) == Some(word);
        lines.iter().filter(carries).count()
    };
    let words = ["held", "idle", "broken", "refused"];
    let counts = words.map(|word| format!(" {word} {}", carrying(word)));
    format!("total {}{}", lines.len(), counts.concat())
}

/// The lines of a file; nothing after a final byte 10 is no line.
pub fn lines(file: &[u8]) -> Vec<&[u8]> {
    let mut lines: Vec<&[u8]> = file.split(|&byte| byte == b'\n').collect();
    if lines.last().is_some_and(|last| last.is_empty()) {
        lines.pop();
    }
    lines
}

/// The verdict in the order 1, 2, ..
fn judged(tables: &Tables, text: &[u8]) -> Answer<Verdict> {
    let rule = rule::read(text)?;
    let order: Vec<u8> = (1..=rule.variables.len() as u8).collect();
    let order = read_order(&rule, &order)?;
    Ok(walk(tables, &rule, &order))
}

/// The line of a rule, from its place, counted from 1, and its verdict.
pub fn line(place: usize, answer: Answer<Verdict>) -> String {
    let verdict = match answer {
        Err(number) => return format!("{place} refused {number}"),
        Ok(verdict) => verdict,
    };
    let word = ["held", "idle", "broken"][verdict.word() as usize];
    let share = match verdict.share() {
        255 => "-".to_string(),
        share => share.to_string(),
    };
    let mut line = format!(
        "{place} {word} {} {} {share}",
        verdict.full, verdict.breaking
    );
    for (number, item) in verdict
        .first
        .iter()
        .enumerate()
        .filter(|(_, &item)| item != 255)
    {
        line += &format!(" v{}={item}", number + 1);
    }
    line
}
