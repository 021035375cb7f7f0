//! Pages of rules: lines that choose alike, lines that almost do, and lines that are refused.

use rcl2000::MIN_TABLES;
use reference::rule::{self, Rule};
use reference::sheet::lines;
use reference::tables::Tables;
use reference::verdict::steps;

use crate::hold::Question;
use crate::random::Random;
use crate::{damage, rules, tables};

/// The most lines of a page that is not refused for their number.
const MOST: usize = 32;

/// Tables and a page whose walks have at most `limit` steps together, each now and then refused.
pub fn judged(random: &mut Random, most: usize, limit: u64) -> Question {
    let page = any(random);
    let rules: Vec<Rule> = lines(&page)
        .iter()
        .flat_map(|line| rule::read(line))
        .collect();
    let few = |tables: &[u8]| match reference::tables::read(tables) {
        Ok(read) => walked(&read, &rules) <= limit,
        Err(_) => true,
    };
    if random.once_in(12) {
        let tables = tables::any(random);
        if few(&tables) {
            return Question::judge_page(tables, page);
        }
    }
    let mut most = most;
    loop {
        let tables = match most {
            0 => vec![0; MIN_TABLES],
            _ => tables::accepted(random, most).bytes(),
        };
        if most == 0 || few(&tables) {
            return Question::judge_page(tables, page);
        }
        most = most.saturating_sub(1 + most / 8);
    }
}

/// A page of accepted lines with 5 to 8 variables, most of which choose alike, on an office's tables or
/// others, cut so that its walks have at most `limit` steps together.
pub fn repeated(random: &mut Random, limit: u64) -> Question {
    let count = random.between(2, MOST);
    let texts = alike(random, count, |random| rules::joined(random).into_bytes());
    let rules: Vec<Rule> = texts.iter().flat_map(|text| rule::read(text)).collect();
    let tables = tables::cut(random, |tables| walked(tables, &rules) <= limit);
    Question::judge_page(tables, texts.join(&b'\n'))
}

fn walked(tables: &Tables, rules: &[Rule]) -> u64 {
    rules.iter().map(|rule| steps(tables, rule)).sum()
}

/// A page of some sort: most often of accepted lines, with or without its last byte 10.
pub fn any(random: &mut Random) -> Vec<u8> {
    let count = match random.below(16) {
        0 => 0,
        1 => random.between(MOST - 1, MOST + 1),
        2 => random.between(1, MOST + 1),
        _ => random.between(1, 8),
    };
    let mut texts = alike(random, count, fresh);
    if random.once_in(3) {
        for _ in 0..random.between(1, 2) {
            spoil(random, &mut texts);
        }
    }
    let mut page = texts.join(&b'\n');
    // An empty last line is one only with its end.
    if random.once_in(2) || texts.last().is_some_and(Vec::is_empty) {
        page.push(b'\n');
    }
    page
}

/// The page of 32 bounds on one count, which ends in its sign.
pub fn bounds(count: &str) -> String {
    (0..MOST).map(|bound| format!("{count}{bound}\n")).collect()
}

/// So many accepted lines of which many choose alike: some rules, and changes of them.
fn alike(
    random: &mut Random,
    count: usize,
    fresh: impl Fn(&mut Random) -> Vec<u8>,
) -> Vec<Vec<u8>> {
    let first = random.between(1, 3);
    let mut texts: Vec<Vec<u8>> = Vec::new();
    while texts.len() < count {
        let text = match texts.len() < first || random.once_in(6) {
            true => fresh(random),
            false => {
                let before = random.pick(&texts).clone();
                changed(random, before)
            }
        };
        if rule::read(&text).is_ok() {
            texts.push(text);
        }
    }
    texts
}

fn fresh(random: &mut Random) -> Vec<u8> {
    match random.below(8) {
        0 => random.pick(&rules::PAPER).to_string(),
        1 => "|CR|=1".to_string(),
        2 => rules::at_limit(random),
        _ => rules::grown(random, 0),
    }
    .into_bytes()
}

/// A line near another: other numbers or signs in it, its clauses turned about, one more, or the
/// choices of one function changed for those of another.
fn changed(random: &mut Random, text: Vec<u8>) -> Vec<u8> {
    let text = String::from_utf8(text).expect("accepted rules are ASCII");
    let mut clauses: Vec<&str> = text.split('^').collect();
    let one = *random.pick(&clauses);
    let digit = random.below(10).to_string();
    match random.below(8) {
        0 => drop_digits(&text, &digit),
        1 => text.replace("<=", ">"),
        2 => text.replacen("!=", "=", 1),
        3 => {
            random.shuffle(&mut clauses);
            clauses.join("^")
        }
        4 => text.clone() + "^" + one,
        5 => one.to_string(),
        6 => text.replacen("roles(", "roles*(", 1),
        _ => text.replacen("OE(", "AO(", 1),
    }
    .into_bytes()
}

/// The text with one digit for each number.
fn drop_digits(text: &str, digit: &str) -> String {
    let mut out = String::new();
    let mut inside = false;
    for symbol in text.chars() {
        match symbol.is_ascii_digit() {
            true if !inside => out += digit,
            true => {}
            false => out.push(symbol),
        }
        inside = symbol.is_ascii_digit();
    }
    out
}

/// Makes a line at random one that is refused, most often.
fn spoil(random: &mut Random, texts: &mut [Vec<u8>]) {
    if texts.is_empty() {
        return;
    }
    let at = random.below(texts.len());
    let text = &mut texts[at];
    match random.below(6) {
        0 => text.clear(),
        1 => text.push(b'\r'),
        2 => *text = text.repeat(1 + 256 / text.len().max(1)),
        3 => *text = rules::grown(random, 4).into_bytes(),
        4 => *text = rules::at_limit(random).into_bytes(),
        _ => damage::text(random, text),
    }
}
