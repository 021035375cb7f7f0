//! Times the proved library beside the reference's fast modules, in the same run, pages, sessions that come and go
//! and readers' sheets beside calls of `judge`, and calls by their ceilings, and prints the tables of
//! docs/BENCHMARKS.md. `bench ROUNDS` sets how many rounds each median is of; `bench ROUNDS calls`, `pages`,
//! `sessions`, `readers` or `waits` prints that table alone.

mod pages;
mod readers;
mod sessions;
mod waits;

use std::hint::black_box;
use std::time::{Duration, Instant};

use differential::hold::Question;
use differential::orders;
use differential::random::Random;
use differential::rules::{COMMITTEE, DONE, PAPER};
use differential::subjects;
use differential::tables::{self, Plain};
use rcl2000::{Verdict, MAX_TABLES};

/// A round repeats a call until it has lasted this long.
const ROUND: Duration = Duration::from_millis(40);

/// A round for one of a row's other orders.
const SHORT_ROUND: Duration = Duration::from_millis(10);

/// How many admissible orders are tried at random for a row.
const ORDERS: u64 = 12;

/// Rounds of one row end once they have lasted this long.
const ROW: Duration = Duration::from_secs(2);

/// Where a rule has more full choices than this, the other program's time is computed from cut tables.
const MANY: u64 = 20_000_000;

/// A verdict's word and its two counts.
const COUNTS: usize = 17;

const NAMES: [&str; 19] = [
    "I.1", "I.2", "I.3", "I.4", "I.5", "I.6", "II.1", "II.1-1", "II.2", "II.2-1", "C1", "C2", "C3",
    "C4", "C5", "C6", "C7", "C8", "C9",
];

/// Rules of the calls with two terms, of elements and of words.
const TWO_TERMS: [(&str, &str); 4] = [
    ("`done`", DONE[0]),
    ("`operations`", "|operations(OE(R),OE(OBJ))|<=1"),
    ("`done` of words", DONE[2]),
    ("`operations` of words", "|operations(OE(CR),OE(OBJ))|<=1"),
];

fn main() {
    let rounds = std::env::args()
        .nth(1)
        .map_or(7, |text| text.parse().expect("a number"));
    let random = tables::full(&mut Random::new(1));
    let office = tables::office(&mut Random::new(1), 64);
    for plain in [&random, &office] {
        assert_eq!(plain.bytes().len(), MAX_TABLES, "the largest tables");
    }
    let only = std::env::args().nth(2);
    let wanted = |table: &str| only.as_deref().map_or(true, |only| only == table);
    if wanted("rules") {
        rules(&random, &office, rounds);
    }
    if wanted("calls") {
        calls(&random, &office, rounds);
    }
    if wanted("pages") {
        pages::table(&random, &office, rounds);
    }
    if wanted("sessions") {
        sessions::table(&random, &office, rounds);
    }
    if wanted("readers") {
        readers::table(&random, &office, rounds);
    }
    if wanted("waits") {
        waits::table();
    }
}

/// The table of rules.
fn rules(random: &Plain, office: &Plain, rounds: usize) {
    heading();
    let rules: Vec<&str> = PAPER.iter().chain(&COMMITTEE).copied().collect();
    for (name, rule) in NAMES.iter().zip(rules) {
        judged(&format!("{name} | random"), rule, random, rounds);
        judged(&format!("{name} | office"), rule, office, rounds);
    }
    let fewer = third_left(random);
    judged("I.1 | random, a third left", PAPER[0], &fewer, rounds);
}

fn heading() {
    println!("\n| judge | tables | full choices | ours | fast | fast / ours | worst order |");
    println!("|---|---|---|---|---|---|---|");
}

/// The tables of the calls with two terms, each beside the other, and of the calls that walk nothing.
fn calls(random: &Plain, office: &Plain, rounds: usize) {
    heading();
    for (name, rule) in TWO_TERMS {
        judged(&format!("{name} | random"), rule, random, rounds);
        judged(&format!("{name} | office"), rule, office, rounds);
    }
    println!("\n| call | ours | fast | ours / fast |");
    println!("|---|---|---|---|");
    for (name, question) in others(random) {
        let (ours, fast, ratio) = beside(&question, rounds);
        println!(
            "| {name} | {} | {} | {ratio:.2} |",
            shown(ours),
            shown(fast)
        );
    }
}

/// The calls that walk nothing, with their names in the table.
fn others(tables: &Plain) -> Vec<(String, Question)> {
    let rule = long_rule();
    let formula = reference::fast::reduce(rule.as_bytes()).expect("an accepted rule");
    let rebuild = format!("rebuild those, from {}", formula.len());
    let read = |tables: Plain| Question::judge(tables.bytes(), b"U=U".to_vec(), vec![]);
    let juniors = tables::full_of_juniors(&mut Random::new(1));
    vec![
        (
            "judge `U=U` (reading the tables)".to_string(),
            read(tables.clone()),
        ),
        (
            "the same, junior roles open in the sessions".to_string(),
            read(juniors),
        ),
        (
            "the same, every third user left".to_string(),
            read(third_left(tables)),
        ),
        (
            "rank_step on the first tables".to_string(),
            Question::RankStep(tables.bytes().into()),
        ),
        (
            "forecast of `U=U` on the first tables".to_string(),
            Question::forecast(tables.bytes(), b"U=U".to_vec()),
        ),
        (
            "forecast of C5, eight variables".to_string(),
            Question::forecast(tables.bytes(), COMMITTEE[4].into()),
        ),
        (
            "reduce 256 bytes".to_string(),
            Question::Reduce(rule.into_bytes().into()),
        ),
        (rebuild, Question::Rebuild(formula.into())),
    ]
}

/// The tables with every third user left, from the first.
fn third_left(tables: &Plain) -> Plain {
    let mut fewer = tables.clone();
    let third = (0..64).step_by(3).fold(0, |word, user| word | 1 << user);
    fewer.leave(&mut Random::new(1), third);
    fewer
}

/// The longest rule of Table I, filled up to 256 bytes.
fn long_rule() -> String {
    let mut rule = PAPER[5].to_string();
    let fives = (256 - rule.len()) % 4;
    rule += &"^R!=R".repeat(fives);
    rule += &"^U=U".repeat((256 - rule.len()) / 4);
    assert_eq!(rule.len(), 256);
    rule
}

/// A rule's row, in the order 1, 2, ..
fn judged(name: &str, rule: &str, tables: &Plain, rounds: usize) {
    let asked = |tables: &Plain| Question::judge_in_turn(tables.bytes(), rule);
    let question = asked(tables);
    let full = choices(&question);
    let (ours, fast, mark, ratio) = if full <= MANY {
        let (ours, fast, ratio) = beside(&question, rounds);
        (ours, fast, "", 1.0 / ratio)
    } else {
        let mut cut = (0..).map(|times| asked(&cut(tables, times)));
        let cut = cut.find(|cut| choices(cut) <= MANY);
        let cut = cut.expect("tables without conflicts");
        let (_, fast, _) = beside(&cut, 1);
        let fast = fast / choices(&cut) as f64 * full as f64;
        let ours = ours(&question, rounds);
        (ours, fast, "~", fast / ours)
    };
    println!(
        "| {name} | {full} | {} | {mark}{} | {mark}{ratio:.1} | {} |",
        shown(ours),
        shown(fast),
        shown(worst_order(rule, tables, &question)),
    );
}

/// Nanoseconds for a call of ours in the slowest of some admissible orders, which all count the same.
fn worst_order(rule: &str, tables: &Plain, question: &Question) -> f64 {
    let read = reference::rule::read(rule.as_bytes()).expect("an accepted rule");
    let expected = counts(question);
    let times = (0..ORDERS).map(|seed| {
        let order = orders::admissible(&mut Random::new(seed), &read);
        let other = Question::judge(tables.bytes(), rule.as_bytes().to_vec(), order);
        assert_eq!(counts(&other), expected, "{rule}");
        let mut out = [0; Verdict::BYTES];
        time(SHORT_ROUND, || black_box(&other).ask(&mut out))
    });
    times.fold(0.0, f64::max)
}

/// The word and the counts of a verdict.
fn counts(question: &Question) -> [u8; COUNTS] {
    let mut out = [0; Verdict::BYTES];
    question.ask(&mut out).expect("an accepted question");
    std::array::from_fn(|place| out[place])
}

/// The full choices of a verdict.
fn choices(question: &Question) -> u64 {
    subjects::full(&counts(question))
}

/// The tables with sessions and collections halved so many times.
fn cut(tables: &Plain, times: u32) -> Plain {
    let mut tables = tables.clone();
    let most = (64usize >> times).max(1);
    tables.sessions.truncate(most);
    for words in [&mut tables.cr, &mut tables.cu, &mut tables.cp] {
        words.truncate(most);
    }
    tables
}

/// Nanoseconds for a call of ours and one of the other, in turn, and the ratio: medians.
fn beside(question: &Question, rounds: usize) -> (f64, f64, f64) {
    let expected = question.fast().expect("an accepted question");
    question.hold(&Ok(expected.clone()), expected.len(), 0);
    let mut out = vec![0; expected.len()];
    let ours = || black_box(question).ask(&mut out);
    alternating(rounds, ours, || black_box(question).fast())
}

/// Nanoseconds for one call and for another, timed in turn, and the ratio: medians.
fn alternating<A, B>(
    rounds: usize,
    mut one: impl FnMut() -> A,
    mut other: impl FnMut() -> B,
) -> (f64, f64, f64) {
    let (mut ones, mut others, mut ratios) = (Vec::new(), Vec::new(), Vec::new());
    let start = Instant::now();
    while ones.len() < rounds && (ones.is_empty() || start.elapsed() < ROW) {
        let (a, b) = (time(ROUND, &mut one), time(ROUND, &mut other));
        ratios.push(a / b);
        ones.push(a);
        others.push(b);
    }
    (median(ones), median(others), median(ratios))
}

/// Nanoseconds for a call of ours, the median of some rounds.
fn ours(question: &Question, rounds: usize) -> f64 {
    let mut out = [0; Verdict::BYTES];
    let times = (0..rounds).map(|_| time(ROUND, || black_box(question).ask(&mut out)));
    median(times.collect())
}

/// Nanoseconds for one call, over as many as fill the round.
fn time<T>(round: Duration, mut call: impl FnMut() -> T) -> f64 {
    let start = Instant::now();
    let mut calls = 0u32;
    while start.elapsed() < round {
        black_box(call());
        calls += 1;
    }
    start.elapsed().as_nanos() as f64 / f64::from(calls)
}

fn median(mut values: Vec<f64>) -> f64 {
    values.sort_by(f64::total_cmp);
    values[values.len() / 2]
}

fn shown(nanoseconds: f64) -> String {
    match nanoseconds {
        small if small < 1e4 => format!("{small:.0} ns"),
        middle if middle < 1e7 => format!("{:.1} µs", middle / 1e3),
        long if long < 1e10 => format!("{:.0} ms", long / 1e6),
        longer => format!("{:.0} s", longer / 1e9),
    }
}
