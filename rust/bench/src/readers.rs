//! What a reader sees: one line beside the other program's, and beside judging its rule on the tables that are left for the
//! reader; and whole sheets beside as many calls of `judge`.

use std::hint::black_box;

use differential::hold::Question;
use differential::pages::bounds;
use differential::random::Random;
use differential::rules::{COMMITTEE, DONE, PAPER};
use differential::tables::{self, Plain};
use rcl2000::{judge_in_turn, Reader, Verdict, MAX_LINE};
use reference::set::Set;

use crate::{alternating, beside, shown};

/// The rules of the lines, from cheap to dear.
const LINES: [(&str, &str); 6] = [
    ("`U=U`", "U=U"),
    ("each U", "roles(OE(U))!={}"),
    ("each CU", "|OE(CU)|<=2"),
    ("I.1", PAPER[0]),
    ("II.2-1", PAPER[9]),
    ("`done`", DONE[0]),
];

/// The readers: all users, every second one, and two.
const READERS: [(&str, u64); 3] = [
    ("all", u64::MAX),
    ("half", 0x5555_5555_5555_5555),
    ("two", 0b1100),
];

/// The tables of the lines and of the sheets.
pub fn table(random: &Plain, office: &Plain, rounds: usize) {
    let small = tables::office(&mut Random::new(1), 8);
    let all = [
        ("random", random),
        ("office", office),
        ("small office", &small),
    ];
    println!("\n| line | tables | reader | ours | fast | ours / fast | judge | ours / judge |");
    println!("|---|---|---|---|---|---|---|---|");
    for (name, rule) in LINES {
        for (which, plain) in all {
            for (who, users) in READERS {
                let name = format!("{name} | {which} | {who}");
                line(&name, rule, plain, users & plain.everyone(), rounds);
            }
        }
    }
    println!("\n| sheet | tables | reader | sheet | calls of judge | sheet / calls |");
    println!("|---|---|---|---|---|---|");
    for (name, rules) in sheets() {
        for (which, plain) in all {
            for (who, users) in [READERS[0], READERS[1]] {
                let name = format!("{name} | {which} | {who}");
                sheet(&name, &rules, plain, users & plain.everyone(), rounds);
            }
        }
    }
}

/// The rules files, each with its name in the table.
fn sheets() -> [(&'static str, String); 4] {
    let lines: Vec<&str> = LINES.iter().map(|(_, rule)| *rule).collect();
    [
        ("the rules above", lines.join("\n")),
        (
            "32 bounds on one count",
            bounds("|(roles(OE(U))&OE(CR))|<="),
        ),
        ("C1 to C9", COMMITTEE.join("\n")),
        ("1,024 empty lines", "\n".repeat(1_024)),
    ]
}

/// The bytes of what is left for a reader.
fn cut(plain: &Plain, reader: u64) -> Vec<u8> {
    let read = reference::tables::read(&plain.bytes()).expect("accepted tables");
    read.cut(&Set::of(|user| reader >> user & 1 == 1)).bytes()
}

/// One line beside the other program's, and beside judging its rule on what is left for the reader.
fn line(name: &str, rule: &str, plain: &Plain, reader: u64, rounds: usize) {
    let asked = Question::sheet_line(plain.bytes(), reader, rule.into(), 1);
    let (ours, fast, peer) = beside(&asked, rounds);
    let judged = Question::judge_in_turn(cut(plain, reader), rule);
    let (mut line, mut verdict) = ([0; MAX_LINE], [0; Verdict::BYTES]);
    let (_, judge, ratio) = alternating(
        rounds,
        || black_box(&asked).ask(&mut line),
        || black_box(&judged).ask(&mut verdict),
    );
    println!(
        "| {name} | {} | {} | {peer:.2} | {} | {ratio:.2} |",
        shown(ours),
        shown(fast),
        shown(judge),
    );
}

/// A whole sheet beside judging each of its rules once on what is left for the reader.
fn sheet(name: &str, rules: &str, plain: &Plain, reader: u64, rounds: usize) {
    let (tables, left) = (plain.bytes(), cut(plain, reader));
    let whole = || rcl2000::sheet(&tables, Reader::from_word(reader), rules.as_bytes());
    compared(&whole().expect("an accepted sheet"), rules, &left);
    let calls: Vec<Question> = rules.lines().map(|rule| judged(&left, rule)).collect();
    let mut verdict = [0; Verdict::BYTES];
    let (ours, theirs, ratio) = alternating(rounds, whole, || {
        for call in black_box(&calls) {
            let _ = black_box(call.ask(&mut verdict));
        }
    });
    println!(
        "| {name} | {} | {} | {ratio:.2} |",
        shown(ours),
        shown(theirs)
    );
}

/// The call of `judge` for a rule, in the order 1, 2, ..; a rule that is refused has no variables.
fn judged(tables: &[u8], rule: &str) -> Question {
    let read = reference::rule::read(rule.as_bytes());
    let count = read.map_or(0, |rule| rule.variables.len() as u8);
    Question::judge(tables.to_vec(), rule.into(), (1..=count).collect())
}

/// The lines of the rules have the verdicts that judging gives.
fn compared(lines: &[String], rules: &str, left: &[u8]) {
    assert_eq!(lines.len(), rules.lines().count() + 1);
    for ((line, rule), place) in lines.iter().zip(rules.lines()).zip(1..) {
        let expected = match judge_in_turn(left, rule.as_bytes()) {
            Ok(verdict) => format!("{place} {verdict}"),
            Err(refusal) => format!("{place} refused {}", refusal.number()),
        };
        assert_eq!(*line, expected, "{rule}");
    }
}
