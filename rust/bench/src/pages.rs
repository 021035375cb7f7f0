//! Pages of rules beside as many calls of `judge`, in the same run.

use std::hint::black_box;

use differential::hold::Question;
use differential::pages::bounds;
use differential::rules::COMMITTEE;
use differential::tables::Plain;
use rcl2000::{Page, Verdict};

use crate::{alternating, shown};

/// What a user's roles are, in four ways.
const OWN: [&str; 4] = [
    "roles(OE(U))",
    "roles*(OE(U))",
    "roles(sessions(OE(U)))",
    "roles*(sessions(OE(U)))",
];

/// The roles that some roles lead to, in eight ways; `X` stands for them.
const FURTHER: [&str; 8] = [
    "X",
    "roles(user(X))",
    "roles*(user(X))",
    "roles(sessions(user(X)))",
    "roles(permissions(X))",
    "roles*(permissions(X))",
    "roles(permissions*(X))",
    "roles*(permissions*(X))",
];

/// Sets of which each element has roles.
const SETS: [&str; 8] = [
    "U",
    "S",
    "P",
    "user(R)",
    "sessions(U)",
    "permissions(R)",
    "(U&U)",
    "(S&S)",
];

/// Collections of roles.
const COLLECTIONS: [&str; 4] = ["CR", "(CR&CR)", "(CR+CR)", "((CR&CR)+CR)"];

/// The pages, each with its name in the table and its walks.
fn pages() -> Vec<(&'static str, u8, String)> {
    let lines = |lines: Vec<String>| lines.join("\n");
    let different =
        |line: &dyn Fn(&str) -> String| lines(terms().iter().map(|t| line(t)).collect());
    let parts = |bounds: &[usize], collections: &[&str]| {
        let mut texts = Vec::new();
        for set in SETS {
            for collection in collections {
                for bound in bounds {
                    texts.push(format!("|(roles(OE({set}))&OE({collection}))|<={bound}"));
                }
            }
        }
        lines(texts)
    };
    let committee = COMMITTEE.map(String::from).to_vec();
    vec![
        (
            "32 bounds on one count",
            1,
            bounds("|(roles(OE(U))&OE(CR))|<="),
        ),
        (
            "32 terms, two variables",
            1,
            different(&|term| format!("|({term}&OE(CR))|<=1")),
        ),
        (
            "32 terms, three variables",
            1,
            different(&|term| format!("|({term}&OE(CR))|<=1^|(roles(OE(S))&OE(CR))|<=1")),
        ),
        (
            "the same, in one clause",
            1,
            different(&|term| format!("|(({term}&OE(CR))&roles(OE(S)))|<=1")),
        ),
        (
            "8 parts of 4 lines",
            8,
            parts(&[0, 1, 2, 3], &COLLECTIONS[..1]),
        ),
        ("32 parts", 32, parts(&[1], &COLLECTIONS)),
        ("C1 to C9", 9, lines(committee)),
    ]
}

/// 32 terms of a user's roles, and of where these lead to.
fn terms() -> Vec<String> {
    let further = |own: &'static str| FURTHER.map(|further| further.replace('X', own));
    OWN.into_iter().flat_map(further).collect()
}

/// The table of the pages.
pub fn table(random: &Plain, office: &Plain, rounds: usize) {
    println!("\n| page | tables | walks | page | calls of judge | page / calls |");
    println!("|---|---|---|---|---|---|");
    for (name, walks, text) in pages() {
        row(&format!("{name} | random"), walks, &text, random, rounds);
        row(&format!("{name} | office"), walks, &text, office, rounds);
    }
}

fn row(name: &str, walks: u8, text: &str, tables: &Plain, rounds: usize) {
    let page = Question::judge_page(tables.bytes(), text.into());
    let call = |line| Question::judge_in_turn(tables.bytes(), line);
    let calls: Vec<Question> = text.lines().map(call).collect();
    assert_eq!(compared(&page, &calls), walks, "{name}");
    let (mut whole, mut one_by_one) = ([0; Page::MAX_BYTES], [0; Verdict::BYTES]);
    let (ours, theirs, ratio) = alternating(
        rounds,
        || black_box(&page).ask(&mut whole),
        || {
            for call in black_box(&calls) {
                let _ = black_box(call.ask(&mut one_by_one));
            }
        },
    );
    println!(
        "| {name} | {walks} | {} | {} | {ratio:.2} |",
        shown(ours),
        shown(theirs)
    );
}

/// The number of walks of a page, whose lines have the verdicts that the calls give.
fn compared(page: &Question, calls: &[Question]) -> u8 {
    let mut out = [0; Page::MAX_BYTES];
    let length = page.ask(&mut out).expect("an accepted page");
    let (head, lines) = out[..length].split_at(Page::HEAD);
    assert_eq!(lines.len(), Verdict::BYTES * calls.len());
    for (line, call) in lines.chunks(Verdict::BYTES).zip(calls) {
        let mut verdict = [0; Verdict::BYTES];
        call.ask(&mut verdict).expect("an accepted rule");
        assert_eq!(line, verdict);
    }
    head[Page::HEAD - 1]
}
