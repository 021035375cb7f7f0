//! How long judging takes for each choice that the ceiling of a forecast allows: rules that have to walk as
//! many, and the slowest terms that were tried.

use std::hint::black_box;

use differential::hold::Question;
use differential::rules::inside;
use differential::subjects::full;
use differential::tables::{self, Plain};
use rcl2000::{Forecast, Verdict};

use crate::{counts, shown, time, COUNTS, ROUND};

/// A row: rules with the same variables, each judged in the order 1, 2, .., and in the reverse where that is
/// admissible.
struct Row {
    name: String,
    tables: Plain,
    rules: Vec<String>,
    reverse: bool,
}

/// What the size of a term is held against: all choices keep to it, or hardly one does.
const BOUNDS: [&str; 4] = ["<=64", "<=0", ">=64", "!=0"];

/// How many calls stand around a term, and with how many users it is judged.
const TERMS: [(usize, &str, usize); 3] = [
    (6, "(roles(OE(U))&(OE(CR)&(OE(R)+roles(OE(S)))))", 4),
    (16, "(OE(R)+(OE(CR)+roles(OE(P))))", 64),
    (18, "(roles(OE(U))&roles(OE(P)))", 64),
];

const ONE_CLAUSE: &str = "|((roles(OE(U))+roles(OE(S)))&(OE(CR)+roles(OE(P))))|<=64";

/// The table of the waits.
pub fn table() {
    println!("\n| rule | ceiling | judge | for each choice of the ceiling |");
    println!("|---|---|---|---|");
    rows().iter().for_each(print);
}

fn rows() -> Vec<Row> {
    let alone = |rule: &str, note: &str, tables: Plain| Row {
        name: format!("`{}`{note}", rule.replace('|', "\\|")),
        tables,
        rules: vec![rule.to_string()],
        reverse: false,
    };
    let around = |(calls, term, users): (usize, &str, usize)| Row {
        name: format!("{calls} calls around `{term}`, {users} users"),
        tables: gathering(users),
        rules: BOUNDS.map(|bound| called(calls, term) + bound).to_vec(),
        reverse: true,
    };
    let without_sessions = Plain {
        sessions: vec![],
        ..gathering(64)
    };
    let nested = format!("OE({})@U", inside(3));
    let nothing = format!("OE(sessions({}))@S", inside(7));
    let mut rows = vec![
        alone(&nested, "", gathering(64)),
        alone(ONE_CLAUSE, "", gathering(64)),
    ];
    rows.extend(TERMS.map(around));
    rows.push(alone(&nothing, ", no sessions", without_sessions));
    rows
}

/// Tables on which calls gather much: roles in a chain, each permission held by all but one of them.
fn gathering(users: usize) -> Plain {
    let all_but_one: Vec<u64> = (0..64).map(|item| !(1 << item)).collect();
    let assigned: Vec<u64> = (0..users).map(|user| 1 << user).collect();
    let session = |number: usize| ((number % users) as u8, assigned[number % users]);
    Plain {
        roles: tables::chain(),
        sessions: (0..64).map(session).collect(),
        users: assigned.clone(),
        operations: 8,
        objects: 8,
        permissions: all_but_one.clone(),
        cr: all_but_one,
        ..Plain::default()
    }
}

/// The size of the term with so many calls around it.
fn called(calls: usize, term: &str) -> String {
    let open = "roles*(permissions*(".repeat(calls / 2);
    format!("|{open}{term}{}|", ")".repeat(calls))
}

fn print(row: &Row) {
    let compared = row.rules.iter().flat_map(|rule| compared(row, rule));
    let mut out = [0; Verdict::BYTES];
    let times = compared.map(|call| time(ROUND, || black_box(&call).ask(&mut out)));
    let times: Vec<f64> = times.collect();
    let ceiling = ceiling(&row.tables, &row.rules[0]);
    let each = match ceiling {
        0 => "-".to_string(),
        many => range(times.iter().map(|time| time / many as f64)),
    };
    let (name, judge) = (&row.name, range(times.into_iter()));
    println!("| {name} | {} | {judge} | {each} |", grouped(ceiling));
}

/// The calls of `judge` for a rule. The answer to the first is the fast modules', its full choices are not
/// above the ceiling, and the reverse order counts the same.
fn compared(row: &Row, rule: &str) -> Vec<Question> {
    let first = Question::judge_in_turn(row.tables.bytes(), rule);
    let expected = first.fast().expect("an accepted question");
    first.hold(&Ok(expected.clone()), Verdict::BYTES, 0);
    assert!(full(&expected) <= ceiling(&row.tables, rule), "{rule}");
    if !row.reverse {
        return vec![first];
    }
    let other = reversed(&first);
    assert_eq!(counts(&other), expected[..COUNTS], "{rule}");
    vec![first, other]
}

fn reversed(question: &Question) -> Question {
    let Question::Judge(tables, rule, order) = question else {
        unreachable!("a verdict is asked for");
    };
    let order = order.iter().rev().copied().collect();
    Question::Judge(tables.clone(), rule.clone(), order)
}

/// The ceiling that the library tells and the fast modules do.
fn ceiling(tables: &Plain, rule: &str) -> u64 {
    let question = Question::forecast(tables.bytes(), rule.into());
    question.hold(&question.fast(), Forecast::BYTES, 0);
    let told = rcl2000::forecast(&tables.bytes(), rule.as_bytes());
    told.expect("an accepted question").ceiling
}

/// The least and the most of some times, and the unit once where they have the same.
fn range(times: impl Iterator<Item = f64> + Clone) -> String {
    let (least, most) = (
        times.clone().fold(f64::MAX, f64::min),
        times.fold(0.0, f64::max),
    );
    let (least, most) = (shown(least), shown(most));
    let unit = most.trim_start_matches(|symbol| symbol != ' ');
    match least == most {
        true => most,
        false => format!("{} to {most}", least.trim_end_matches(unit)),
    }
}

/// A number with a comma before every three digits from the right.
fn grouped(number: u64) -> String {
    match number {
        0..=999 => number.to_string(),
        _ => format!("{},{:03}", grouped(number / 1_000), number % 1_000),
    }
}
