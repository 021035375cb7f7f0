//! `include/rcl2000.h` has the numbers that this crate has.

use std::collections::BTreeMap;
use std::fs;
use std::path::Path;

use rcl2000::{Forecast, Page, RankStep, Refusal, Verdict};
use rcl2000::{MAX_FORMULA, MAX_LINE, MAX_LINES, MAX_RULE, MAX_RULES, MAX_STATE, MAX_TABLES};
use rcl2000::{MAX_VARIABLES, MIN_TABLES};
use rcl2000::{STACK_FORECAST, STACK_JUDGE, STACK_JUDGE_PAGE};
use rcl2000::{STACK_RANK_STEP, STACK_REBUILD, STACK_REDUCE};
use rcl2000::{STACK_SESSIONS_START, STACK_SESSION_CLOSE, STACK_SESSION_OPEN, STACK_SHEET_LINE};

/// Each name of the header that has a number, without its prefix: `NAME = N` and `NAME N`.
fn numbers() -> BTreeMap<String, usize> {
    let path = Path::new(env!("CARGO_MANIFEST_DIR")).join("../../include/rcl2000.h");
    let text = fs::read_to_string(path).unwrap();
    let lines = text.lines().flat_map(|line| line.split([',', '{', ';']));
    let numbered = lines.filter_map(|piece| {
        let piece = piece.trim().trim_start_matches("#define ");
        let (name, rest) = piece.strip_prefix("RCL2000_")?.split_once(' ')?;
        let rest = rest.trim_start_matches("= ");
        Some((name.to_string(), product(rest)?))
    });
    numbered.collect()
}

/// A number, or `(N * 1024)`, before a comment or the end.
fn product(text: &str) -> Option<usize> {
    let text = text.split("/*").next()?.trim();
    let text = text
        .trim_start_matches('(')
        .trim_end_matches([')', '}', ' ']);
    text.split(" * ").map(|n| n.parse::<usize>().ok()).product()
}

#[test]
fn the_header_has_every_refusal_by_its_word() {
    let numbers = numbers();
    let mut number = 1;
    while let Some(refusal) = Refusal::from_number(number) {
        if matches!(refusal, Refusal::Unknown { .. }) {
            break;
        }
        let name = refusal.word().to_uppercase().replace(' ', "_");
        let name = name.replace('\'', "");
        assert_eq!(numbers.get(&name), Some(&(number as usize)), "{name}");
        number += 1;
    }
    assert!(number > 23);
}

#[test]
fn the_header_has_the_steps_of_the_rank_test() {
    let numbers = numbers();
    let steps = [
        ("STEP_REFLEXIVE", RankStep::Reflexive),
        ("STEP_TRANSITIVE", RankStep::Transitive),
        ("STEP_ANTISYMMETRIC", RankStep::Antisymmetric),
    ];
    for (name, step) in steps {
        assert_eq!(numbers.get(name), Some(&(step.number() as usize)), "{name}");
    }
}

#[test]
fn the_header_has_the_lengths_and_the_stacks() {
    let numbers = numbers();
    let ours = [
        ("MIN_TABLES", MIN_TABLES),
        ("MAX_TABLES", MAX_TABLES),
        ("MAX_RULE", MAX_RULE),
        ("MAX_FORMULA", MAX_FORMULA),
        ("MAX_VARIABLES", MAX_VARIABLES),
        ("MAX_STATE", MAX_STATE),
        ("STACK_REDUCE", STACK_REDUCE),
        ("STACK_REBUILD", STACK_REBUILD),
        ("MAX_LINES", MAX_LINES),
        ("MAX_RULES", MAX_RULES),
        ("MAX_LINE", MAX_LINE),
        ("STACK_JUDGE", STACK_JUDGE),
        ("STACK_JUDGE_PAGE", STACK_JUDGE_PAGE),
        ("STACK_RANK_STEP", STACK_RANK_STEP),
        ("STACK_FORECAST", STACK_FORECAST),
        ("STACK_SESSIONS_START", STACK_SESSIONS_START),
        ("STACK_SESSION_OPEN", STACK_SESSION_OPEN),
        ("STACK_SESSION_CLOSE", STACK_SESSION_CLOSE),
        ("STACK_SHEET_LINE", STACK_SHEET_LINE),
        ("VERDICT", Verdict::BYTES),
        ("PAGE_HEAD", Page::HEAD),
        ("FORECAST", Forecast::BYTES),
        ("FORECAST_LENGTH", 0),
        ("FORECAST_CEILING", 8),
        ("STATE_RULE_LENGTH", Verdict::BYTES),
        ("STATE_RULE", Verdict::BYTES + 2),
        ("HELD", 0),
        ("IDLE", 1),
        ("BROKEN", 2),
    ];
    for (name, number) in ours {
        assert_eq!(numbers.get(name), Some(&number), "{name}");
    }
}
