//! Sessions that come and go: opening one and closing one beside judging afresh, and where the rule mentions none beside
//! reading the tables, which is what `rank_step` does and little else.

use std::hint::black_box;

use differential::hold::Question;
use differential::random::Random;
use differential::rules::{COMMITTEE, PAPER};
use differential::sessions::{MOST, OF_NEITHER, OF_S};
use differential::tables::{self, Plain};
use rcl2000::{Verdict, MAX_STATE};
use reference::sessions::Change;

use crate::{alternating, shown};

/// Rules that mention sessions, from cheap to dear.
const MENTIONING: [(&str, &str); 8] = [
    ("`S=S`", "S=S"),
    ("each S", OF_S[2]),
    ("S and CR", OF_S[3]),
    ("II.1", PAPER[6]),
    ("II.2", PAPER[8]),
    ("II.2-1", PAPER[9]),
    ("C2", COMMITTEE[1]),
    ("C4", COMMITTEE[3]),
];

/// Rules that mention none.
const MENTIONING_NONE: [(&str, &str); 3] = [
    ("`U=U`", OF_NEITHER[0]),
    ("I.1", PAPER[0]),
    ("C8", COMMITTEE[7]),
];

/// The tables of the calls.
pub fn table(random: &Plain, office: &Plain, rounds: usize) {
    let small = tables::office(&mut Random::new(1), 8);
    let all = [
        ("random", random),
        ("office", office),
        ("small office", &small),
    ];
    compare("judge", &MENTIONING, &all, rounds, |plain, rule| {
        Question::judge_in_turn(plain.bytes(), rule)
    });
    compare("rank_step", &MENTIONING_NONE, &all, rounds, |plain, _| {
        Question::RankStep(plain.bytes().into())
    });
}

/// The table of the rules on all tables, beside another call.
fn compare(
    other: &str,
    rules: &[(&str, &str)],
    all: &[(&str, &Plain)],
    rounds: usize,
    ask: impl Fn(&Plain, &str) -> Question,
) {
    println!(
        "\n| rule | tables | open | {other} | open / {other} | close | {other} | close / {other} |"
    );
    println!("|---|---|---|---|---|---|---|---|");
    for (name, rule) in rules {
        for (which, tables) in all {
            let name = format!("{name} | {which}");
            row(&name, rule, tables, rounds, |plain| ask(plain, rule));
        }
    }
}

/// A session opened and one closed, each beside a call on the tables as they are then.
fn row(name: &str, rule: &str, tables: &Plain, rounds: usize, other: impl Fn(&Plain) -> Question) {
    let mut room = tables.clone();
    // The largest tables have as many sessions as there may be.
    room.sessions.truncate(MOST - 1);
    let (user, roles) = room.sessions[0];
    let open = Change::Open {
        user: user.into(),
        roles,
    };
    let number = room.sessions.len() as u32 / 2;
    let close = Change::Close { number };
    let timed = [open, close].map(|change| {
        let mut changed = room.clone();
        changed.change(change);
        let call = Question::session(state(&room, rule), change);
        compared(&call, &changed, rule);
        let (mut next, mut out) = ([0; MAX_STATE], [0; Verdict::BYTES]);
        let other = other(&changed);
        let ours = || black_box(&call).ask(&mut next);
        let (ours, theirs, ratio) = alternating(rounds, ours, || black_box(&other).ask(&mut out));
        format!("{} | {} | {ratio:.2}", shown(ours), shown(theirs))
    });
    println!("| {name} | {} |", timed.join(" | "));
}

fn state(plain: &Plain, rule: &str) -> Vec<u8> {
    let state = rcl2000::sessions_start(&plain.bytes(), rule.as_bytes());
    state.expect("an accepted question")
}

/// The call gives the state that a start on the changed tables does.
fn compared(call: &Question, changed: &Plain, rule: &str) {
    let expected = state(changed, rule);
    call.hold(&Ok(expected), MAX_STATE, 0);
}
