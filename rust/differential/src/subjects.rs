//! What is asked: streams of questions, on which the library and both halves of the reference agree.

use reference::tables::Tables;
use reference::verdict::steps;

use crate::hold::{Expected, Met, Question};
use crate::random::Random;
use crate::{done, formulas, leavers, orders, pages, readers, rules, sessions, tables};

/// The most steps of a walk where every choice is tried.
pub const FEW: u64 = 2_000;

/// The most steps of a walk by the fast modules.
const MANY: u64 = 10_000;

/// The most steps of a page's walks together, by the fast modules.
const MANY_ON_A_PAGE: u64 = 60_000;

/// How many full choices a large verdict has, and about how many steps its walk takes.
pub const LARGE: u64 = 1_000_000;
const LARGEST: u64 = 6_000_000;

/// A stream of questions.
pub struct Subject {
    /// What it is about.
    pub name: &'static str,
    /// How many questions the gate asks, and the seed that it asks them from.
    pub count: u64,
    pub seed: u64,
    /// The answers that so many must meet: refusals by number, or steps, and 0 for acceptance.
    pub answers: &'static [usize],
    /// Whether the plain modules answer too, or the fast ones alone.
    plain: bool,
    ask: fn(&mut Random) -> Question,
}

/// Tables, rules, formulas, verdicts, pages, steps of the rank test, forecasts, leavers, who did what, sessions that come
/// and go, and what readers see, in turn.
pub const SUBJECTS: [Subject; 15] = [
    Subject {
        name: "tables",
        count: 50_000,
        seed: 1,
        answers: &[0, 1, 2, 3, 4, 5, 6, 7, 8, 9, 10, 20],
        plain: true,
        ask: |random| Question::judge(tables::any(random), b"U=U".to_vec(), vec![]),
    },
    Subject {
        name: "rules",
        count: 70_000,
        seed: 2,
        answers: &[0, 11, 12, 13, 14, 15],
        plain: true,
        ask: |random| Question::Reduce(rules::any(random).into()),
    },
    Subject {
        name: "formulas",
        count: 40_000,
        seed: 3,
        answers: &[0, 16],
        plain: true,
        ask: |random| Question::Rebuild(formulas::any(random).into()),
    },
    // Small tables, on which every choice is tried.
    Subject {
        name: "verdicts",
        count: 80_000,
        seed: 4,
        answers: &[0, 1, 5, 13, 18],
        plain: true,
        ask: |random| judged(random, 4, FEW),
    },
    // Tables of any size.
    Subject {
        name: "wide verdicts",
        count: 2_000,
        seed: 5,
        answers: &[0],
        plain: false,
        ask: |random| judged(random, 64, MANY),
    },
    // Five to eight variables, many of whose choices have the same below them.
    Subject {
        name: "many variables",
        count: 2_000,
        seed: 6,
        answers: &[0],
        plain: false,
        ask: |random| repeated(random, MANY),
    },
    // Pages on small tables, on which every choice is tried.
    Subject {
        name: "pages",
        count: 30_000,
        seed: 7,
        answers: &[0, 1, 5, 11, 12, 13, 14, 15, 19],
        plain: true,
        ask: |random| pages::judged(random, 4, FEW),
    },
    // Pages on tables of any size.
    Subject {
        name: "wide pages",
        count: 2_000,
        seed: 8,
        answers: &[0, 19],
        plain: false,
        ask: |random| pages::judged(random, 64, MANY_ON_A_PAGE),
    },
    // Pages whose lines have five to eight variables.
    Subject {
        name: "pages of many variables",
        count: 1_000,
        seed: 9,
        answers: &[0],
        plain: false,
        ask: |random| pages::repeated(random, MANY_ON_A_PAGE),
    },
    Subject {
        name: "rank steps",
        count: 23_000,
        seed: 10,
        answers: &[0, 1, 2, 3],
        plain: true,
        ask: ranked,
    },
    Subject {
        name: "forecasts",
        count: 20_000,
        seed: 11,
        answers: &[0, 1, 2, 3, 4, 5, 6, 7, 8, 9, 10, 11, 12, 13, 14, 15, 20],
        plain: true,
        ask: forecast,
    },
    // Tables with leavers, and rules that ask for users.
    Subject {
        name: "leavers",
        count: 20_000,
        seed: 12,
        answers: &[0, 3, 4, 5, 7, 8, 9, 10, 19, 20],
        plain: true,
        ask: leavers::asked,
    },
    // Tables with rows of Done, and rules that ask for them.
    Subject {
        name: "done",
        count: 20_000,
        seed: 13,
        answers: &[0, 1, 2, 5, 7, 9, 10, 20],
        plain: true,
        ask: done::asked,
    },
    // Starts, and calls on states of every sort.
    Subject {
        name: "sessions",
        count: 20_000,
        seed: 14,
        answers: &[0, 1, 2, 3, 5, 7, 8, 9, 10, 11, 12, 13, 14, 20, 21, 22],
        plain: true,
        ask: |random| sessions::asked(random, FEW),
    },
    // Lines of readers' sheets, and places without one.
    Subject {
        name: "readers",
        count: 20_000,
        seed: 15,
        answers: &[0, 1, 2, 3, 5, 7, 8, 9, 10, 20, 23],
        plain: true,
        ask: |random| readers::asked(random, FEW),
    },
];

impl Subject {
    /// Asks as many questions and holds all to one answer. Gives the answers that were met.
    pub fn agree(&self, seed: u64, count: u64) -> Met {
        let random = &mut Random::new(seed);
        let mut met = Met::default();
        for _ in 0..count {
            let question = (self.ask)(random);
            let expected = question.fast();
            if self.plain {
                assert_eq!(question.plain(), expected, "{}", question.command(26));
            }
            question.hold_all(&expected, random);
            met.note(question.counted(&expected));
        }
        met
    }
}

/// A verdict, a page or a forecast on tables, of such rules.
pub fn about(random: &mut Random, tables: Vec<u8>, rules: &[&str]) -> Question {
    let rule = *random.pick(rules);
    match random.below(4) {
        0 => Question::forecast(tables, rule.into()),
        1 => {
            // No line now and then: 19, behind what is refused of the tables.
            let lines = [rule, *random.pick(rules)];
            let page = lines[..random.below(3)].join("\n");
            Question::judge_page(tables, page.into())
        }
        _ => {
            let read = reference::rule::read(rule.as_bytes()).expect("an accepted rule");
            let order = orders::admissible(random, &read);
            Question::judge(tables, rule.into(), order)
        }
    }
}

/// Tables whose hierarchy mostly fails a step, alone or beside other faults.
fn ranked(random: &mut Random) -> Question {
    let unranked = tables::unranked(random);
    let tables = match random.below(4) {
        0 => tables::any(random),
        1 => unranked.bytes(),
        _ => tables::spoiled(random, unranked),
    };
    Question::RankStep(tables.into())
}

/// Tables of any size and a rule of any kind, each now and then refused, or both.
pub fn forecast(random: &mut Random) -> Question {
    let tables = match random.below(3) {
        0 => tables::any(random),
        1 => tables::accepted(random, 64).bytes(),
        _ => tables::filled(random, 9).bytes(),
    };
    Question::forecast(tables, rules::any(random))
}

/// Tables, a rule and an order with at most `limit` steps, each now and then refused.
pub fn judged(random: &mut Random, most: usize, limit: u64) -> Question {
    let text = match random.below(8) {
        0 => rules::any(random),
        1 => random.pick(&rules::PAPER).as_bytes().to_vec(),
        _ => rules::grown(random, 0).into_bytes(),
    };
    let Ok(rule) = reference::rule::read(&text) else {
        return Question::judge(tables::any(random), text, vec![]);
    };
    let order = orders::any(random, &rule);
    if random.once_in(20) {
        let tables = tables::any(random);
        let few = |read: &Tables| steps(read, &rule) <= limit;
        if reference::tables::read(&tables).as_ref().map_or(true, few) {
            return Question::judge(tables, text, order);
        }
    }
    let mut most = most;
    loop {
        let tables = tables::accepted(random, most).bytes();
        let read = reference::tables::read(&tables).expect("made to be accepted");
        if steps(&read, &rule) <= limit {
            return Question::judge(tables, text, order);
        }
        most = most.saturating_sub(1 + most / 8);
    }
}

/// A rule with 5 to 8 variables in an admissible order, on an office's tables or others, cut so that
/// the walk has at most `limit` steps.
fn repeated(random: &mut Random, limit: u64) -> Question {
    let text = rules::joined(random).into_bytes();
    let rule = reference::rule::read(&text).expect("made to be accepted");
    let order = orders::admissible(random, &rule);
    let tables = tables::cut(random, |tables| steps(tables, &rule) <= limit);
    Question::judge(tables, text, order)
}

/// A question whose verdict has more than [`LARGE`] full choices, with the fast modules' answer: one
/// in two with 5 to 8 variables, on an office's tables.
pub fn large(random: &mut Random) -> (Question, Expected) {
    loop {
        let many = random.once_in(2);
        let text = match random.below(4) {
            _ if many => rules::joined(random).into_bytes(),
            0 => random.pick(&rules::PAPER).as_bytes().to_vec(),
            _ => rules::grown(random, 0).into_bytes(),
        };
        let Ok(rule) = reference::rule::read(&text) else {
            continue;
        };
        let tables = match many {
            true => {
                let most = random.between(4, 24);
                tables::office(random, most)
            }
            false => tables::accepted(random, 64),
        };
        let tables = tables.bytes();
        let read = reference::tables::read(&tables).expect("made to be accepted");
        if !(LARGE..=LARGEST).contains(&steps(&read, &rule)) {
            continue;
        }
        let question = Question::judge(tables, text, orders::admissible(random, &rule));
        let answer = question.fast();
        if answer.as_ref().is_ok_and(|verdict| full(verdict) > LARGE) {
            return (question, answer);
        }
    }
}

/// The full choices of a verdict's bytes.
pub fn full(verdict: &[u8]) -> u64 {
    let bytes = verdict[1..9].iter().rev();
    bytes.fold(0, |sum, &byte| sum << 8 | u64::from(byte))
}
