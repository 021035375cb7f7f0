//! The library keeps no state: eight threads at once get the answers that one gets.

use std::thread;

use differential::hold::{Expected, Question};
use differential::random::Random;
use differential::{formulas, orders, pages, readers, rules, scaled, sessions, tables};

const QUESTIONS: u64 = 4_000;

/// The most steps of a page's walks, of a state's and of a sheet's.
const STEPS: u64 = 2_000;

#[test]
fn eight_threads_agree() {
    let questions = questions(&mut Random::new(7));
    thread::scope(|scope| {
        for first in 0..8 {
            let questions = &questions;
            scope.spawn(move || {
                let random = &mut Random::new(first as u64);
                let start = first * questions.len() / 8;
                for (question, expected) in questions[start..].iter().chain(&questions[..start]) {
                    question.hold_all(expected, random);
                }
            });
        }
    });
}

fn questions(random: &mut Random) -> Vec<(Question, Expected)> {
    (0..scaled(QUESTIONS))
        .map(|_| {
            let question = match random.below(8) {
                0 => Question::Reduce(rules::any(random).into()),
                1 => Question::Rebuild(formulas::any(random).into()),
                2 => pages::judged(random, 3, STEPS),
                3 => Question::RankStep(tables::unranked(random).bytes().into()),
                4 => Question::forecast(tables::any(random), rules::any(random)),
                5 => sessions::asked(random, STEPS),
                6 => readers::asked(random, STEPS),
                _ => judged(random),
            };
            let expected = question.fast();
            (question, expected)
        })
        .collect()
}

/// A rule of source document 002 on tables of at most eight items in a section.
fn judged(random: &mut Random) -> Question {
    let text = random.pick(&rules::PAPER).as_bytes();
    let rule = reference::rule::read(text).expect("rules of the paper are accepted");
    let order = orders::any(random, &rule);
    Question::judge(tables::accepted(random, 8).bytes(), text.to_vec(), order)
}
