//! The library, the plain reference and the fast reference agree on generated inputs.
//!
//! `RCL2000_PERCENT=2000 cargo test --release -p differential` tries twenty times as many;
//! `cargo run --release -p differential -- --long MINUTES` goes on with ever new ones.

use std::collections::BTreeMap;

use differential::hold::Question;
use differential::random::Random;
use differential::subjects::{forecast, full, judged, large, FEW, LARGE, SUBJECTS};
use differential::tables::Plain;
use differential::{pages, rules, scaled, tables};
use rcl2000::{BuildError, Forecast, Refusal, Unencodable, Verdict, MIN_TABLES};
use reference::kind::Kinds;
use reference::page::PLAIN;
use reference::rule::{Rule, Term};
use reference::sheet::lines;
use reference::Refused;

/// How many large verdicts are compared.
const LARGE_ONES: u64 = 8;

/// The gate asks 400,000 questions.
#[test]
fn the_gate_asks_enough() {
    let asked: u64 = SUBJECTS.iter().map(|subject| subject.count).sum();
    assert_eq!(asked, 400_000);
}

/// Asks a subject's questions, which must meet each of its answers.
fn agree(name: &str) {
    let subject = SUBJECTS.iter().find(|subject| subject.name == name);
    let subject = subject.expect("there is such a subject");
    let met = subject.agree(subject.seed, scaled(subject.count));
    if scaled(subject.count) >= subject.count {
        met.expect(subject.answers.iter().copied(), subject.count / 1_000);
    }
}

#[test]
fn tables_agree() {
    agree("tables");
}

#[test]
fn rules_agree() {
    agree("rules");
}

#[test]
fn formulas_agree() {
    agree("formulas");
}

#[test]
fn verdicts_agree() {
    agree("verdicts");
}

#[test]
fn wide_verdicts_agree() {
    agree("wide verdicts");
}

#[test]
fn verdicts_on_many_variables_agree() {
    agree("many variables");
}

#[test]
fn pages_agree() {
    agree("pages");
}

#[test]
fn wide_pages_agree() {
    agree("wide pages");
}

#[test]
fn pages_of_many_variables_agree() {
    agree("pages of many variables");
}

#[test]
fn rank_steps_agree() {
    agree("rank steps");
}

#[test]
fn forecasts_agree() {
    agree("forecasts");
}

#[test]
fn leavers_agree() {
    agree("leavers");
}

#[test]
fn who_did_what_agrees() {
    agree("done");
}

#[test]
fn sessions_that_come_and_go_agree() {
    agree("sessions");
}

#[test]
fn what_readers_see_agrees() {
    agree("readers");
}

/// Every relation of at most three roles, alone and with a byte left over. Of the relations of 0, 1, 2 and
/// 3 roles, 1, 1, 4 and 64 are reflexive, 1, 1, 4 and 29 of these transitive, 1, 1, 3 and 19 of these orders.
#[test]
fn every_small_hierarchy_agrees() {
    let (all, reflexive, transitive, orders) = (531, 70, 35, 24);
    let (mut alone, mut longer) = ([0; 4], [0; 4]);
    for count in 0..=3 {
        for relation in 0..1u64 << (count * count) {
            let row = |role: usize| relation >> (role * count) & ((1 << count) - 1);
            let mut plain = Plain::default();
            plain.roles.extend((0..count).map(row));
            let mut bytes = plain.bytes();
            alone[held_step(&bytes)] += 1;
            bytes.push(0);
            longer[held_step(&bytes)] += 1;
        }
    }
    let failing = [all - reflexive, reflexive - transitive, transitive - orders];
    assert_eq!((alone[0], &alone[1..]), (orders, &failing[..]));
    assert_eq!(longer, [all, 0, 0, 0]);
}

/// The step of tables, on which all agree.
fn held_step(tables: &[u8]) -> usize {
    let question = Question::RankStep(tables.into());
    let expected = question.plain();
    assert_eq!(question.fast(), expected, "{}", question.command(0));
    question.hold(&expected, 0, 0);
    question.counted(&expected)
}

/// A step fails exactly where tables are refused 7. The generated hierarchies fail each step often, in
/// many of them the first role at fault fails a later step, and faults beside them hide each step often
/// and leave it often.
#[test]
fn each_step_fails_shown_and_hidden() {
    let random = &mut Random::new(18);
    let (mut alone, mut hidden, mut left, mut later) = ([0; 4], [0; 4], [0; 4], 0);
    for _ in 0..4_000 {
        let plain = tables::unranked(random);
        let step = refused_step(&plain.bytes());
        alone[step] += 1;
        later += u32::from(first_role_step(&plain.roles) > step);
        match refused_step(&tables::spoiled(random, plain)) {
            0 => hidden[step] += 1,
            beside => left[beside] += 1,
        }
    }
    for times in [alone, hidden, left] {
        assert!(times[1..].iter().all(|&times| times >= 100), "{times:?}");
    }
    assert!(later >= 100, "{later}");
}

/// The library's step of tables, which is 0 unless it refuses them 7.
fn refused_step(tables: &[u8]) -> usize {
    let step = rcl2000::rank_step(tables);
    let refused = rcl2000::check_tables(tables) == Err(Refusal::Rank);
    assert_eq!(step.is_some(), refused, "{tables:x?}");
    step.map_or(0, |step| step.number() as usize)
}

/// The first step that the first role at fault fails, or 0.
fn first_role_step(rows: &[u64]) -> usize {
    let fails = |role: usize| {
        let (row, others) = (rows[role], (0..rows.len()).filter(|&other| other != role));
        let juniors = others.filter(|junior| row >> junior & 1 == 1);
        let steps = [
            row >> role & 1 == 0,
            juniors.clone().any(|junior| rows[junior] & !row != 0),
            juniors.clone().any(|junior| rows[junior] >> role & 1 == 1),
        ];
        steps.iter().position(|&fails| fails)
    };
    let first = (0..rows.len()).find_map(fails);
    first.map_or(0, |place| place + 1)
}

/// Forecasts of which each thing is refused or nothing is, into outputs of every length up to twice theirs:
/// 17 below 16, and no byte behind them changes.
#[test]
fn forecasts_into_every_length() {
    let random = &mut Random::new(19);
    for _ in 0..scaled(400) {
        let question = forecast(random);
        let expected = question.plain();
        for length in 0..=2 * Forecast::BYTES {
            for guard in [16, 0] {
                question.hold(&expected, length, guard);
            }
        }
    }
}

/// Full choices are never above the ceiling, and the formula has the length that was told; what is refused
/// is refused alike. In many of the verdicts full is the ceiling, in many it is less, and in many of these it
/// is 0.
#[test]
fn verdicts_are_as_forecast() {
    let random = &mut Random::new(21);
    let (mut reached, mut less, mut none, mut refused) = (0, 0, 0, 0);
    for _ in 0..4_000 {
        let Question::Judge(tables, rule, _) = judged(random, 8, FEW) else {
            unreachable!("a verdict is asked for");
        };
        let told = rcl2000::forecast(&tables, &rule);
        let verdict = rcl2000::judge_in_turn(&tables, &rule);
        let (told, verdict) = match (told, verdict) {
            (Ok(told), Ok(verdict)) => (told, verdict),
            (told, verdict) => {
                assert_eq!(told.err(), verdict.err());
                refused += 1;
                continue;
            }
        };
        assert_eq!(
            rcl2000::reduce(&rule).map(|text| text.len()),
            Ok(told.length)
        );
        match told.ceiling.checked_sub(verdict.full) {
            Some(0) => reached += 1,
            Some(_) => less += 1,
            None => panic!("{} above {}: {rule:?}", verdict.full, told.ceiling),
        }
        none += u32::from(told.ceiling > 0 && verdict.full == 0);
    }
    for times in [reached, less, none, refused] {
        assert!(times >= 200, "{reached} {less} {none} {refused}");
    }
}

/// The accepted rules that forecasts are asked for have no variables and up to eight, and as sets of these
/// each sort, each collection, all others of a collection, pairs of collections, a collection's element and
/// calls.
#[test]
fn forecasts_are_of_every_set() {
    let random = &mut Random::new(22);
    let (mut variables, mut sets) = ([0; 9], BTreeMap::new());
    for _ in 0..8_000 {
        let Question::Forecast(_, rule) = forecast(random) else {
            unreachable!("a forecast is asked for");
        };
        let Ok(read) = reference::rule::read(&rule) else {
            continue;
        };
        variables[read.variables.len()] += 1;
        for variable in &read.variables {
            *sets.entry(form(&read, &variable.set)).or_insert(0) += 1;
        }
    }
    assert!(variables.iter().all(|&times| times >= 200), "{variables:?}");
    // Nine names; of each collection its others, pairs and elements; of each of the six sorts others, pairs
    // and calls.
    assert_eq!(sets.len(), 9 + 3 * 3 + 6 * 3, "{sets:?}");
    assert!(sets.values().all(|&times| times >= 50), "{sets:?}");
}

/// The kind of a set and the form that it is written in.
fn form(rule: &Rule, set: &Term) -> String {
    let kinds = Kinds::of(rule).expect("an accepted rule has kinds");
    let form = match set {
        Term::Basic(_) => "name",
        Term::One(_) => "element",
        Term::Other(_) => "others",
        Term::Meet(..) | Term::Join(..) => "pair",
        Term::Call(..) | Term::Call2(..) => "call",
    };
    format!("{form} {:?}", kinds.term(set))
}

/// Of the generated pages of several lines, many have fewer walks than lines, and of these most have
/// more than one; lines are refused at the first place, at the last and between.
#[test]
fn pages_share_walks_and_are_refused_everywhere() {
    let random = &mut Random::new(16);
    let (mut shared, mut several, mut refused) = (0, 0, [0; 3]);
    for _ in 0..2_000 {
        let page = pages::any(random);
        let count = lines(&page).len();
        match PLAIN.judge_page(&[0; MIN_TABLES], &page) {
            Ok(page) if (page.walks as usize) < count => {
                shared += 1;
                several += u32::from(page.walks > 1);
            }
            Ok(_) => {}
            Err(Refused { position: 0, .. }) => assert!(!(1..=32).contains(&count)),
            Err(Refused { position: 1, .. }) => refused[0] += 1,
            Err(Refused { position, .. }) => {
                refused[1 + usize::from(position as usize == count)] += 1
            }
        }
    }
    assert!(shared >= 600 && several >= 300, "{shared} {several}");
    assert!(refused.iter().all(|&times| times >= 50), "{refused:?}");
}

/// Verdicts with more than a million full choices, by the fast modules.
#[test]
fn large_verdicts_agree() {
    let random = &mut Random::new(12);
    for _ in 0..scaled(LARGE_ONES) {
        let (question, expected) = large(random);
        question.hold(&expected, Verdict::BYTES, 16);
    }
}

/// The fourth rule of Table I on the largest tables, 64⁴ choices, by the fast modules.
#[test]
fn sixteen_million_choices_agree() {
    let tables = tables::full(&mut Random::new(1)).bytes();
    let question = Question::judge(tables, rules::PAPER[3].into(), vec![1, 2, 3, 4]);
    let expected = question.fast();
    assert_eq!(expected.as_deref().map(full), Ok(1 << 24));
    question.hold(&expected, Verdict::BYTES, 16);
}

/// A million choices, by the plain modules, which try every one.
#[test]
fn a_million_choices_one_by_one() {
    let mut plain = tables::full(&mut Random::new(13));
    plain.users.truncate(32);
    plain.sessions.clear();
    plain.done.retain(|row| row[0] < 32);
    plain.cr.truncate(32);
    plain.cp.truncate(48);
    plain.cu.clear();
    let rule = b"|(roles(OE(U))&OE(CR))|<2=>OE(OE(CP))@permissions(roles(OE(U)))".to_vec();
    let question = Question::judge(plain.bytes(), rule, vec![1, 2, 3, 4]);
    let expected = question.plain();
    assert!(expected.as_deref().map(full).is_ok_and(|full| full > LARGE));
    question.hold(&expected, Verdict::BYTES, 16);
}

#[test]
fn the_builder_encodes_what_the_tables_say() {
    let random = &mut Random::new(6);
    for _ in 0..scaled(2_000) {
        let plain = tables::accepted(random, 64);
        assert_eq!(plain.builder().build(), Ok(plain.bytes()));
        assert_eq!(plain.builder_by_juniors().build(), Ok(plain.bytes()));
    }
}

/// One in five of the accepted tables has a session under a role that is junior to an assigned one
/// and not assigned itself.
#[test]
fn juniors_are_opened_often() {
    let random = &mut Random::new(14);
    let beyond = (0..1_000).filter(|_| tables::filled(random, 12).beyond_assigned() > 0);
    let beyond = beyond.count();
    assert!(beyond >= 200, "{beyond}");
    assert_eq!(tables::full(random).beyond_assigned(), 0);
    assert!(tables::full_of_juniors(random).beyond_assigned() > 32);
}

/// Spoiled tables: the builder gives the reference's refusal, with rows for 20, 7, 8 and 9.
#[test]
fn the_builder_names_the_rows_at_fault() {
    let random = &mut Random::new(11);
    let mut met = [0; 21];
    for _ in 0..scaled(20_000) {
        let mut plain = tables::accepted(random, 12);
        plain.spoil(random);
        let expected = reference::tables::read(&plain.bytes()).err().unwrap_or(0);
        let number = match plain.builder().build() {
            Ok(_) => 0,
            Err(BuildError::Refused { refusal, faults }) => {
                assert!(!faults.is_empty(), "{refusal}");
                refusal.number()
            }
            Err(BuildError::Unencodable(Unencodable::TooMany { .. })) => 2,
            Err(BuildError::Unencodable(Unencodable::NoSuchItem { .. })) => 5,
            Err(error) => panic!("{error}"),
        };
        // The builder makes the permissions' rows itself, so that it cannot miscount them, and gives no roles
        // to a leaver.
        let leavers = (0..plain.users.len()).filter(|&user| plain.has_left(user));
        let roles_left = leavers.fold(0, |word, user| word | plain.users[user]) != 0;
        if expected != 6 && number != 3 && !roles_left {
            assert_eq!(number, expected);
        }
        met[number as usize] += 1;
    }
    for number in [0, 5, 7, 8, 9, 20] {
        assert!(met[number] >= scaled(20_000) / 1_000, "{number}: {met:?}");
    }
}
