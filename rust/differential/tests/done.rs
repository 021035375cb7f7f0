//! Who already did what: what Done's rows are held against and when, that they count as a set, and that those of
//! leavers never count.

use std::collections::BTreeSet;

use differential::done::{MOST, ROW};
use differential::hold::{reply, Question};
use differential::leavers::{Still, STILL};
use differential::random::Random;
use differential::tables::{self, Plain};
use differential::{done, orders, rules, scaled};
use rcl2000::{check_rule, check_tables, judge_in_turn, rebuild, reduce};
use rcl2000::{Page, Refusal, Verdict, Word, MAX_RULE, MAX_TABLES};

/// Small tables of everything with rows of Done, and now and then leavers.
fn small(random: &mut Random) -> Plain {
    let mut plain = tables::filled(random, 6);
    plain.leave_some(random, 1);
    let count = random.between(1, 12);
    plain.perform(random, count);
    plain
}

/// Such tables with a leaver.
fn with_a_leaver(random: &mut Random) -> Plain {
    loop {
        let plain = small(random);
        if plain.left != 0 {
            return plain;
        }
    }
}

/// The number of tables' refusal, or 0.
fn number(tables: &[u8]) -> u32 {
    check_tables(tables).map_or_else(Refusal::number, |()| 0)
}

/// What each call that reads tables returns and leaves for them, by rules that ask for Done and by others.
fn answers(plain: &Plain, seed: u64) -> Vec<(u32, Vec<u8>)> {
    let (random, tables) = (&mut Random::new(seed), plain.bytes());
    let mut texts = rules::DONE.map(String::from).to_vec();
    texts.push(random.pick(&rules::PAPER).to_string());
    let mut questions = vec![
        Question::RankStep(tables.clone().into()),
        Question::judge_page(tables.clone(), texts.join("\n").into()),
    ];
    for text in texts {
        let read = reference::rule::read(text.as_bytes()).expect("an accepted rule");
        let order = orders::admissible(random, &read);
        questions.push(Question::forecast(tables.clone(), text.clone().into()));
        questions.push(Question::judge(tables.clone(), text.into(), order));
    }
    let asked = questions.iter().map(|question| {
        let mut out = vec![0; Page::MAX_BYTES];
        (reply(question.ask(&mut out)), out)
    });
    asked.collect()
}

/// Rows in another order, each once, or as often as there is room: no answer changes.
#[test]
fn rows_count_as_a_set() {
    let random = &mut Random::new(41);
    for seed in 0..scaled(300) {
        let plain = small(random);
        let expected = answers(&plain, seed);
        let once: BTreeSet<[u8; ROW]> = plain.done.iter().copied().collect();
        let once: Vec<[u8; ROW]> = once.into_iter().collect();
        let mut turned = plain.done.clone();
        random.shuffle(&mut turned);
        let filled = once.iter().cycle().take(MOST.max(once.len()));
        let filled: Vec<[u8; ROW]> = filled.copied().collect();
        for done in [once, turned, filled] {
            let other = Plain {
                done,
                ..plain.clone()
            };
            assert_eq!(answers(&other, seed), expected, "{:?}", plain.done);
        }
    }
}

/// Rows of leavers more or fewer: no answer changes, and tables that are refused for something else still are.
#[test]
fn rows_of_leavers_never_count() {
    let random = &mut Random::new(42);
    let mut met = 0;
    for seed in 0..scaled(300) {
        let plain = small(random);
        let mut without = plain.clone();
        without.done.retain(|row| !plain.has_left(row[0].into()));
        met += u64::from(without.done.len() < plain.done.len());
        assert_eq!(answers(&without, seed), answers(&plain, seed));
        let (mut spoiled, mut other) = (plain.clone(), plain);
        spoiled.unrank(random);
        other.roles = spoiled.roles.clone();
        other.done = without.done;
        assert_eq!(number(&spoiled.bytes()), number(&other.bytes()));
    }
    assert!(met >= scaled(300) / 4, "{met}");
}

/// What the rules count is what the rows say of present users: each by himself, all, and those of a word.
#[test]
fn done_is_the_union_over_the_users() {
    let random = &mut Random::new(43);
    for _ in 0..scaled(400) {
        let plain = small(random);
        let all: Vec<usize> = plain.present();
        let word = |word: u64| {
            all.iter()
                .copied()
                .filter(move |user| word >> user & 1 == 1)
        };
        let alone = all.iter().map(|&user| performed(&plain, [user])).sum();
        let of_words = plain.cu.iter().map(|&users| performed(&plain, word(users)));
        let of_words = of_words.sum();
        let pairs = plain.operations * plain.objects;
        for (users, times, held) in [
            ("OE(U)", all.len(), alone),
            ("U", 1, performed(&plain, all.iter().copied())),
            ("OE(CU)", plain.cu.len(), of_words),
        ] {
            let rule = format!("OE(OP)@done({users},OE(OBJ))");
            let verdict = judge_in_turn(&plain.bytes(), rule.as_bytes()).unwrap();
            let counts = (verdict.full as usize, verdict.breaking as usize);
            assert_eq!(counts, (times * pairs, times * pairs - held), "{users}");
        }
        let rule = b"(done(OE(U),OE(OBJ))+done(AO(U),OE(OBJ)))=done(U,OE(OBJ))";
        assert_eq!(
            judge_in_turn(&plain.bytes(), rule).unwrap().word,
            Word::Held
        );
    }
}

/// How many operations these users did on each object, together.
fn performed(plain: &Plain, users: impl IntoIterator<Item = usize>) -> usize {
    let users: Vec<u8> = users.into_iter().map(|user| user as u8).collect();
    let by_them = plain.done.iter().filter(|row| users.contains(&row[0]));
    let pairs: BTreeSet<(u8, u8)> = by_them.map(|row| (row[1], row[2])).collect();
    pairs.len()
}

/// Where only leavers did something, nobody did.
#[test]
fn nobody_did_what_leavers_did() {
    let random = &mut Random::new(44);
    for _ in 0..scaled(100) {
        let mut plain = with_a_leaver(random);
        let leaver = plain.left.trailing_zeros();
        plain.done.retain(|row| plain.left >> row[0] & 1 == 1);
        plain.done.push([leaver as u8, 0, 0]);
        for rule in ["done(U,OE(OBJ))={}", "done(OE(U),OE(OBJ))={}"] {
            let verdict = judge_in_turn(&plain.bytes(), rule.as_bytes()).unwrap();
            assert_eq!((verdict.word, verdict.breaking), (Word::Held, 0), "{rule}");
        }
    }
}

/// Every byte in every place of a row: a number below its count is accepted, and any other is 5.
#[test]
fn every_number_of_every_row() {
    let random = &mut Random::new(45);
    for _ in 0..scaled(20) {
        let plain = small(random);
        let (first, bytes) = (plain.nine_sections().len() + 1, plain.bytes());
        for (place, count) in plain.counts().into_iter().cycle().enumerate() {
            let at = first + place;
            if at == bytes.len() {
                break;
            }
            for value in 0..=u8::MAX {
                let mut bytes = bytes.clone();
                bytes[at] = value;
                let expected = if usize::from(value) < count { 0 } else { 5 };
                assert_eq!(number(&bytes), expected, "{value} in place {place}");
            }
        }
    }
}

/// 64 rows are accepted, repeated or not; 65 are 2, whatever they are and however many of them are there.
#[test]
fn the_most_rows() {
    let random = &mut Random::new(46);
    let plain = tables::full(random);
    assert_eq!(plain.done.len(), MOST);
    assert_eq!(number(&plain.bytes()), 0);
    for row in [plain.done[0], [u8::MAX; ROW]] {
        let mut plain = plain.clone();
        plain.done = vec![row; MOST + 1];
        let bytes = plain.bytes();
        for missing in 0..=ROW * plain.done.len() {
            assert_eq!(number(&bytes[..bytes.len() - missing]), 2);
        }
        plain.done.pop();
        assert_eq!(number(&plain.bytes()), if row[0] < 64 { 0 } else { 5 });
    }
}

/// The largest tables, cut anywhere, are 1, also after section 9; with a byte more they are 10.
#[test]
fn every_beginning_of_the_largest_tables() {
    let mut bytes = tables::full(&mut Random::new(47)).bytes();
    assert_eq!((bytes.len(), number(&bytes)), (MAX_TABLES, 0));
    for length in 0..bytes.len() {
        assert_eq!(number(&bytes[..length]), 1, "{length} bytes");
    }
    bytes.push(0);
    assert_eq!(number(&bytes), 10);
}

/// What is met in Done comes before what is looked for behind it, and a row is whole before it is looked at.
#[test]
fn done_is_read_before_10_20_7_8_9() {
    let random = &mut Random::new(48);
    for _ in 0..scaled(200) {
        let mut plain = with_a_leaver(random);
        plain.roles[0] = 0;
        plain.cp.push(plain.cp[0]);
        let still = *random.pick(&STILL);
        plain.keep(random, still);
        assert_eq!(number(&plain.bytes()), 20);
        assert_eq!(number(&plain.nine_sections()), 1);
        let mut wrong = plain.clone();
        wrong.overstep(random);
        let mut bytes = wrong.bytes();
        for _ in 0..2 {
            assert_eq!(number(&bytes), 5);
            bytes.push(0);
        }
        let mut bytes = plain.bytes();
        bytes.push(0);
        assert_eq!(number(&bytes), 10);
        // The last row alone is wrong, and then it is cut short.
        *plain.done.last_mut().expect("there are rows") = [u8::MAX; ROW];
        let bytes = plain.bytes();
        assert_eq!(number(&bytes), 5);
        for missing in 1..=ROW {
            assert_eq!(number(&bytes[..bytes.len() - missing]), 1);
        }
    }
}

/// A leaver's rows beside what is 20 of him: they are no reason themselves.
#[test]
fn a_leaver_may_stand_in_done() {
    let random = &mut Random::new(49);
    for _ in 0..scaled(100) {
        let mut plain = with_a_leaver(random);
        let leaver = plain.left.trailing_zeros();
        plain.done = vec![[leaver as u8, 0, 0]; MOST];
        assert_eq!(number(&plain.bytes()), 0);
        plain.keep(random, Still::Word);
        assert_eq!(number(&plain.bytes()), 20);
    }
}

/// Rules of 256 bytes with `done` have a formula and are rebuilt; those of 257 are 11.
#[test]
fn the_longest_rules() {
    let done = [rules::DONE[0]; 9].join("^");
    let longest = done.clone() + &"^U=U".repeat(8);
    let longer = done + "^R!=R" + &"^U=U".repeat(7);
    assert_eq!((longest.len(), longer.len()), (MAX_RULE, MAX_RULE + 1));
    let formula = reduce(longest.as_bytes()).unwrap();
    assert_eq!(rebuild(&formula).as_deref(), Ok(longest.as_bytes()));
    assert_eq!(check_rule(longer.as_bytes()), Err(Refusal::RuleLength));
    let tables = tables::full(&mut Random::new(50)).bytes();
    let question = Question::judge_in_turn(tables, &longest);
    question.hold(&question.fast(), Verdict::BYTES, 16);
}

/// Of the accepted tables many have rows of Done, repeated rows and rows of leavers; of the rules from the grammar
/// many ask for them, of one user and of several; and Done's stream meets what is wrong in them.
#[test]
fn done_is_met_often() {
    let random = &mut Random::new(51);
    let (mut some, mut repeated, mut of_leavers, mut asking, mut of_one) = (0, 0, 0, 0, 0);
    let mut refused = [0; 21];
    for _ in 0..2_000 {
        let plain = tables::accepted(random, 9);
        let once: BTreeSet<[u8; ROW]> = plain.done.iter().copied().collect();
        some += u32::from(!once.is_empty());
        repeated += u32::from(once.len() < plain.done.len());
        of_leavers += u32::from(once.iter().any(|row| plain.has_left(row[0].into())));
        let rule = rules::grown(random, 0);
        asking += u32::from(rule.contains("done("));
        of_one += u32::from(rule.contains("done(OE("));
        refused[number(&done::any(random)) as usize] += 1;
    }
    let times = [some, repeated, of_leavers, asking, of_one];
    assert!(times.iter().all(|&times| times >= 100), "{times:?}");
    assert!(
        [1, 2, 5, 10].iter().all(|&of| refused[of] >= 40),
        "{refused:?}"
    );
}
