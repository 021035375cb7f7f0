//! Sessions that come and go: hundreds of calls in a row beside judging afresh and a list that is kept apart; every user,
//! role and number at the edges; states that are cut or damaged, and rules that mention no session.

use differential::hold::{Met, Question};
use differential::random::Random;
use differential::sessions::{self, MOST, OF_NEITHER, OF_S, OF_SESSIONS};
use differential::tables::{self, Plain};
use differential::{orders, rules, scaled};
use rcl2000::{judge, judge_into, session_close, session_open, sessions_start};
use rcl2000::{LiveRule, Refusal, Session, Verdict, MAX_RULE, MAX_STATE};
use reference::protocol::Command;
use reference::sessions::{Change, State, HEAD, VERDICT};

/// The most steps of a walk that is tried after each call.
const STEPS: u64 = 500;

/// How many times calls are made in a row, and how many.
const RUNS: u64 = 100;
const CALLS: u64 = 300;

/// A state, a live rule that goes the same way, and beside them the tables as plain values.
struct Run {
    state: Vec<u8>,
    live: LiveRule,
    plain: Plain,
    rule: String,
}

impl Run {
    fn start(random: &mut Random, plain: Plain, rule: &str) -> Run {
        let question = Question::sessions_start(plain.bytes(), rule.into());
        let expected = question.fast();
        question.hold_all(&expected, random);
        let run = Run {
            state: expected.expect("made to be accepted"),
            live: LiveRule::start(&plain.bytes(), rule.as_bytes()).expect("as the state"),
            plain,
            rule: rule.to_string(),
        };
        run.compare(random);
        run
    }

    /// Makes a call, with outputs of its length, of one byte less and others, and gives its number, 0 where it is accepted.
    fn call(&mut self, random: &mut Random, change: Change) -> usize {
        let question = Question::session(self.state.clone(), change);
        let expected = question.fast();
        question.hold_all(&expected, random);
        let lived = match change {
            Change::Open { user, roles } => self.live.open_word(user, roles).map(drop),
            Change::Close { number } => self.live.close(Session::numbered(number as usize)),
        };
        let refused = lived.map_or_else(Refusal::number, |()| 0);
        assert_eq!(refused as usize, question.counted(&expected));
        if let Ok(next) = expected {
            self.plain.change(change);
            self.state = next;
        }
        self.compare(random);
        refused as usize
    }

    /// The state has the list as section 3, and the verdict that judging afresh gives, by its counts in any order.
    fn compare(&self, random: &mut Random) {
        let (tables, rule) = (self.plain.bytes(), self.rule.as_bytes());
        let state = State::split(&self.state).expect("a state has its parts");
        assert_eq!((state.rule, state.tables), (rule, &tables[..]));
        let read = reference::rule::read(rule).expect("an accepted rule");
        let in_turn: Vec<u8> = (1..=read.variables.len() as u8).collect();
        let mut afresh = [0; Verdict::BYTES];
        judge_into(&tables, rule, &in_turn, &mut afresh).expect("an accepted question");
        assert_eq!(state.verdict, afresh, "{}", self.rule);
        let verdict = self.live.verdict();
        let other = judge(&tables, rule, &orders::admissible(random, &read));
        let counts = |verdict: &Verdict| (verdict.full, verdict.breaking);
        assert_eq!(other.as_ref().map(counts), Ok(counts(&verdict)));
        assert_eq!(
            (self.live.state(), verdict),
            (&self.state[..], Verdict::from_bytes(&afresh))
        );
        let listed = self.live.sessions();
        let listed = listed.map(|open| (open.user.number() as u8, open.word));
        assert!(listed.eq(self.plain.sessions.iter().copied()));
    }
}

/// Of 300 calls in a row some are refused by each number, mostly, and the others change the state as they are to.
#[test]
fn hundreds_of_calls_in_a_row() {
    let (random, mut met) = (&mut Random::new(61), Met::default());
    for _ in 0..scaled(RUNS) {
        let (plain, rule) = sessions::started(random, STEPS);
        let mut run = Run::start(random, plain, &rule);
        for _ in 0..CALLS {
            let change = run.plain.call(random);
            met.note(run.call(random, change));
        }
    }
    if scaled(RUNS) >= RUNS {
        met.expect([5, 8, 20, 21, 22], RUNS);
        met.expect([0], RUNS * CALLS / 3);
    }
}

/// The plain modules, which try every choice, make the same of the same calls.
#[test]
fn calls_in_a_row_choice_by_choice() {
    let random = &mut Random::new(62);
    for _ in 0..scaled(40) {
        let (plain, rule) = sessions::started(random, STEPS);
        let mut run = Run::start(random, plain, &rule);
        for _ in 0..30 {
            let change = run.plain.call(random);
            let expected = reference::sessions::next(&run.state, change);
            match run.call(random, change) {
                0 => assert_eq!(expected.as_ref(), Ok(&run.state)),
                number => assert_eq!(expected, Err(number as u32)),
            }
        }
    }
}

/// What is printed where a start or a call goes wrong is read as the command that asks it.
#[test]
fn questions_are_written_as_commands() {
    let random = &mut Random::new(72);
    for _ in 0..scaled(300) {
        let question = sessions::asked(random, STEPS);
        let command = question.command(MAX_STATE);
        match (&question, Command::read(command.as_bytes())) {
            (Question::SessionsStart(..), Some(Command::Sessions(..))) => {}
            (Question::Session(state, change), Some(Command::Session(read, call, length))) => {
                assert_eq!((&read[..], call, length), (&state[..], *change, MAX_STATE));
            }
            _ => panic!("{command}"),
        }
    }
}

/// Rules of all three sorts on the same tables and calls: where a rule mentions no session its 26 bytes are those of the
/// start, and others change often.
#[test]
fn what_mentions_no_session_stays() {
    let random = &mut Random::new(63);
    let mut changed = [0, 0];
    for _ in 0..scaled(10) {
        let plain = tables::filled(random, 6);
        for (rules, sort) in [(&OF_S[..], 0), (&OF_SESSIONS, 1), (&OF_NEITHER, 2)] {
            let rule = *random.pick(rules);
            let mut run = Run::start(random, plain.clone(), rule);
            for _ in 0..40 {
                let before = run.state[..VERDICT].to_vec();
                let change = run.plain.call(random);
                run.call(random, change);
                match sort {
                    2 => assert_eq!(run.state[..VERDICT], before, "{}", run.rule),
                    _ => changed[sort] += u64::from(run.state[..VERDICT] != before),
                }
            }
        }
    }
    assert!(
        changed.iter().all(|&times| times >= scaled(10)),
        "{changed:?}"
    );
}

/// Of a state with any 26 bytes these stay exactly where neither `S` nor `sessions` stands in the rule.
#[test]
fn what_a_rule_mentions() {
    let (random, mut times) = (&mut Random::new(64), [0, 0]);
    for _ in 0..scaled(2_000) {
        let tables = tables::of_size(random, 1).bytes();
        let rule = match random.below(3) {
            0 => rules::joined(random),
            _ => rules::grown(random, 0),
        };
        if reference::rule::read(rule.as_bytes()).is_err() {
            continue;
        }
        let mut state = sessions::state(rule.as_bytes(), &tables);
        state[..VERDICT].fill(9);
        let question = Question::session(state, Change::Close { number: 0 });
        let next = question.plain().expect("a session is open");
        let mentions = rule.contains('S') || rule.contains("sessions");
        assert_eq!(next[..VERDICT] != [9; VERDICT], mentions, "{rule}");
        question.hold(&Ok(next.clone()), next.len(), 16);
        times[usize::from(mentions)] += 1;
    }
    assert!(
        times.iter().all(|&times| times >= scaled(2_000) / 10),
        "{times:?}"
    );
}

/// The number for which an opening is refused, by the rows alone.
fn refused(plain: &Plain, user: usize, roles: u64) -> u32 {
    let beyond = roles.checked_shr(plain.roles.len() as u32).unwrap_or(0);
    if plain.sessions.len() == MOST {
        21
    } else if user >= plain.users.len() || beyond != 0 {
        5
    } else if plain.has_left(user) {
        20
    } else if roles & !plain.reached(user) != 0 {
        8
    } else {
        0
    }
}

/// Each user, some who are not there, and each role, alone and beside what the user may have, where there is room and
/// where there is none.
#[test]
fn every_user_and_every_role() {
    let random = &mut Random::new(65);
    for _ in 0..scaled(6) {
        let size = *random.pick(&[3, 9, 64]);
        let mut plain = tables::of_size(random, size);
        plain.leave_some(random, 1);
        for open in [MOST - 1, MOST] {
            plain.sessions.truncate(open);
            plain.open_up_to(random, open);
            let state = sessions_start(&plain.bytes(), b"U=U").expect("made to be accepted");
            let far = [255, 256, 257, u32::MAX as usize];
            for user in (0..plain.users.len() + 2).chain(far) {
                let all = plain.users.get(user).map_or(0, |_| plain.reached(user));
                let words = (0..64).flat_map(|role| [1 << role, all | 1 << role]);
                for roles in words.chain([0, all, u64::MAX]) {
                    let number = session_open(&state, user as u32, roles);
                    let number = number.map_or_else(Refusal::number, |_| 0);
                    assert_eq!(number, refused(&plain, user, roles), "{user} {roles:x}");
                }
            }
        }
    }
}

/// Each number is closed, and what is behind it moves down; the count and what is above it are 22.
#[test]
fn every_number_that_is_open() {
    let random = &mut Random::new(66);
    for open in [0, 1, 2, 63, 64] {
        let mut plain = tables::of_size(random, 9);
        plain.sessions.truncate(open);
        plain.open_up_to(random, open);
        let start = sessions_start(&plain.bytes(), b"S=S").expect("made to be accepted");
        for number in (0..open as u32 + 2).chain([255, 256, 257, u32::MAX]) {
            let closed = session_close(&start, number);
            let Ok(next) = closed else {
                assert_eq!(closed, Err(Refusal::NotOpen), "{number} of {open}");
                assert!(number >= open as u32);
                continue;
            };
            let mut plain = plain.clone();
            plain.change(Change::Close { number });
            assert_eq!(
                next,
                sessions_start(&plain.bytes(), b"S=S").expect("fewer sessions")
            );
        }
    }
}

/// A session opened and one closed, each accepted where the state is.
fn changes(plain: &Plain) -> [Change; 2] {
    let user = plain.present()[0];
    let (user, roles) = (user as u32, plain.reached(user));
    let number = plain.sessions.len() as u32 - 1;
    [Change::Open { user, roles }, Change::Close { number }]
}

/// Small tables with a few sessions, and a state of theirs for a rule of each sort.
fn small(random: &mut Random) -> (Plain, [Vec<u8>; 3]) {
    let plain = tables::of_size(random, 2);
    let rules = [&OF_S[..], &OF_SESSIONS, &OF_NEITHER];
    let states = rules.map(|rules| {
        let rule = random.pick(rules).as_bytes();
        sessions_start(&plain.bytes(), rule).expect("made to be accepted")
    });
    (plain, states)
}

/// A state that is cut anywhere is 1, the longest too, whatever is to be done.
#[test]
fn every_beginning_of_a_state() {
    let random = &mut Random::new(67);
    let mut cases = Vec::new();
    for _ in 0..scaled(5) {
        let (plain, states) = small(random);
        cases.extend(states.map(|state| (changes(&plain), state)));
    }
    let (plain, state) = longest(random);
    cases.push((changes(&plain), state));
    for (changes, state) in cases {
        for length in 0..state.len() {
            for change in changes {
                let question = Question::session(state[..length].to_vec(), change);
                let expected = Err(1.into());
                assert_eq!(question.fast(), expected, "{length} bytes");
                question.hold(&expected, state.len() + sessions::ROW, 0);
            }
        }
    }
}

/// The largest tables and a rule of 256 bytes, as plain values and as their state.
fn longest(random: &mut Random) -> (Plain, Vec<u8>) {
    let plain = tables::full_of_juniors(random);
    let rule = OF_S[3].to_string() + "^R!=R" + &"^U=U".repeat(56);
    assert_eq!(rule.len(), MAX_RULE);
    let state = sessions_start(&plain.bytes(), rule.as_bytes()).expect("made to be accepted");
    assert_eq!(state.len(), MAX_STATE);
    (plain, state)
}

/// Each byte of a state with other values, those near it and those that a check looks for, and those of the rule's length
/// with every value: the answer, or the refusal, is that of the second implementation.
#[test]
fn every_damaged_byte_of_a_state() {
    let (random, mut met) = (&mut Random::new(68), Met::default());
    for _ in 0..scaled(3) {
        let (plain, states) = small(random);
        for state in states {
            for place in 0..state.len() {
                for value in damaged(&state, place) {
                    let mut state = state.clone();
                    state[place] = value;
                    for change in changes(&plain) {
                        met.note(held(state.clone(), change));
                    }
                }
            }
        }
    }
    met.expect([0, 1, 2, 3, 4, 5, 6, 7, 8, 10, 13, 14], scaled(3));
}

/// The values that a byte is given.
fn damaged(state: &[u8], place: usize) -> Vec<u8> {
    if (VERDICT..HEAD).contains(&place) {
        return (0..=u8::MAX).collect();
    }
    let byte = state[place];
    let near = [byte.wrapping_sub(1), byte.wrapping_add(1)];
    let flipped: [u8; 8] = std::array::from_fn(|bit| byte ^ 1 << bit);
    [&[0, 1, 2, 3, 63, 64, 65, 255][..], &near, &flipped].concat()
}

/// The number of an answer on which all agree.
fn held(state: Vec<u8>, change: Change) -> usize {
    let question = Question::session(state, change);
    let expected = question.plain();
    assert_eq!(question.fast(), expected, "{}", question.command(MAX_STATE));
    question.hold(&expected, MAX_STATE, 0);
    question.counted(&expected)
}

/// Each byte of the longest state with another value, by the fast modules.
#[test]
fn every_damaged_byte_of_the_longest_state() {
    let random = &mut Random::new(69);
    let (plain, state) = longest(random);
    let every = if scaled(100) < 100 { 40 } else { 1 };
    for place in (0..state.len()).step_by(every) {
        let mut state = state.clone();
        state[place] ^= 1 << random.below(8);
        let change = *random.pick(&changes(&plain));
        let question = Question::session(state, change);
        question.hold(&question.fast(), MAX_STATE, 0);
    }
}

/// Outputs of every length up to more than the state's: 17 below it, and no byte behind it changes.
#[test]
fn states_into_every_length() {
    let random = &mut Random::new(70);
    for _ in 0..scaled(3) {
        let (plain, [state, ..]) = small(random);
        let start = State::split(&state).expect("a state has its parts");
        let start = Question::sessions_start(plain.bytes(), start.rule.to_vec());
        let calls = changes(&plain).map(|change| Question::session(state.clone(), change));
        for question in calls.into_iter().chain([start]) {
            let expected = question.plain();
            for length in 0..state.len() + 2 * sessions::ROW {
                for guard in [16, 0] {
                    question.hold(&expected, length, guard);
                }
            }
        }
    }
}

/// Calls on the longest states: the largest tables, filled up and emptied, with a rule of 256 bytes.
#[test]
fn the_longest_states() {
    let random = &mut Random::new(71);
    let (plain, state) = longest(random);
    let rule = State::split(&state)
        .expect("a state has its parts")
        .rule
        .to_vec();
    let rule = String::from_utf8(rule).expect("rules are ASCII");
    let mut run = Run::start(random, plain, &rule);
    for _ in 0..scaled(60) {
        let change = run.plain.call(random);
        run.call(random, change);
    }
    while !run.plain.sessions.is_empty() {
        let number = random.below(run.plain.sessions.len()) as u32;
        assert_eq!(run.call(random, Change::Close { number }), 0);
    }
    let verdict = run.live.verdict();
    assert_eq!(
        (verdict.full, verdict.to_string()),
        (0, "idle 0 0 -".to_string())
    );
}
