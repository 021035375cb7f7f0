//! Sessions that come and go: what document 02 says of them, by the calls on states and by a live rule.

use rcl2000::{judge_in_turn, session_close, session_close_into, session_open, session_open_into};
use rcl2000::{sessions_start, sessions_start_into, LiveRule, OpenSession, Refusal, Role, Session};
use rcl2000::{TablesBuilder, User, Verdict, MAX_STATE, MIN_TABLES};

/// A rule that mentions S, one that mentions `sessions`, and one that mentions neither.
const S: &str = "roles(OE(S))!={}";
const SESSIONS: &str = "|sessions(OE(U))|<=1";
const NEITHER: &str = "|roles(OE(U))|<=0";

/// Words of roles: none, the lowest, one that nobody has, and two that the tables do not have.
const ROLES: [u64; 5] = [0, 0b001, 0b100, 0b1000, u64::MAX];

/// Roles: 0 below 1, and 2 beside them. Users: 0 has role 1, 1 has role 0, 2 left, 3 has no role.
fn mill() -> TablesBuilder {
    let mut tables = TablesBuilder::new();
    let hand = tables.role([]);
    let leader = tables.role([hand]);
    tables.role([]);
    tables.user([leader]);
    tables.user([hand]);
    tables.user_left();
    tables.user([]);
    tables
}

/// The same with so many sessions of user 3.
fn with_open(count: usize) -> Vec<u8> {
    let mut tables = mill();
    for _ in 0..count {
        tables.session(User::numbered(3), []);
    }
    tables.build().unwrap()
}

fn start(tables: &[u8], rule: &str) -> Vec<u8> {
    sessions_start(tables, rule.as_bytes()).unwrap()
}

/// The users of the sessions that are open, and the words of their roles.
fn listed(live: &LiveRule) -> Vec<(usize, u64)> {
    let sessions = live.sessions();
    sessions
        .map(|open| (open.user.number(), open.word))
        .collect()
}

#[test]
fn a_state_is_a_verdict_a_rule_and_tables() {
    let tables = with_open(2);
    for rule in [S, SESSIONS, NEITHER] {
        let state = start(&tables, rule);
        let (verdict, rest) = state.split_at(Verdict::BYTES);
        let verdict = Verdict::from_bytes(verdict.try_into().unwrap());
        assert_eq!(verdict, judge_in_turn(&tables, rule.as_bytes()).unwrap());
        assert_eq!(rest[..2], [rule.len() as u8, 0]);
        assert_eq!(rest[2..], [rule.as_bytes(), &tables].concat());
    }
}

#[test]
fn a_start_is_refused_for_tables_rule_and_output_in_turn() {
    let (tables, mut out) = (with_open(0), [7; MAX_STATE]);
    let mut refused = |tables: &[u8], rule: &str, length: usize| {
        let refusal = sessions_start_into(tables, rule.as_bytes(), &mut out[..length]).unwrap_err();
        assert_eq!(out, [7; MAX_STATE]);
        refusal
    };
    for length in [0, MAX_STATE] {
        assert_eq!(refused(&[1], "", length), Refusal::CutShort);
        assert_eq!(refused(&tables, "", length), Refusal::RuleLength);
        assert_eq!(refused(&tables, "OE(S)=S", length), Refusal::Kind);
    }
    let long = start(&tables, S).len();
    for length in [0, 26, 28, long - 1] {
        assert_eq!(refused(&tables, S, length), Refusal::ShortSheet);
    }
    assert_eq!(
        sessions_start_into(&tables, S.as_bytes(), &mut out),
        Ok(long)
    );
    assert_eq!(out[long..], [7; MAX_STATE][long..]);
}

/// Each refusal of an opening beside all that come after it, whether or not the rule is judged again.
#[test]
fn an_opening_is_refused_21_5_20_8_17() {
    let mut out = [7; MAX_STATE];
    let mut refused = |state: &[u8], user: u32, roles: u64| {
        let refusal = session_open_into(state, user, roles, &mut out[..40]).unwrap_err();
        assert_eq!(out, [7; MAX_STATE]);
        refusal
    };
    for rule in [S, SESSIONS, NEITHER] {
        let [room, full] = [63, 64].map(|open| start(&with_open(open), rule));
        for (user, roles) in (0..6).flat_map(|user| ROLES.map(|roles| (user, roles))) {
            assert_eq!(refused(&full, user, roles), Refusal::FullHouse);
            let refusal = match (user, roles) {
                (4.., _) | (_, 0b1000..) => Refusal::NoSuchItem,
                (2, _) => Refusal::Left,
                (_, 0) | (0 | 1, 0b001) => Refusal::ShortSheet,
                _ => Refusal::Overreach,
            };
            assert_eq!(refused(&room, user, roles), refusal, "{user} {roles:b}");
        }
    }
}

/// No number is cut to a byte.
#[test]
fn numbers_of_users_and_sessions_above_255() {
    let state = start(&with_open(1), S);
    for number in [4, 255, 256, 257, 65_536, 1 << 31, u32::MAX] {
        assert_eq!(session_open(&state, number, 0), Err(Refusal::NoSuchItem));
        assert_eq!(session_close(&state, number), Err(Refusal::NotOpen));
    }
}

/// A junior role is opened as the assigned one is, a senior one and one beside it are not.
#[test]
fn roles_that_a_session_may_have() {
    let state = start(&with_open(0), S);
    for (user, roles) in [(0, 0b000), (0, 0b010), (0, 0b001), (0, 0b011), (1, 0b001)] {
        assert!(
            session_open(&state, user, roles).is_ok(),
            "{user} {roles:b}"
        );
    }
    for (user, roles) in [(0, 0b100), (0, 0b111), (1, 0b010), (1, 0b100), (3, 0b001)] {
        let refused = session_open(&state, user, roles);
        assert_eq!(refused, Err(Refusal::Overreach), "{user} {roles:b}");
    }
}

#[test]
fn sixty_three_sessions_one_more_and_none_more() {
    let state = session_open(&start(&with_open(63), S), 1, 1).unwrap();
    assert_eq!(session_open(&state, 1, 1), Err(Refusal::FullHouse));
    let state = session_close(&state, 5).unwrap();
    assert!(session_open(&state, 1, 1).is_ok());
}

#[test]
fn a_number_that_is_not_open() {
    for open in [0, 1, 64] {
        let state = start(&with_open(open), S);
        for number in 0..66 {
            let closed = session_close(&state, number as u32).map(|next| state.len() - next.len());
            let expected = if number < open {
                Ok(9)
            } else {
                Err(Refusal::NotOpen)
            };
            assert_eq!(closed, expected, "{number} of {open}");
        }
    }
}

/// The next state is written where it has room, and 17 is all that a byte less changes.
#[test]
fn outputs_of_the_states_length_and_one_less() {
    let state = start(&with_open(1), S);
    let lengths = [(state.len() + 9, true), (state.len() - 9, false)];
    for (length, opening) in lengths {
        let call = |out: &mut [u8]| match opening {
            true => session_open_into(&state, 1, 1, out),
            false => session_close_into(&state, 0, out),
        };
        let mut short = vec![7; length - 1];
        assert_eq!(call(&mut short), Err(Refusal::ShortSheet));
        assert_eq!(short, vec![7; length - 1]);
        let mut longer = vec![7; length + 1];
        assert_eq!(call(&mut longer), Ok(length));
        assert_eq!(longer[length], 7);
    }
}

/// What is no state is refused by its length, then for its tables, then for its rule; its verdict is not looked at, and
/// is handed on where the rule mentions no session.
#[test]
fn other_states() {
    let calls = |state: &[u8]| [session_open(state, 1, 1), session_close(state, 0)];
    let refused = |state: &[u8], refusal: Refusal| {
        assert_eq!(calls(state), [Err(refusal), Err(refusal)]);
    };
    let tables = with_open(1);
    let state = |rule: &str, tables: &[u8]| {
        let length = (rule.len() as u16).to_le_bytes();
        [&[9; 26][..], &length, rule.as_bytes(), tables].concat()
    };
    refused(&[], Refusal::CutShort);
    refused(&state("", &[])[..27], Refusal::CutShort);
    refused(&state("U=U", &[])[..30], Refusal::CutShort);
    refused(&state("U=U", &[]), Refusal::CutShort);
    refused(&state("U", &[65]), Refusal::Overfull);
    refused(
        &state("U", &[&tables[..], &[0]].concat()),
        Refusal::LeftOver,
    );
    refused(&state("", &tables), Refusal::RuleLength);
    refused(&state(&"U".repeat(257), &tables), Refusal::RuleLength);
    refused(&state("U=S", &tables), Refusal::Kind);
    for (rule, stays) in [(S, false), (SESSIONS, false), (NEITHER, true)] {
        for next in calls(&state(rule, &tables)) {
            assert_eq!(next.unwrap()[..26] == [9; 26], stays, "{rule}");
        }
    }
}

#[test]
fn a_live_rule_follows_its_sessions() {
    let mut live = LiveRule::start(&with_open(1), SESSIONS.as_bytes()).unwrap();
    let [ana, berto] = [0, 1].map(User::numbered);
    let [hand, leader] = [0, 1].map(Role::numbered);
    assert_eq!(live.verdict().to_string(), "held 3 0 0");
    assert_eq!(live.open(ana, [leader]).unwrap().number(), 1);
    assert_eq!(live.open(berto, [hand, hand]).unwrap().number(), 2);
    assert_eq!(live.open(ana, [hand, leader]).unwrap().number(), 3);
    assert_eq!(listed(&live), [(3, 0), (0, 2), (1, 1), (0, 3)]);
    assert_eq!(live.verdict().to_string(), "broken 3 1 33 v1=0");
    live.close(Session::numbered(1)).unwrap();
    assert_eq!(listed(&live), [(3, 0), (1, 1), (0, 3)]);
    assert_eq!(live.verdict().to_string(), "held 3 0 0");
    let last = live.sessions().last().unwrap();
    let (session, user) = (Session::numbered(2), ana);
    assert_eq!(
        last,
        OpenSession {
            session,
            user,
            word: 3
        }
    );
    assert!(last.roles().eq([hand, leader]));
    for _ in 0..3 {
        live.close(Session::numbered(0)).unwrap();
    }
    assert_eq!(
        (live.sessions().len(), live.rule()),
        (0, SESSIONS.as_bytes())
    );
    assert_eq!(live.tables(), mill().build().unwrap());
}

/// Typed numbers that no call takes are refused as others that the tables do not have, each in its place.
#[test]
fn a_refused_call_leaves_a_live_rule_as_it_was() {
    let (user, role) = (User::numbered, |number| [Role::numbered(number)]);
    for (open, refusal) in [(64, Refusal::FullHouse), (63, Refusal::NoSuchItem)] {
        let mut live = LiveRule::start(&with_open(open), S.as_bytes()).unwrap();
        let before = live.clone();
        for number in [3, 63, 64, 65, 1 << 32, usize::MAX] {
            assert_eq!(live.open(user(0), role(number)), Err(refusal));
            assert_eq!(live.open(user(2), role(number)), Err(refusal));
        }
        for number in [4, 255, 256, 1 << 32, (1 << 32) + 1, usize::MAX] {
            assert_eq!(live.open(user(number), []), Err(refusal));
        }
        for number in [open, 255, 256, 1 << 32, usize::MAX] {
            assert_eq!(live.close(Session::numbered(number)), Err(Refusal::NotOpen));
        }
        assert_eq!(live, before);
    }
    let mut live = LiveRule::start(&with_open(0), S.as_bytes()).unwrap();
    let before = live.clone();
    assert_eq!(live.open(user(2), []), Err(Refusal::Left));
    assert_eq!(live.open(user(1), role(1)), Err(Refusal::Overreach));
    assert_eq!(live.open_word(1, 1 << 63), Err(Refusal::NoSuchItem));
    assert_eq!(live, before);
}

/// A state that was kept goes on, whoever has called in between; one in which anything else stands is refused, or is
/// that of other tables, judged as these are.
#[test]
fn a_live_rule_from_a_state() {
    let mut live = LiveRule::start(&with_open(2), S.as_bytes()).unwrap();
    live.open_word(0, 0b01).unwrap();
    let kept = session_close(live.state(), 1).unwrap();
    live.close(Session::numbered(1)).unwrap();
    assert_eq!(LiveRule::from_state(&kept).as_ref(), Ok(&live));
    assert_eq!(live.into_state(), kept);
    for length in 0..kept.len() {
        let refusal = LiveRule::from_state(&kept[..length]).unwrap_err();
        assert_eq!(refusal, Refusal::CutShort, "{length} bytes");
    }
    for place in 0..kept.len() {
        let mut damaged = kept.clone();
        damaged[place] ^= 1;
        let restored = LiveRule::from_state(&damaged);
        assert_eq!(
            restored.as_ref().err(),
            session_close(&damaged, 0).as_ref().err()
        );
        if let Ok(live) = restored {
            let verdict = judge_in_turn(live.tables(), live.rule());
            assert_eq!(Ok(live.verdict()), verdict, "byte {place}");
        }
    }
}

#[test]
fn nobody_opens_anything() {
    let mut live = LiveRule::start(&[0; MIN_TABLES], b"S={}").unwrap();
    assert_eq!(live.verdict().to_string(), "held 1 0 0");
    assert_eq!(live.open_word(0, 0), Err(Refusal::NoSuchItem));
    assert_eq!(live.close(Session::numbered(0)), Err(Refusal::NotOpen));
    assert_eq!(live.sessions().len(), 0);
}
