//! Sessions that come and go: rules that mention them and rules that do not, calls that are accepted and calls that are
//! refused, and states, those that a call gave and others.

use reference::sessions::{Change, State, VERDICT};
use reference::verdict::steps;

use crate::hold::Question;
use crate::random::Random;
use crate::tables::{self, Plain};
use crate::{damage, rules};

/// The most sessions.
pub const MOST: usize = 64;

/// The bytes of a session's row.
pub const ROW: usize = 9;

/// Rules that mention S and not `sessions`.
pub const OF_S: [&str; 8] = [
    "OE(S)=OE(S)",
    "|S|<=3",
    "roles(OE(S))!={}",
    "|(roles*(OE(S))&OE(CR))|<=1",
    "user(OE(S))@user(AO(S))",
    "roles(OE(S))=roles(user(OE(S)))",
    "|(user(OE(S))+user(AO(S)))|=|user(S)|^|OE(CU)|<2",
    "done(user(OE(S)),OE(OBJ))={}",
];

/// Rules that mention `sessions` and not S.
pub const OF_SESSIONS: [&str; 5] = [
    "|sessions(OE(U))|<=1",
    "|(roles*(sessions(OE(U)))&OE(CR))|<=1",
    "OE(sessions(OE(U)))@sessions(U)",
    "roles(sessions(OE(U)))=roles(OE(U))",
    "(OE(sessions(OE(U)))+sessions(AO(U)))=sessions(U)",
];

/// Rules that mention neither.
pub const OF_NEITHER: [&str; 5] = [
    "U=U",
    "|roles(OE(U))|<=1",
    "|(roles*(OE(U))&OE(CR))|<=1",
    "OE(OBJ)@object(permissions(roles(OE(U))))",
    "|done(OE(U),OE(OBJ))|<=1",
];

/// Numbers that are nobody's, though their lowest byte may be somebody's.
const FAR: [u32; 7] = [64, 255, 256, 257, 65_536, 1 << 31, u32::MAX];

impl Plain {
    /// Makes the change of an accepted call.
    pub fn change(&mut self, change: Change) {
        match change {
            Change::Open { user, roles } => self.sessions.push((user as u8, roles)),
            Change::Close { number } => drop(self.sessions.remove(number as usize)),
        }
    }

    /// Opens sessions until there are so many, where anybody is present.
    pub fn open_up_to(&mut self, random: &mut Random, count: usize) {
        let present = self.present();
        while !present.is_empty() && self.sessions.len() < count {
            let user = *random.pick(&present);
            let roles = self.reached(user) & random.items(64);
            self.sessions.push((user as u8, roles));
        }
    }

    /// A call: to open or to close a session, accepted most often.
    pub fn call(&self, random: &mut Random) -> Change {
        match random.below(5) {
            0 | 1 => self.closing(random),
            _ => self.opening(random),
        }
    }

    fn closing(&self, random: &mut Random) -> Change {
        let open = self.sessions.len();
        let number = match random.below(8) {
            0 => open as u32,
            1 => *random.pick(&FAR),
            2 => open.saturating_sub(1) as u32,
            3 => 0,
            _ => random.below(open + 1) as u32,
        };
        Change::Close { number }
    }

    /// Three in ten are given a user who may not be there or may have left, or roles that may not be there or may be
    /// beyond reach, or both.
    fn opening(&self, random: &mut Random) -> Change {
        let (users, roles) = (self.users.len(), self.roles.len());
        let mut user = match &self.present()[..] {
            [] => users as u32,
            present => *random.pick(present) as u32,
        };
        if random.once_in(6) {
            user = match random.below(3) {
                0 => users as u32,
                1 => *random.pick(&FAR),
                _ => self.left.trailing_zeros(),
            };
        }
        let reached = match (user as usize) < users {
            true => self.reached(user as usize),
            false => 0,
        };
        let mut word = reached & random.items(64);
        if random.once_in(6) {
            word |= match random.below(4) {
                0 => 1 << random.below(64),
                1 => random.items(64),
                2 => 1u64.checked_shl(roles as u32).unwrap_or(0),
                _ => random.items(roles),
            };
        }
        Change::Open { user, roles: word }
    }
}

/// Accepted tables with few, some or about as many sessions as there may be, and an accepted rule whose walk has at most
/// `limit` steps whatever is opened.
pub fn started(random: &mut Random, limit: u64) -> (Plain, String) {
    loop {
        let rule = match random.below(4) {
            0 => random.pick(&OF_S).to_string(),
            1 => random.pick(&OF_SESSIONS).to_string(),
            2 => random.pick(&OF_NEITHER).to_string(),
            _ => rules::grown(random, 0),
        };
        let most = random.between(1, 9);
        let mut plain = tables::filled(random, most);
        if random.once_in(2) {
            plain.leave_some(random, 1);
        }
        if random.once_in(3) {
            let count = random.between(MOST - 4, MOST);
            plain.open_up_to(random, count);
        }
        let mut full = plain.clone();
        full.open_up_to(random, MOST);
        if few(&full.bytes(), rule.as_bytes(), limit)
            && reference::rule::read(rule.as_bytes()).is_ok()
        {
            return (plain, rule);
        }
    }
}

/// Whether a walk has at most so many steps; none has any where something is refused.
fn few(tables: &[u8], rule: &[u8], limit: u64) -> bool {
    match (reference::tables::read(tables), reference::rule::read(rule)) {
        (Ok(tables), Ok(rule)) => steps(&tables, &rule) <= limit,
        _ => true,
    }
}

/// A start, or a call on a state: one that a call gave, or another, whose walk has at most `limit` steps.
pub fn asked(random: &mut Random, limit: u64) -> Question {
    let (plain, rule) = started(random, limit);
    let (mut tables, mut rule) = (plain.bytes(), rule.into_bytes());
    if random.once_in(4) {
        tables = tables::any(random);
    }
    if random.once_in(8) {
        rule = rules::any(random);
    }
    if !few(&tables, &rule, limit) {
        return asked(random, limit);
    }
    if random.once_in(6) {
        return Question::sessions_start(tables, rule);
    }
    let given = reference::fast::sessions::start(&tables, &rule);
    let mut state = given.unwrap_or_else(|_| unjudged(random, &rule, &tables));
    match random.below(12) {
        0 => state = unjudged(random, &rule, &tables),
        1 => damage::bytes(random, &mut state),
        2 => state[VERDICT + random.below(2)] = random.byte(),
        _ => {}
    }
    match State::split(&state) {
        Ok(parts) if !few(parts.tables, parts.rule, limit) => asked(random, limit),
        _ => Question::session(state, plain.call(random)),
    }
}

/// A state with any bytes for a verdict.
fn unjudged(random: &mut Random, rule: &[u8], tables: &[u8]) -> Vec<u8> {
    let mut state = state(rule, tables);
    state[..VERDICT].fill_with(|| random.byte());
    state
}

/// A state whose verdict is zeros.
pub fn state(rule: &[u8], tables: &[u8]) -> Vec<u8> {
    let verdict = &[0; VERDICT];
    let state = State {
        verdict,
        rule,
        tables,
    };
    state.bytes()
}
