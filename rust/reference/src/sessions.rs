//! Document 02, N9: sessions come and go, and a rule's verdict with them. The tables are read anew for each call, and
//! written anew with the changed list as section 3.

use crate::number::{CUT_SHORT, FULL_HOUSE, LEFT, NOT_OPEN, NO_SUCH_ITEM, OVERREACH};
use crate::rule::{self, Basic, Bound, Function, Rule, Term, Test};
use crate::tables::{self, word, Session, Tables};
use crate::verdict::walk;
use crate::Answer;

/// "full house: opening with 64 open"
pub const MOST: usize = 64;

/// The bytes of a verdict, and those before the rule: the verdict and the rule's length.
pub const VERDICT: usize = 26;
pub const HEAD: usize = VERDICT + 2;

/// What the tracker does. "Sessions are numbered from 0."
#[derive(Clone, Copy, PartialEq, Eq, Debug)]
pub enum Change {
    /// Opens a session of a user, with a word of active roles.
    Open { user: u32, roles: u64 },
    /// Closes the session with a number.
    Close { number: u32 },
}

/// A state: "the verdict's 26 bytes in the order 1, 2, .., the rule's length (2 bytes, lowest first), the rule, then the
/// tables with the current sessions, to the end".
#[derive(Clone, Copy, PartialEq, Eq, Debug)]
pub struct State<'a> {
    pub verdict: &'a [u8],
    pub rule: &'a [u8],
    pub tables: &'a [u8],
}

impl State<'_> {
    /// The parts of a state's bytes: "shorter than 28 or than 28 and the rule is 1". None of them is examined.
    pub fn split(bytes: &[u8]) -> Answer<State<'_>> {
        let head = bytes.get(..HEAD).ok_or(CUT_SHORT)?;
        let length = u16::from_le_bytes([head[VERDICT], head[VERDICT + 1]]);
        let end = HEAD + usize::from(length);
        Ok(State {
            verdict: &head[..VERDICT],
            rule: bytes.get(HEAD..end).ok_or(CUT_SHORT)?,
            tables: &bytes[end..],
        })
    }

    pub fn bytes(&self) -> Vec<u8> {
        let length = (self.rule.len() as u16).to_le_bytes();
        [self.verdict, &length, self.rule, self.tables].concat()
    }
}

/// The first state: "Start from accepted tables and an accepted rule."
pub fn start(tables: &[u8], rule: &[u8]) -> Answer<Vec<u8>> {
    let read = tables::read(tables)?;
    let verdict = &in_turn(&read, &rule::read(rule)?);
    let state = State {
        verdict,
        rule,
        tables,
    };
    Ok(state.bytes())
}

/// The state after a call, or its refusal: decoding's, then the change's.
pub fn next(state: &[u8], change: Change) -> Answer<Vec<u8>> {
    let state = State::split(state)?;
    let mut tables = tables::read(state.tables)?;
    let rule = rule::read(state.rule)?;
    match change {
        Change::Open { user, roles } => tables.open(user as usize, roles)?,
        Change::Close { number } => tables.close(number as usize)?,
    }
    let next = State {
        verdict: &match mentions(&rule) {
            true => in_turn(&tables, &rule),
            false => state.verdict.to_vec(),
        },
        tables: &tables.bytes(),
        ..state
    };
    Ok(next.bytes())
}

impl Tables {
    /// "A new session is added behind the last"; "21 (full house: opening with 64 open) before 5, then 20, then 8", 5 for
    /// the user before the word.
    fn open(&mut self, user: usize, roles: u64) -> Answer<()> {
        if self.sessions.len() == MOST {
            return Err(FULL_HOUSE);
        }
        if user >= self.assigned.len() {
            return Err(NO_SUCH_ITEM);
        }
        let roles = word(&roles.to_le_bytes(), self.dominated.len())?;
        if !self.present.contains(user) {
            return Err(LEFT);
        }
        let session = Session { user, roles };
        if self.overreaches(&session) {
            return Err(OVERREACH);
        }
        self.sessions.push(session);
        Ok(())
    }

    /// "closing one moves those after it down by one"; "22 (not open: closing a number that is not open)".
    fn close(&mut self, number: usize) -> Answer<()> {
        if number >= self.sessions.len() {
            return Err(NOT_OPEN);
        }
        self.sessions.remove(number);
        Ok(())
    }
}

fn in_turn(tables: &Tables, rule: &Rule) -> Vec<u8> {
    let order: Vec<usize> = (0..rule.variables.len()).collect();
    walk(tables, rule, &order).bytes()
}

/// Whether a rule mentions S or `sessions`: one of them stands in a test, or in a variable's set.
fn mentions(rule: &Rule) -> bool {
    let sets = rule.variables.iter().map(|variable| &variable.set);
    let clauses = rule.clauses.iter();
    let tests = clauses.flat_map(|clause| [Some(&clause.test), clause.then.as_ref()]);
    sets.chain(tests.flatten().flat_map(terms)).any(names)
}

fn terms(test: &Test) -> Vec<&Term> {
    match test {
        Test::Member(left, right) | Test::Same(_, left, right) => vec![left, right],
        Test::Count(left, _, Bound::Count(right)) => vec![left, right],
        Test::Empty(_, term) | Test::Count(term, _, Bound::Number(_)) => vec![term],
    }
}

/// Whether S or `sessions` is written in a term; a variable's set is looked at by itself.
fn names(term: &Term) -> bool {
    match term {
        Term::Basic(basic) => *basic == Basic::S,
        Term::One(_) | Term::Other(_) => false,
        Term::Call(function, argument) => *function == Function::Sessions || names(argument),
        Term::Call2(_, left, right) | Term::Meet(left, right) | Term::Join(left, right) => {
            names(left) || names(right)
        }
    }
}
