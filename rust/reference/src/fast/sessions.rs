//! States changed in place: a session's row is put in or taken out, and the rule is judged where its text mentions
//! sessions.

use super::judge::judge;
use super::tables::{below, read, Tables};
use crate::number::{FULL_HOUSE, LEFT, NOT_OPEN, NO_SUCH_ITEM, OVERREACH};
use crate::sessions::{Change, State, HEAD, MOST, VERDICT};
use crate::{rule, Answer};

/// The bytes of a row of section 3: a user and a word.
const ROW: usize = 9;

/// The order of as many variables as there may be.
const IN_TURN: [u8; 8] = [1, 2, 3, 4, 5, 6, 7, 8];

/// The first state, or the first refusal of the tables and the rule.
pub fn start(tables: &[u8], text: &[u8]) -> Answer<Vec<u8>> {
    let verdict = &in_turn(tables, text)?;
    let state = State {
        verdict,
        rule: text,
        tables,
    };
    Ok(state.bytes())
}

/// The next state, or the first refusal of the state and the change.
pub fn next(state: &[u8], change: Change) -> Answer<Vec<u8>> {
    let parts = State::split(state)?;
    let tables = read(parts.tables)?;
    rule::read(parts.rule)?;
    let from = HEAD + parts.rule.len();
    // Behind the counts and the rows of the two sections before it.
    let count = from + 2 + 8 * tables.dominated.len() + 9 * tables.assigned.len();
    let mut next = state.to_vec();
    match change {
        Change::Open { user, roles } => {
            let row = tables.row(user, roles)?;
            let behind = count + 1 + ROW * tables.active.len();
            next.splice(behind..behind, row);
            next[count] += 1;
        }
        Change::Close { number } => {
            if number as usize >= tables.active.len() {
                return Err(NOT_OPEN);
            }
            let row = count + 1 + ROW * number as usize;
            next.drain(row..row + ROW);
            next[count] -= 1;
        }
    }
    if mentions(parts.rule) {
        let verdict = in_turn(&next[from..], parts.rule)?;
        next[..VERDICT].copy_from_slice(&verdict);
    }
    Ok(next)
}

impl Tables {
    /// The row of a session that may be opened.
    fn row(&self, user: u32, roles: u64) -> Answer<[u8; ROW]> {
        if self.active.len() == MOST {
            Err(FULL_HOUSE)
        } else if user as usize >= self.assigned.len() || roles & !below(self.dominated.len()) != 0
        {
            Err(NO_SUCH_ITEM)
        } else if self.present >> user & 1 == 0 {
            Err(LEFT)
        } else if self.overreaches(user, roles) {
            Err(OVERREACH)
        } else {
            let mut row = [user as u8; ROW];
            row[1..].copy_from_slice(&roles.to_le_bytes());
            Ok(row)
        }
    }
}

/// The verdict's bytes in the order 1, 2, .. A rule that is refused has no variables.
fn in_turn(tables: &[u8], text: &[u8]) -> Answer<Vec<u8>> {
    let count = rule::read(text).map_or(0, |rule| rule.variables.len());
    judge(tables, text, &IN_TURN[..count]).map(|verdict| verdict.bytes())
}

/// Whether `S`, which is in no other name, or `sessions` stands in an accepted rule's text.
fn mentions(text: &[u8]) -> bool {
    text.contains(&b'S') || text.windows(8).any(|name| name == b"sessions")
}
