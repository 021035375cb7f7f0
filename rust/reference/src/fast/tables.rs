//! Tables as words of 64 bits.

use crate::number::*;
use crate::Answer;

/// Accepted tables; bit i of a word stands for item i.
pub struct Tables {
    /// For each role, the roles that it dominates.
    pub dominated: Vec<u64>,
    /// For each user, the roles assigned.
    pub assigned: Vec<u64>,
    /// The users who have not left.
    pub present: u64,
    /// For each session, its user alone.
    pub session_user: Vec<u64>,
    /// For each session, its active roles.
    pub active: Vec<u64>,
    pub operations: usize,
    pub objects: usize,
    /// For each permission, the roles that hold it.
    pub holders: Vec<u64>,
    /// For each permission, its object alone.
    pub object: Vec<u64>,
    pub cr: Vec<u64>,
    pub cu: Vec<u64>,
    pub cp: Vec<u64>,
    /// For each object, as many rows as there are users: the operations that each did on it.
    pub done: Vec<u64>,
}

/// The word of the items below `count`.
pub fn below(count: usize) -> u64 {
    u64::MAX.checked_shr(64 - count as u32).unwrap_or(0)
}

struct Rest<'a>(&'a [u8]);

impl<'a> Rest<'a> {
    fn row<const N: usize>(&mut self) -> Answer<&'a [u8; N]> {
        let (row, rest) = self.0.split_first_chunk().ok_or(CUT_SHORT)?;
        self.0 = rest;
        Ok(row)
    }

    fn count(&mut self, limit: u8) -> Answer<usize> {
        match self.row()? {
            [count] if *count <= limit => Ok(*count as usize),
            _ => Err(OVERFULL),
        }
    }

    fn words(&mut self, count: usize, items: usize) -> Answer<Vec<u64>> {
        (0..count).map(|_| word(*self.row()?, items)).collect()
    }

    /// The roles of the users, and which users are present.
    fn users(&mut self, count: usize, roles: usize) -> Answer<(Vec<u64>, u64)> {
        let mut present = 0;
        let mut assigned = Vec::with_capacity(count);
        for user in 0..count {
            let [mark, bytes @ ..] = self.row::<9>()?;
            match mark {
                0 => return Err(NOT_ENTERED),
                1 => present |= 1 << user,
                2 => {}
                _ => return Err(BAD_MARK),
            }
            assigned.push(word(*bytes, roles)?);
        }
        Ok((assigned, present))
    }

    fn permissions(&mut self, count: usize, roles: usize) -> Answer<Vec<u64>> {
        (0..count)
            .map(|_| match self.row::<9>()? {
                [0, ..] => Err(NOT_ENTERED),
                [1, bytes @ ..] => word(*bytes, roles),
                _ => Err(BAD_MARK),
            })
            .collect()
    }

    /// The users of the sessions, and their active roles.
    fn sessions(&mut self, users: usize, roles: usize) -> Answer<(Vec<u64>, Vec<u64>)> {
        let count = self.count(64)?;
        let mut session_user = Vec::with_capacity(count);
        let mut active = Vec::with_capacity(count);
        for _ in 0..count {
            let [user, bytes @ ..] = self.row::<9>()?;
            if *user as usize >= users {
                return Err(NO_SUCH_ITEM);
            }
            session_user.push(1 << user);
            active.push(word(*bytes, roles)?);
        }
        Ok((session_user, active))
    }

    /// For each object and user, the operations done.
    fn done(&mut self, users: usize, operations: usize, objects: usize) -> Answer<Vec<u64>> {
        let mut done = vec![0; objects * users];
        for _ in 0..self.count(64)? {
            let [user, operation, object] = self.row::<3>()?.map(usize::from);
            if user >= users || operation >= operations || object >= objects {
                return Err(NO_SUCH_ITEM);
            }
            done[object * users + user] |= 1 << operation;
        }
        Ok(done)
    }
}

fn word(bytes: [u8; 8], items: usize) -> Answer<u64> {
    let word = u64::from_le_bytes(bytes);
    if word & !below(items) == 0 {
        Ok(word)
    } else {
        Err(NO_SUCH_ITEM)
    }
}

/// Tables from their bytes, or the first refusal met.
pub fn read(bytes: &[u8]) -> Answer<Tables> {
    let tables = sections(bytes)?;
    tables.examine()?;
    Ok(tables)
}

/// The first step of the rank test that fails, where the tables are refused 7; else 0. Between the
/// sections and the rank only leavers are looked for.
pub fn rank_step(bytes: &[u8]) -> u32 {
    match sections(bytes) {
        Ok(tables) if !tables.names_a_leaver() => failing_step(&tables.dominated),
        _ => 0,
    }
}

/// The sections alone, and nothing behind them.
fn sections(bytes: &[u8]) -> Answer<Tables> {
    let mut rest = Rest(bytes);
    let roles = rest.count(64)?;
    let dominated = rest.words(roles, roles)?;
    let users = rest.count(64)?;
    let (assigned, present) = rest.users(users, roles)?;
    let (session_user, active) = rest.sessions(users, roles)?;
    let operations = rest.count(8)?;
    let objects = rest.count(8)?;
    let [permissions] = *rest.row::<1>()?;
    let permissions = permissions as usize;
    if permissions != operations * objects {
        return Err(MISCOUNTED);
    }
    let holders = rest.permissions(permissions, roles)?;
    let mut collection = |items| {
        let count = rest.count(64)?;
        rest.words(count, items)
    };
    let tables = Tables {
        cr: collection(roles)?,
        cu: collection(users)?,
        cp: collection(permissions)?,
        done: rest.done(users, operations, objects)?,
        object: (0..permissions).map(|p| 1 << (p % objects)).collect(),
        dominated,
        assigned,
        present,
        session_user,
        active,
        operations,
        objects,
        holders,
    };
    if !rest.0.is_empty() {
        return Err(LEFT_OVER);
    }
    Ok(tables)
}

impl Tables {
    /// The checks over whole tables: 20, 7, 8, 9.
    fn examine(&self) -> Answer<()> {
        let mut sessions = self.session_user.iter().zip(&self.active);
        if self.names_a_leaver() {
            Err(LEFT)
        } else if failing_step(&self.dominated) != 0 {
            Err(RANK)
        } else if sessions.any(|(user, roles)| self.overreaches(user.trailing_zeros(), *roles)) {
            Err(OVERREACH)
        } else if twins(&self.cr) || twins(&self.cu) || twins(&self.cp) {
            Err(TWIN)
        } else {
            Ok(())
        }
    }

    /// Whether a leaver has a role or a session, or stands in CU.
    fn names_a_leaver(&self) -> bool {
        let left = below(self.assigned.len()) & !self.present;
        let mut users = self.session_user.iter().chain(&self.cu);
        items(left).any(|user| self.assigned[user] != 0) || users.any(|word| word & left != 0)
    }

    /// Whether one of the roles is neither assigned to the user nor junior to such a role. A role
    /// that is ranked dominates itself, so that juniors are looked for only where it matters.
    pub fn overreaches(&self, user: u32, roles: u64) -> bool {
        let assigned = self.assigned[user as usize];
        let mut besides = roles & !assigned;
        let mut seniors = items(assigned);
        while besides != 0 {
            match seniors.next() {
                Some(senior) => besides &= !self.dominated[senior],
                None => return true,
            }
        }
        false
    }
}

/// The first of the steps reflexive, transitive, antisymmetric that the rows fail, from 1, or 0. Roles
/// that dominate each other have equal rows where the first two steps hold, and no others have.
fn failing_step(rows: &[u64]) -> u32 {
    let reflexive = rows.iter().enumerate().all(|(a, row)| row >> a & 1 == 1);
    let within = |row: u64| items(row).all(|b| rows[b] & !row == 0);
    if !reflexive {
        1
    } else if !rows.iter().all(|&row| within(row)) {
        2
    } else if twins(rows) {
        3
    } else {
        0
    }
}

fn twins(words: &[u64]) -> bool {
    (0..words.len()).any(|i| words[..i].contains(&words[i]))
}

/// The items of a word, smallest first.
pub fn items(mut word: u64) -> impl Iterator<Item = usize> {
    std::iter::from_fn(move || {
        let item = word.trailing_zeros() as usize;
        word &= word.checked_sub(1)?;
        Some(item)
    })
}
