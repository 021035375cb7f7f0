//! Document 01, "Tables" and "Functions": reading tables front to back, writing them, and Figure 2 on them.
//! Document 02, N2: which roles a session may have active; N4: the steps of the rank test; N6: who left;
//! N8: who already did what.

use crate::number::*;
use crate::set::Set;
use crate::Answer;

/// A session: its one user, and the roles active in it.
#[derive(Clone, PartialEq, Eq, Debug)]
pub struct Session {
    pub user: usize,
    pub roles: Set,
}

/// A row of Done: a user did an operation on an object.
#[derive(Clone, PartialEq, Eq, Debug)]
pub struct Done {
    pub user: usize,
    pub operation: usize,
    pub object: usize,
}

/// Accepted tables.
#[derive(Clone, PartialEq, Eq, Debug)]
pub struct Tables {
    /// For each role, the roles that it dominates.
    pub dominated: Vec<Set>,
    /// UA: for each user number, the roles assigned; a leaver's row remains.
    pub assigned: Vec<Set>,
    /// "U is then the users marked 1".
    pub present: Set,
    pub sessions: Vec<Session>,
    pub operations: usize,
    pub objects: usize,
    /// PA: for each permission, the roles that hold it.
    pub holders: Vec<Set>,
    pub cr: Vec<Set>,
    pub cu: Vec<Set>,
    pub cp: Vec<Set>,
    /// "A leaver may stand in Done." Repeated rows stand here as often.
    pub done: Vec<Done>,
}

/// The marks of rows: "Mark 2 in a user row means left. .. Permission rows still know marks 0 and 1 only."
const NEVER: u8 = 0;
const ENTERED: u8 = 1;
const GONE: u8 = 2;

/// The bytes not yet read.
struct Rest<'a>(&'a [u8]);

impl<'a> Rest<'a> {
    /// A whole row, before anything in it is examined.
    fn row(&mut self, length: usize) -> Answer<&'a [u8]> {
        if self.0.len() < length {
            return Err(CUT_SHORT);
        }
        let (row, rest) = self.0.split_at(length);
        self.0 = rest;
        Ok(row)
    }

    fn count(&mut self, limit: usize) -> Answer<usize> {
        let count = self.row(1)?[0] as usize;
        if count > limit {
            return Err(OVERFULL);
        }
        Ok(count)
    }

    /// A section of at most 64 rows, behind their count.
    fn section<T>(&mut self, row: impl Fn(&mut Self) -> Answer<T>) -> Answer<Vec<T>> {
        let count = self.count(64)?;
        (0..count).map(|_| row(self)).collect()
    }

    /// A section of words, each preceded by nothing.
    fn words(&mut self, count: usize, items: usize) -> Answer<Vec<Set>> {
        (0..count).map(|_| word(self.row(8)?, items)).collect()
    }

    /// A section of words, each preceded by a mark of at most `highest`.
    fn marked(&mut self, count: usize, items: usize, highest: u8) -> Answer<Vec<(u8, Set)>> {
        (0..count)
            .map(|_| {
                let row = self.row(9)?;
                match row[0] {
                    NEVER => Err(NOT_ENTERED),
                    mark if mark > highest => Err(BAD_MARK),
                    mark => Ok((mark, word(&row[1..], items)?)),
                }
            })
            .collect()
    }

    fn session(&mut self, users: usize, roles: usize) -> Answer<Session> {
        let row = self.row(9)?;
        let user = row[0] as usize;
        if user >= users {
            return Err(NO_SUCH_ITEM);
        }
        Ok(Session {
            user,
            roles: word(&row[1..], roles)?,
        })
    }

    /// "rows of user, operation and object, a byte each", held against these counts.
    fn done(&mut self, counts: [usize; 3]) -> Answer<Done> {
        let row = self.row(3)?;
        let [user, operation, object] = [row[0], row[1], row[2]].map(usize::from);
        if user >= counts[0] || operation >= counts[1] || object >= counts[2] {
            return Err(NO_SUCH_ITEM);
        }
        Ok(Done {
            user,
            operation,
            object,
        })
    }
}

/// A word of eight bytes, lowest first: its bits, all of which must be below `items`.
pub fn word(bytes: &[u8], items: usize) -> Answer<Set> {
    let set = Set::of(|i| bytes[i / 8] >> (i % 8) & 1 == 1);
    if set.within(&Set::below(items)) {
        Ok(set)
    } else {
        Err(NO_SUCH_ITEM)
    }
}

/// Tables from their bytes, or the first refusal met.
pub fn read(bytes: &[u8]) -> Answer<Tables> {
    let tables = sections(bytes)?;
    tables.examine()?;
    Ok(tables)
}

/// "the first step that fails, 1, 2 or 3, where they are refused 7, and 0 for all others"
pub fn rank_step(bytes: &[u8]) -> u32 {
    match (read(bytes), sections(bytes)) {
        (Err(RANK), Ok(tables)) => tables.failing_step(),
        _ => 0,
    }
}

/// The sections front to back, and nothing behind them; the whole is not yet looked at.
fn sections(bytes: &[u8]) -> Answer<Tables> {
    let mut rest = Rest(bytes);
    let roles = rest.count(64)?;
    let dominated = rest.words(roles, roles)?;
    let users = rest.count(64)?;
    let (marks, assigned): (Vec<u8>, _) = rest.marked(users, roles, GONE)?.into_iter().unzip();
    let present = Set::of(|user| marks.get(user) == Some(&ENTERED));
    let sessions = rest.section(|rest| rest.session(users, roles))?;
    let operations = rest.count(8)?;
    let objects = rest.count(8)?;
    let permissions = rest.row(1)?[0] as usize;
    if permissions != operations * objects {
        return Err(MISCOUNTED);
    }
    let holders = rest.marked(permissions, roles, ENTERED)?;
    let mut collection = |items| rest.section(|rest| word(rest.row(8)?, items));
    let tables = Tables {
        cr: collection(roles)?,
        cu: collection(users)?,
        cp: collection(permissions)?,
        done: rest.section(|rest| rest.done([users, operations, objects]))?,
        dominated,
        assigned,
        present,
        sessions,
        operations,
        objects,
        holders: holders.into_iter().map(|(_, roles)| roles).collect(),
    };
    if !rest.0.is_empty() {
        return Err(LEFT_OVER);
    }
    Ok(tables)
}

impl Tables {
    /// The checks over whole tables: 20, 7, 8, 9.
    fn examine(&self) -> Answer<()> {
        if self.names_a_leaver() {
            return Err(LEFT);
        }
        if self.failing_step() != 0 {
            return Err(RANK);
        }
        if self
            .sessions
            .iter()
            .any(|session| self.overreaches(session))
        {
            return Err(OVERREACH);
        }
        if [&self.cr, &self.cu, &self.cp]
            .iter()
            .any(|words| twins(words))
        {
            return Err(TWIN);
        }
        Ok(())
    }

    /// "a row of mark 2 with a word not zero, a session of a leaver, or a CU word naming one"
    fn names_a_leaver(&self) -> bool {
        let left = |user: &usize| !self.present.contains(*user);
        let mut leavers = (0..self.assigned.len()).filter(left);
        leavers.any(|user| !self.assigned[user].is_empty())
            || self.sessions.iter().any(|session| left(&session.user))
            || self.cu.iter().any(|users| !users.within(&self.present))
    }

    /// "an active role is not in `roles*` of the session's user"
    pub fn overreaches(&self, session: &Session) -> bool {
        let assigned = &self.assigned[session.user];
        !session.roles.within(&self.juniors(assigned))
    }

    /// The bytes that are read as these tables.
    pub fn bytes(&self) -> Vec<u8> {
        let marked = |mark: u8, set: &Set| [vec![mark], set.word()].concat();
        let user = |user: usize| match self.present.contains(user) {
            true => marked(ENTERED, &self.assigned[user]),
            false => marked(GONE, &self.assigned[user]),
        };
        let done = |row: &Done| {
            [row.user, row.operation, row.object]
                .map(|n| n as u8)
                .to_vec()
        };
        let sessions = self.sessions.iter();
        [
            section(self.dominated.iter().map(Set::word)),
            section((0..self.assigned.len()).map(user)),
            section(sessions.map(|session| marked(session.user as u8, &session.roles))),
            vec![self.operations as u8, self.objects as u8],
            section(self.holders.iter().map(|roles| marked(ENTERED, roles))),
            section(self.cr.iter().map(Set::word)),
            section(self.cu.iter().map(Set::word)),
            section(self.cp.iter().map(Set::word)),
            section(self.done.iter().map(done)),
        ]
        .concat()
    }

    /// "reflexive, transitive and antisymmetric, in that sequence": the first step that some roles
    /// fail, from 1, and 0 where none does.
    fn failing_step(&self) -> u32 {
        let roles = self.dominated.len();
        let over = |a: usize, b: usize| self.dominated[a].contains(b);
        for a in 0..roles {
            if !over(a, a) {
                return 1;
            }
        }
        for a in 0..roles {
            for b in 0..roles {
                for c in 0..roles {
                    if over(a, b) && over(b, c) && !over(a, c) {
                        return 2;
                    }
                }
            }
        }
        for a in 0..roles {
            for b in 0..roles {
                if a != b && over(a, b) && over(b, a) {
                    return 3;
                }
            }
        }
        0
    }

    pub fn permissions(&self) -> usize {
        self.operations * self.objects
    }

    pub fn users_of_roles(&self, roles: &Set) -> Set {
        meeting(&self.assigned, roles)
    }

    pub fn users_of_sessions(&self, sessions: &Set) -> Set {
        Set::of(|user| sessions.items().any(|s| self.sessions[s].user == user))
    }

    pub fn roles_of_users(&self, users: &Set) -> Set {
        union(users, |u| self.assigned[u])
    }

    pub fn roles_of_sessions(&self, sessions: &Set) -> Set {
        union(sessions, |s| self.sessions[s].roles)
    }

    pub fn roles_of_permissions(&self, permissions: &Set) -> Set {
        union(permissions, |p| self.holders[p])
    }

    /// Each role junior or equal to one of these.
    pub fn juniors(&self, roles: &Set) -> Set {
        union(roles, |r| self.dominated[r])
    }

    /// Each role senior or equal to one of these.
    pub fn seniors(&self, roles: &Set) -> Set {
        meeting(&self.dominated, roles)
    }

    pub fn sessions_of_users(&self, users: &Set) -> Set {
        Set::of(|s| s < self.sessions.len() && users.contains(self.sessions[s].user))
    }

    pub fn permissions_of_roles(&self, roles: &Set) -> Set {
        meeting(&self.holders, roles)
    }

    pub fn objects_of_permissions(&self, permissions: &Set) -> Set {
        union(permissions, |p| Set::single(p % self.objects))
    }

    /// The operations of one of these roles on one of these objects.
    pub fn operations_of(&self, roles: &Set, objects: &Set) -> Set {
        Set::of(|operation| {
            operation < self.operations
                && objects
                    .items()
                    .any(|object| self.holders[operation * self.objects + object].meets(roles))
        })
    }

    /// The operations that one of these users did on one of these objects.
    pub fn done_by(&self, users: &Set, objects: &Set) -> Set {
        let by_them = |row: &&Done| users.contains(row.user) && objects.contains(row.object);
        let rows = self.done.iter().filter(by_them);
        rows.fold(Set::EMPTY, |all, row| all.or(&Set::single(row.operation)))
    }
}

/// The count and the rows of a section.
fn section(rows: impl ExactSizeIterator<Item = Vec<u8>>) -> Vec<u8> {
    let mut bytes = vec![rows.len() as u8];
    rows.for_each(|row| bytes.extend(row));
    bytes
}

fn twins(words: &[Set]) -> bool {
    (0..words.len()).any(|i| words[..i].contains(&words[i]))
}

/// The union, over the members of a set, of what each gives.
fn union(set: &Set, of: impl Fn(usize) -> Set) -> Set {
    set.items().fold(Set::EMPTY, |all, item| all.or(&of(item)))
}

/// The numbers of the rows that share an item with `set`.
fn meeting(rows: &[Set], set: &Set) -> Set {
    Set::of(|i| i < rows.len() && rows[i].meets(set))
}
