//! Tables with each row's items as the bits of a word: their bytes, and the rows that are at fault.

use crate::{Fault, Object, Operation, Permission, Refusal, Role, Row, Session, User};

/// A user's row, by its mark.
#[derive(Clone, Debug)]
pub(crate) enum UserRow<T> {
    /// 0: it never arrived.
    NotEntered,
    /// 1: entered, with the roles assigned.
    Entered(T),
    /// 2: the user left.
    Left,
}

impl UserRow<u64> {
    /// The mark, and the word of assigned roles.
    fn marked(&self) -> (u8, u64) {
        match *self {
            UserRow::NotEntered => (0, 0),
            UserRow::Entered(word) => (1, word),
            UserRow::Left => (2, 0),
        }
    }
}

/// Tables that can be encoded. The row of a permission that was never entered is `None`.
pub(crate) struct Words {
    pub roles: Vec<u64>,
    pub users: Vec<UserRow<u64>>,
    pub sessions: Vec<(User, u64)>,
    pub operations: usize,
    pub objects: usize,
    pub permissions: Vec<Option<u64>>,
    pub conflicting_roles: Vec<u64>,
    pub conflicting_users: Vec<u64>,
    pub conflicting_permissions: Vec<u64>,
    pub done: Vec<(User, Permission)>,
}

impl Words {
    /// Document 01's bytes. Every count is within its limit.
    pub fn bytes(&self) -> Vec<u8> {
        let mut out = Vec::new();
        words(&mut out, &self.roles);
        marked(&mut out, self.users.iter().map(UserRow::marked));
        out.push(self.sessions.len() as u8);
        for (user, word) in &self.sessions {
            out.push(user.number() as u8);
            out.extend(word.to_le_bytes());
        }
        out.extend([self.operations as u8, self.objects as u8]);
        let held = |row: &Option<u64>| (u8::from(row.is_some()), row.unwrap_or(0));
        marked(&mut out, self.permissions.iter().map(held));
        words(&mut out, &self.conflicting_roles);
        words(&mut out, &self.conflicting_users);
        words(&mut out, &self.conflicting_permissions);
        out.push(self.done.len() as u8);
        for (user, Permission { operation, object }) in &self.done {
            out.extend([user.number(), operation.number(), object.number()].map(|n| n as u8));
        }
        out
    }

    /// The rows for which the library gives this refusal.
    pub fn faults(&self, refusal: Refusal) -> Vec<Fault> {
        match refusal {
            Refusal::NotEntered => self.not_entered(),
            Refusal::Left => self.left(),
            Refusal::Rank => self.rank(),
            Refusal::Overreach => self.overreach(),
            Refusal::Twin => self.twins(),
            _ => Vec::new(),
        }
    }

    fn not_entered(&self) -> Vec<Fault> {
        let users = places(&self.users, |row| matches!(row, UserRow::NotEntered));
        let users = users.map(|number| Row::User(User::numbered(number)));
        let permissions = places(&self.permissions, Option::is_none).map(|number| {
            Row::Permission(Permission {
                operation: Operation::numbered(number / self.objects),
                object: Object::numbered(number % self.objects),
            })
        });
        let rows = users.chain(permissions);
        rows.map(|row| Fault::NotEntered { row }).collect()
    }

    /// A leaver has no roles here, and may stand in Done, so that only sessions and CU can be at fault.
    fn left(&self) -> Vec<Fault> {
        let leavers = places(&self.users, |row| matches!(row, UserRow::Left));
        let leavers = leavers.fold(0u64, |word, number| word | 1 << number);
        let sessions = self.sessions.iter().enumerate();
        let sessions = sessions.map(|(number, (user, _))| {
            let row = Row::Session(Session::numbered(number));
            (row, 1 << user.number())
        });
        let words = self.conflicting_users.iter().enumerate();
        let words = words.map(|(place, &word)| (Row::ConflictingUsers(place), word));
        let rows = sessions.chain(words);
        rows.flat_map(|(row, users)| {
            let named = items(users & leavers).map(User::numbered);
            named.map(move |user| Fault::Left { row, user })
        })
        .collect()
    }

    fn rank(&self) -> Vec<Fault> {
        let mut faults = Vec::new();
        for (number, &row) in self.roles.iter().enumerate() {
            let role = Role::numbered(number);
            if row >> number & 1 == 0 {
                faults.push(Fault::MissesItself { role });
            }
            for junior in items(row).filter(|&junior| junior != number) {
                let beyond = self.roles[junior] & !row;
                let (junior, back) = (Role::numbered(junior), self.roles[junior] >> number & 1);
                if let Some(missing) = items(beyond).next() {
                    let missing = Role::numbered(missing);
                    faults.push(Fault::MissesJunior {
                        role,
                        junior,
                        missing,
                    });
                }
                if back == 1 && role < junior {
                    let (first, second) = (role, junior);
                    faults.push(Fault::EachOther { first, second });
                }
            }
        }
        faults
    }

    fn overreach(&self) -> Vec<Fault> {
        let mut faults = Vec::new();
        for (number, &(user, active)) in self.sessions.iter().enumerate() {
            let (_, assigned) = self.users[user.number()].marked();
            let reached = items(assigned).fold(0, |word, role| word | self.roles[role]);
            faults.extend(items(active & !reached).map(|role| Fault::Overreach {
                session: Session::numbered(number),
                user,
                role: Role::numbered(role),
            }));
        }
        faults
    }

    fn twins(&self) -> Vec<Fault> {
        let mut faults = twins_of(&self.conflicting_roles, Row::ConflictingRoles);
        faults.extend(twins_of(&self.conflicting_users, Row::ConflictingUsers));
        faults.extend(twins_of(
            &self.conflicting_permissions,
            Row::ConflictingPermissions,
        ));
        faults
    }
}

/// The count and the rows of a section.
fn words(out: &mut Vec<u8>, rows: &[u64]) {
    out.push(rows.len() as u8);
    out.extend(rows.iter().flat_map(|word| word.to_le_bytes()));
}

/// The count and the rows of a section whose rows have marks.
fn marked(out: &mut Vec<u8>, rows: impl ExactSizeIterator<Item = (u8, u64)>) {
    out.push(rows.len() as u8);
    for (mark, word) in rows {
        out.push(mark);
        out.extend(word.to_le_bytes());
    }
}

/// The numbers of the rows of which this is so.
fn places<T>(rows: &[T], so: fn(&T) -> bool) -> impl Iterator<Item = usize> + '_ {
    let rows = rows.iter().enumerate();
    rows.filter(move |(_, row)| so(row))
        .map(|(number, _)| number)
}

/// Each word that was there before, with the first place where it was.
fn twins_of(words: &[u64], row: fn(usize) -> Row) -> Vec<Fault> {
    let places = words.iter().enumerate();
    let pairs = places.filter_map(|(second, word)| {
        let first = words[..second].iter().position(|other| other == word)?;
        Some((row(first), row(second)))
    });
    pairs
        .map(|(first, second)| Fault::Twins { first, second })
        .collect()
}

/// The items of a word, lowest first.
pub(crate) fn items(word: u64) -> impl Iterator<Item = usize> {
    (0..64).filter(move |item| word >> item & 1 == 1)
}
