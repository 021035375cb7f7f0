//! Users who left: tables that keep their rows, tables that still name one, and rules that ask for users.

use crate::hold::Question;
use crate::random::Random;
use crate::tables::{self, items, Plain};
use crate::{damage, subjects};

/// What is still there of a leaver, each of which is 20.
#[derive(Clone, Copy, PartialEq, Eq, Debug)]
pub enum Still {
    /// "a row of mark 2 with a word not zero"
    Role,
    /// "a session of a leaver"
    Session,
    /// "a CU word naming one"
    Word,
}

pub const STILL: [Still; 3] = [Still::Role, Still::Session, Still::Word];

/// Marks that rows are given: never entered, entered, left, and above.
const MARKS: [u8; 5] = [0, 1, 2, 3, 255];

/// Rules of at most two variables in which U, users or their number stand.
const USERS: [&str; 18] = [
    "OE(U)=OE(U)",
    "AO(U)={}",
    "OE(AO(U))@U",
    "roles(OE(U))={}",
    "roles(AO(U))=roles(U)",
    "|U|<=2",
    "|U|=|user(R)|",
    "U=user(S)",
    "user(OE(R))=U",
    "(user(OE(R))&U)=user(OE(R))",
    "user(OE(S))@U",
    "sessions(OE(U))!={}=>roles*(OE(U))!={}",
    "OE(OE(CU))@U",
    "(OE(CU)&U)=OE(CU)",
    "|(roles(OE(U))&OE(CR))|<=1",
    "OE((U&OE(CU)))@user(S)",
    "done(U,OE(OBJ))={}",
    "|done(OE(U),OE(OBJ))|<=1",
];

impl Plain {
    /// Whether a user left; none beyond the 64th did.
    pub fn has_left(&self, user: usize) -> bool {
        self.left.checked_shr(user as u32).unwrap_or(0) & 1 == 1
    }

    /// The users who are present.
    pub fn present(&self) -> Vec<usize> {
        let users = 0..self.users.len();
        users.filter(|&user| !self.has_left(user)).collect()
    }

    /// Lets these users leave whole: they have no roles and stand in no word of CU, and what sessions they
    /// had go to others, without a role, or are closed where nobody stays. What they did stays in Done.
    pub fn leave(&mut self, random: &mut Random, left: u64) {
        self.left |= left;
        items(left).for_each(|user| self.users[user] = 0);
        let present = self.present();
        if present.is_empty() {
            self.sessions.clear();
        }
        for session in &mut self.sessions {
            if left.checked_shr(session.0.into()).unwrap_or(0) & 1 == 1 {
                *session = (*random.pick(&present) as u8, 0);
            }
        }
        let cut: Vec<u64> = self.cu.iter().map(|word| word & !left).collect();
        let first = |place: &usize| !cut[..*place].contains(&cut[*place]);
        self.cu = (0..cut.len())
            .filter(first)
            .map(|place| cut[place])
            .collect();
    }

    /// Lets few, many or all of the users leave, but at least `staying` of those who are present.
    pub fn leave_some(&mut self, random: &mut Random, staying: usize) {
        let (users, present) = (self.users.len(), self.present().len());
        let mut left = match random.once_in(8) {
            true => (0..users).fold(0, |all, user| all | 1 << user),
            false => random.items(users),
        };
        while users - ((self.left | left).count_ones() as usize) < staying.min(present) {
            left &= !(1 << random.below(users));
        }
        self.leave(random, left);
    }

    /// Leaves one thing of a leaver there, and nothing else wrong. There is a leaver, and a role.
    pub fn keep(&mut self, random: &mut Random, still: Still) {
        let leavers: Vec<usize> = items(self.left).collect();
        let leaver = *random.pick(&leavers);
        match still {
            Still::Role => self.users[leaver] |= 1 << random.below(self.roles.len().min(64)),
            Still::Session => {
                let row = (leaver as u8, 0);
                match self.sessions.len() {
                    64 => self.sessions[random.below(64)] = row,
                    count => self.sessions.insert(random.below(count + 1), row),
                }
            }
            Still::Word if self.cu.is_empty() => self.cu.push(1 << leaver),
            Still::Word => {
                let place = random.below(self.cu.len());
                self.cu[place] |= 1 << leaver;
            }
        }
    }

    /// Where the marks of the users' and of the permissions' rows stand in the bytes.
    pub fn marks(&self) -> Vec<usize> {
        let users = 1 + 8 * self.roles.len() + 1;
        let permissions = users + 9 * self.users.len() + 1 + 9 * self.sessions.len() + 3;
        let rows = |start: usize, count: usize| (0..count).map(move |row| start + 9 * row);
        rows(users, self.users.len())
            .chain(rows(permissions, self.permissions.len()))
            .collect()
    }

    /// The bytes with another mark in some row, where there is one.
    pub fn remarked(&self, random: &mut Random) -> Vec<u8> {
        let (mut bytes, marks) = (self.bytes(), self.marks());
        if !marks.is_empty() {
            bytes[*random.pick(&marks)] = *random.pick(&MARKS);
        }
        bytes
    }
}

/// Tables with leavers: accepted, with one thing of a leaver still there, or with something else wrong, or both.
pub fn any(random: &mut Random) -> Vec<u8> {
    let most = [1, 2, 3, 5, 9, 20][random.below(6)];
    let mut plain = tables::filled(random, most);
    plain.leave_some(random, 0);
    if plain.left != 0 && random.once_in(3) {
        let still = *random.pick(&STILL);
        plain.keep(random, still);
    }
    match random.below(8) {
        0 => plain.spoil(random),
        1 => plain.unrank(random),
        2 => return plain.remarked(random),
        3 => {
            let mut bytes = plain.bytes();
            damage::bytes(random, &mut bytes);
            return bytes;
        }
        _ => {}
    }
    plain.bytes()
}

/// A question on such tables, of rules that ask for users.
pub fn asked(random: &mut Random) -> Question {
    let tables = any(random);
    subjects::about(random, tables, &USERS)
}
