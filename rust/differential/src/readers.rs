//! What a reader sees: readers of some users, rules files and places, and tables that differ in nothing but what others
//! hold, have open and did.

use reference::sheet::{lines, LONGEST};
use reference::verdict::steps;

use crate::hold::Question;
use crate::random::Random;
use crate::sessions::{OF_S, OF_SESSIONS};
use crate::tables::{self, items, Plain};
use crate::{damage, done, rules};

/// The most sessions, words of CU and rows of Done.
const MOST: usize = 64;

/// Rules in which others would show: by who is there, by CU and by its numbers.
pub const OF_OTHERS: [&str; 14] = [
    "OE(U)=OE(U)",
    "|U|<=2",
    "|U|=|user(R)|",
    "user(OE(R))=U",
    "roles(AO(U))=roles(U)",
    "|(roles*(OE(U))&OE(CR))|<=1",
    "|CU|<=1",
    "OE(CU)={}",
    "OE(CU)!={}",
    "OE(U)@OE(CU)",
    "OE(OE(CU))@user(S)",
    "|(OE(CU)&user(OE(R)))|<=1",
    "(OE(CU)+OE(AO(CU)))=U",
    "sessions(OE(CU))={}",
];

/// Lines that are refused as rules.
const REFUSED: [&str; 6] = ["", "U", "U=R", "OE(U)=OE(U)\r", "|U|<=65", "OE(CU)@CU"];

impl Plain {
    /// The word of all users.
    pub fn everyone(&self) -> u64 {
        (0..self.users.len()).fold(0, |word, user| word | 1 << user)
    }

    /// A reader of users who are there: of nobody, all, all but one, one, leavers, or some.
    pub fn reader(&self, random: &mut Random) -> u64 {
        let (all, one) = (self.everyone(), 1 << random.below(self.users.len().max(1)));
        match random.below(8) {
            0 => 0,
            1 => all,
            2 => all & !one,
            3 => all & one,
            4 => self.left | random.items(self.users.len()),
            _ => random.items(self.users.len()),
        }
    }

    /// The words of CU cut to a reader's users, the earliest of equal ones.
    pub fn seen_words(&self, reader: u64) -> Vec<u64> {
        let mut seen = Vec::new();
        for word in self.cu.iter().map(|word| word & reader) {
            if !seen.contains(&word) {
                seen.push(word);
            }
        }
        seen
    }

    /// Other tables that are accepted and alike for the reader: the others come, leave and have other roles, and what is
    /// theirs in sessions, in Done and in CU is another.
    pub fn others_changed(&self, random: &mut Random, reader: u64) -> Plain {
        let mut other = self.clone();
        let others: Vec<usize> = items(self.everyone() & !reader).collect();
        for &user in &others {
            let leaves = random.once_in(3);
            other.left = other.left & !(1 << user) | u64::from(leaves) << user;
            other.users[user] = match leaves {
                true => 0,
                false => random.items(self.roles.len()),
            };
        }
        let present = |user: &&usize| !other.has_left(**user);
        let present: Vec<usize> = others.iter().filter(present).copied().collect();
        other.sessions.retain(|&(user, _)| reader >> user & 1 == 1);
        other.open_between(random, &present);
        other.done.retain(|row| reader >> row[0] & 1 == 1);
        other.perform_between(random, &others);
        let word = present.iter().fold(0, |word, user| word | 1 << user);
        other.cu = widened(random, &self.seen_words(reader), word);
        other
    }

    /// Opens sessions of these users before, between and behind those that there are.
    fn open_between(&mut self, random: &mut Random, users: &[usize]) {
        let count = random.below(MOST - self.sessions.len() + 1);
        let count = random.below(count.min(12) + 1);
        for _ in (0..count).filter(|_| !users.is_empty()) {
            let user = *random.pick(users);
            let roles = self.reached(user) & random.items(64);
            let place = random.below(self.sessions.len() + 1);
            self.sessions.insert(place, (user as u8, roles));
        }
    }

    /// Adds rows of Done of these users, who may have left, before, between and behind those that there are.
    fn perform_between(&mut self, random: &mut Random, users: &[usize]) {
        let [_, operations, objects] = self.counts();
        if users.is_empty() || operations * objects == 0 {
            return;
        }
        let count = random.below(done::MOST - self.done.len() + 1);
        for _ in 0..random.below(count.min(12) + 1) {
            let row = [
                *random.pick(users),
                random.below(operations),
                random.below(objects),
            ];
            let place = random.below(self.done.len() + 1);
            self.done.insert(place, row.map(|number| number as u8));
        }
    }
}

/// Different words of which these remain without the others' bits, the earliest of equal ones.
fn widened(random: &mut Random, seen: &[u64], others: u64) -> Vec<u64> {
    let mut words: Vec<u64> = seen
        .iter()
        .map(|word| word | others & random.items(64))
        .collect();
    if seen.is_empty() {
        return words;
    }
    for _ in 0..random.below(8) {
        let which = random.below(seen.len());
        let word = seen[which] | others & random.items(64);
        // Behind the first that is left as this one is.
        let first = words.iter().position(|word| word & !others == seen[which]);
        let place = random.between(first.expect("it is there") + 1, words.len());
        if words.len() < MOST && !words.contains(&word) {
            words.insert(place, word);
        }
    }
    words
}

/// A rules file of some lines in which others would show, or other lines, now and then refused.
pub fn file(random: &mut Random) -> Vec<u8> {
    let count = random.below(6);
    let line = |random: &mut Random| match random.below(8) {
        0 | 1 => random.pick(&OF_S).to_string(),
        2 => random.pick(&OF_SESSIONS).to_string(),
        3 => random.pick(&rules::DONE).to_string(),
        4 => rules::grown(random, 0),
        5 if random.once_in(2) => random.pick(&REFUSED).to_string(),
        _ => random.pick(&OF_OTHERS).to_string(),
    };
    let lines: Vec<String> = (0..count).map(|_| line(random)).collect();
    let mut file = lines.join("\n").into_bytes();
    if random.once_in(2) {
        file.push(b'\n');
    }
    if random.once_in(20) {
        damage::text(random, &mut file);
    }
    file
}

/// Whether the walks of a file's lines have at most so many steps together; none has any where something is refused.
pub fn few(tables: &[u8], file: &[u8], limit: u64) -> bool {
    let Ok(tables) = reference::tables::read(tables) else {
        return true;
    };
    let rules = lines(file);
    let rules = rules.iter().flat_map(|line| reference::rule::read(line));
    rules.map(|rule| steps(&tables, &rule)).sum::<u64>() <= limit
}

/// Tables and rules with at most so many steps, the tables accepted.
pub fn judged(random: &mut Random, limit: u64) -> (Plain, Vec<u8>) {
    loop {
        let most = random.between(1, 9);
        let mut plain = tables::filled(random, most);
        if random.once_in(3) {
            plain.leave_some(random, 0);
        }
        let file = file(random);
        if few(&plain.bytes(), &file, limit) {
            return (plain, file);
        }
    }
}

/// A place of a file's sheet, or one beside it.
fn place(random: &mut Random, file: &[u8]) -> usize {
    let count = lines(file).len();
    match random.below(8) {
        0 => *random.pick(&[0, count + 2, count + 3, LONGEST + 1, 1 << 32, usize::MAX]),
        1 | 2 => count + 1,
        _ => random.between(1, count + 1),
    }
}

/// A line, or a place without one, of tables of some sort, readers and rules, each now and then refused.
pub fn asked(random: &mut Random, limit: u64) -> Question {
    let (plain, mut file) = judged(random, limit);
    let (mut tables, mut reader) = (plain.bytes(), plain.reader(random));
    if random.once_in(4) {
        tables = tables::any(random);
    }
    if random.once_in(8) {
        let beyond = random.between(plain.users.len(), MOST);
        reader |= 1u64.checked_shl(beyond as u32).unwrap_or(0);
    }
    if random.once_in(60) {
        let length = random.between(LONGEST - 1, LONGEST + 1);
        file.resize(length, *random.pick(b"\n\0"));
    }
    if !few(&tables, &file, limit) {
        return asked(random, limit);
    }
    let place = place(random, &file);
    Question::sheet_line(tables, reader, file, place)
}
