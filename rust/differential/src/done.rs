//! Who already did what: rows of Done, and tables that are wrong in them.

use crate::hold::Question;
use crate::leavers::STILL;
use crate::random::Random;
use crate::tables::{self, Plain};
use crate::{rules, subjects};

/// The bytes of a row: a user, an operation and an object.
pub const ROW: usize = 3;

/// The most rows.
pub const MOST: usize = 64;

impl Plain {
    /// What the numbers of a row are held against.
    pub fn counts(&self) -> [usize; ROW] {
        [self.users.len(), self.operations, self.objects]
    }

    /// Adds so many rows, of leavers as of others, where there is anything to do. One in four is there already.
    pub fn perform(&mut self, random: &mut Random, count: usize) {
        let counts = self.counts();
        if counts.contains(&0) {
            return;
        }
        for _ in 0..count {
            let row = match self.done.is_empty() || !random.once_in(4) {
                true => counts.map(|count| random.below(count) as u8),
                false => *random.pick(&self.done),
            };
            let place = random.below(self.done.len() + 1);
            self.done.insert(place, row);
        }
    }

    /// Adds rows until there are as many as there may be, or one or two more.
    pub fn fill_up(&mut self, random: &mut Random) {
        let count = random.between(MOST, MOST + 2);
        self.perform(random, count.saturating_sub(self.done.len()));
    }

    /// Gives a row a number that is its count or a little more, where there is a row.
    pub fn overstep(&mut self, random: &mut Random) {
        if !self.done.is_empty() {
            let (row, which) = (random.below(self.done.len()), random.below(ROW));
            self.done[row][which] = (self.counts()[which] + random.below(3)) as u8;
        }
    }

    /// The bytes before the count of Done.
    pub fn nine_sections(&self) -> Vec<u8> {
        let mut bytes = self.bytes();
        bytes.truncate(bytes.len() - 1 - ROW * self.done.len());
        bytes
    }

    /// The bytes with another end: before Done, in it, or behind it.
    pub fn ended(&self, random: &mut Random) -> Vec<u8> {
        let (nine, mut bytes) = (self.nine_sections(), self.bytes());
        match random.below(4) {
            0 => return nine,
            1 => bytes.truncate(random.between(nine.len(), bytes.len() - 1)),
            // Inside the last row, where there is one.
            2 => bytes.truncate(bytes.len() - random.between(1, ROW - 1)),
            _ => bytes.extend((0..random.between(1, ROW)).map(|_| random.byte())),
        }
        bytes
    }
}

/// Tables with rows of Done: accepted, or wrong in them, or in something that is looked for before them or behind
/// them, or in both.
pub fn any(random: &mut Random) -> Vec<u8> {
    let most = [1, 2, 3, 5, 9, 20][random.below(6)];
    let mut plain = tables::filled(random, most);
    if random.once_in(3) {
        plain.leave_some(random, 1);
    }
    match random.below(12) {
        0 => plain.spoil(random),
        1 => plain.unrank(random),
        2 if plain.left != 0 => {
            let still = *random.pick(&STILL);
            plain.keep(random, still);
        }
        _ => {}
    }
    match random.below(8) {
        0 => plain.overstep(random),
        1 => plain.fill_up(random),
        2 => return plain.ended(random),
        _ => {}
    }
    plain.bytes()
}

/// A question on such tables, of rules that ask for Done.
pub fn asked(random: &mut Random) -> Question {
    let tables = any(random);
    subjects::about(random, tables, &rules::DONE)
}
