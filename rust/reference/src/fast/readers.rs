//! One line of a reader's sheet: the words of the tables are cut in place, and no other rule is read, but for the total.

use super::judge::judged;
use super::tables::{below, read, Tables};
use crate::number::READER;
use crate::sheet::{self, total, LONGEST, TOO_LONG};
use crate::verdict::Verdict;
use crate::{rule, Answer};

/// The line at a place, from 1; no bytes at any other place.
pub fn line(tables: &[u8], reader: u64, rules: &[u8], place: usize) -> Answer<Vec<u8>> {
    let mut tables = read(tables)?;
    if reader & !below(tables.assigned.len()) != 0 {
        return Err(READER);
    }
    tables.cut(reader);
    let line = match place {
        0 => None,
        1 if rules.len() > LONGEST => Some(TOO_LONG.to_string()),
        _ if rules.len() > LONGEST => None,
        _ => tables.line(rules, place),
    };
    Ok(line.map_or(vec![], String::into_bytes))
}

impl Tables {
    /// Leaves what the reader sees.
    fn cut(&mut self, reader: u64) {
        let sees = |user: usize| reader >> user & 1 == 1;
        let users = self.assigned.len();
        self.present &= reader;
        for (user, roles) in self.assigned.iter_mut().enumerate() {
            *roles *= u64::from(sees(user));
        }
        for (place, did) in self.done.iter_mut().enumerate() {
            *did *= u64::from(sees(place % users));
        }
        let mut own = self.session_user.iter().map(|user| user & reader != 0);
        self.active.retain(|_| own.next() == Some(true));
        self.session_user.retain(|user| user & reader != 0);
        let words = self.cu.iter().map(|word| word & reader);
        self.cu = words.fold(Vec::with_capacity(self.cu.len()), |mut kept, word| {
            if !kept.contains(&word) {
                kept.push(word);
            }
            kept
        });
    }

    /// The line at a place, from 1, or straight behind the last one the total.
    fn line(&self, rules: &[u8], place: usize) -> Option<String> {
        let line = |(place, text)| sheet::line(place, self.in_turn(text));
        let mut lines = (1..).zip(texts(rules));
        match lines.nth(place - 1) {
            Some(text) => Some(line(text)),
            None if place == 1 + texts(rules).count() => {
                let lines: Vec<String> = (1..).zip(texts(rules)).map(line).collect();
                Some(total(&lines))
            }
            None => None,
        }
    }

    /// The verdict in the order 1, 2, ..
    fn in_turn(&self, text: &[u8]) -> Answer<Verdict> {
        let rule = rule::read(text)?;
        let order: Vec<usize> = (0..rule.variables.len()).collect();
        Ok(judged(self, &rule, &order))
    }
}

/// The lines of a file, each when it is asked for.
fn texts(rules: &[u8]) -> impl Iterator<Item = &[u8]> {
    let lines = rules.split_inclusive(|&byte| byte == b'\n');
    lines.map(|line| line.strip_suffix(b"\n").unwrap_or(line))
}
