//! Document 02, N10: the day sheet as a reader with a word of users sees it, line by line. The tables are cut to the
//! reader's users, and the line is taken from the whole list of the sheet's lines.

use crate::number::READER;
use crate::set::Set;
use crate::sheet::listed;
use crate::tables::{self, word, Tables};
use crate::Answer;

/// "one line of this sheet, without byte 10, from the tables, the reader's word, the rules' bytes and the line's place
/// from 1, N1's total included; any other place gives length 0".
pub fn line(tables: &[u8], reader: u64, rules: &[u8], place: usize) -> Answer<Vec<u8>> {
    let lines = sheet(tables, reader, rules)?;
    let line = place.checked_sub(1).and_then(|before| lines.get(before));
    Ok(line.map_or(vec![], |line| line.clone().into_bytes()))
}

/// "A sheet is the list of its lines." Refused are the tables, then the reader, "before the rules' length is looked at".
pub fn sheet(tables: &[u8], reader: u64, rules: &[u8]) -> Answer<Vec<String>> {
    let tables = tables::read(tables)?;
    let users = word(&reader.to_le_bytes(), tables.assigned.len()).map_err(|_| READER)?;
    Ok(listed(&tables.cut(&users), rules))
}

impl Tables {
    /// The tables "with every other user as left (mark 2, word zero), their sessions and Done rows taken out, the
    /// remaining sessions closed up in order, and each CU word cut to the reader's users; words that become equal become
    /// one, the earliest". Who left among the reader's users is still not present, and keeps the Done rows.
    pub fn cut(&self, reader: &Set) -> Tables {
        let assigned = self.assigned.iter().enumerate();
        let mut cut = Tables {
            assigned: assigned
                .map(|(user, roles)| match reader.contains(user) {
                    true => *roles,
                    false => Set::EMPTY,
                })
                .collect(),
            present: self.present.and(reader),
            cu: Vec::new(),
            ..self.clone()
        };
        cut.sessions.retain(|session| reader.contains(session.user));
        cut.done.retain(|row| reader.contains(row.user));
        for users in &self.cu {
            let users = users.and(reader);
            if !cut.cu.contains(&users) {
                cut.cu.push(users);
            }
        }
        cut
    }
}
