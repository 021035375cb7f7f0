//! Document 02, N5: the length of a rule's formula and a ceiling on its full choices, before judging.
//! Both by the plain modules: the formula is written and measured.

use crate::verdict::ceiling;
use crate::{formula, rule, tables, Answer};

/// What is told of a rule beforehand.
#[derive(Clone, Copy, PartialEq, Eq, Debug)]
pub struct Forecast {
    pub length: u64,
    pub ceiling: u64,
}

impl Forecast {
    /// The two words that the tracker reads.
    pub fn bytes(&self) -> Vec<u8> {
        [self.length.to_le_bytes(), self.ceiling.to_le_bytes()].concat()
    }
}

/// The forecast for a rule, or the first refusal of the tables and the rule.
pub fn forecast(tables: &[u8], text: &[u8]) -> Answer<Forecast> {
    let tables = tables::read(tables)?;
    let rule = rule::read(text)?;
    Ok(Forecast {
        length: formula::reduce(text)?.len() as u64,
        ceiling: ceiling(&tables, &rule),
    })
}
