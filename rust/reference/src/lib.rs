//! Document 01 a second time, with N1 to N10 of document 02: tables, rules, formulas, verdicts, the
//! day sheet, pages, forecasts, sessions that come and go, and what a reader sees, in plain Rust.
//!
//! It was written from the documents alone and shares no code with the proved library, so that the
//! two can be held against each other. The modules follow the document: a tree for rules, sets for
//! values, and for verdicts every choice tried in turn. [`fast`] answers the same questions as one
//! would in a program that is used, and is what the benchmark compares with.

pub mod fast;
pub mod forecast;
pub mod formula;
pub mod kind;
pub mod number;
pub mod page;
pub mod protocol;
pub mod readers;
pub mod rule;
pub mod sessions;
pub mod set;
pub mod sheet;
pub mod tables;
pub mod verdict;

/// An answer, or the number of a refusal.
pub type Answer<T> = Result<T, u32>;

/// A refusal as a call tells it.
#[derive(Clone, Copy, PartialEq, Eq, Debug)]
pub struct Refused {
    pub number: u32,
    /// The refused line of a page, counted from 1. "Every other refusal has position 0."
    pub position: u32,
}

impl Refused {
    /// What a call returns for it.
    pub fn returned(self) -> u32 {
        65_536 * self.number + self.position
    }
}

impl From<u32> for Refused {
    fn from(number: u32) -> Refused {
        Refused {
            number,
            position: 0,
        }
    }
}

/// What one call leaves behind, for a caller that lends `out`: the number that the call returns.
///
/// Success writes the first bytes and returns how many; a refusal, 17 among them, writes nothing
/// and returns 65,536 times its number, with the position added.
pub fn lend(answer: Result<Vec<u8>, impl Into<Refused>>, out: &mut [u8]) -> u32 {
    match answer {
        Err(refused) => refused.into().returned(),
        Ok(bytes) if bytes.len() > out.len() => Refused::from(number::SHORT_SHEET).returned(),
        Ok(bytes) => {
            out[..bytes.len()].copy_from_slice(&bytes);
            bytes.len() as u32
        }
    }
}
