//! Document 02, N3: the verdict on a page of rules.

use crate::number::PAGE;
use crate::sheet::lines;
use crate::verdict::Verdict;
use crate::{fast, formula, tables, verdict, Answer, Refused};

/// "A page is 1 to 32 lines in the form of `rules.txt`."
pub const MOST_LINES: usize = 32;

/// The verdict on a page: "It carries each line's verdict, as when judged by itself".
#[derive(Clone, PartialEq, Eq, Debug)]
pub struct Page {
    pub lines: Vec<Verdict>,
    /// "that of different quantifier parts on the page"
    pub walks: u8,
}

impl Page {
    /// "broken if some line is broken, else idle if some line is idle, else held": 2, 1 or 0.
    pub fn word(&self) -> u8 {
        let some = |word: u8| self.lines.iter().any(|line| line.word() == word);
        match (some(2), some(1)) {
            (true, _) => 2,
            (_, true) => 1,
            _ => 0,
        }
    }

    /// "Its full and breaking counts are the sums over its lines."
    pub fn full(&self) -> u64 {
        self.lines.iter().map(|line| line.full).sum()
    }

    pub fn breaking(&self) -> u64 {
        self.lines.iter().map(|line| line.breaking).sum()
    }

    /// The bytes that the tracker reads: the word, full, breaking, walks, and each line's verdict.
    pub fn bytes(&self) -> Vec<u8> {
        let mut bytes = vec![self.word()];
        bytes.extend(self.full().to_le_bytes());
        bytes.extend(self.breaking().to_le_bytes());
        bytes.push(self.walks);
        for line in &self.lines {
            bytes.extend(line.bytes());
        }
        bytes
    }
}

/// A verdict on tables, a rule and an order.
type Judge = fn(&[u8], &[u8], &[u8]) -> Answer<Verdict>;

/// The calls that a page is judged by.
pub struct Calls {
    /// Whether tables are accepted.
    pub tables: fn(&[u8]) -> Answer<()>,
    pub reduce: fn(&[u8]) -> Answer<Vec<u8>>,
    pub judge: Judge,
}

/// Those of the plain modules.
pub const PLAIN: Calls = Calls {
    tables: |bytes| tables::read(bytes).map(|_| ()),
    reduce: formula::reduce,
    judge: verdict::judge,
};

/// Those of the fast ones.
pub const FAST: Calls = Calls {
    tables: |bytes| fast::read(bytes).map(|_| ()),
    reduce: fast::reduce,
    judge: fast::judge,
};

impl Calls {
    /// The verdict on a page, or its refusal: the tables', then 19 "after the tables' checks and
    /// before any line's", then "the refusal number of its first refused line".
    pub fn judge_page(&self, tables: &[u8], page: &[u8]) -> Result<Page, Refused> {
        (self.tables)(tables)?;
        let texts = lines(page);
        if texts.is_empty() || texts.len() > MOST_LINES {
            return Err(PAGE.into());
        }
        let mut parts = Vec::new();
        for (text, position) in texts.iter().zip(1..) {
            let formula = (self.reduce)(text).map_err(|number| Refused { number, position })?;
            parts.push(quantifier_part(&formula));
        }
        let judged = texts.iter().zip(&parts);
        let judged = judged.map(|(text, part)| (self.judge)(tables, text, &in_turn(part)));
        let lines = judged.collect::<Answer<Vec<Verdict>>>()?;
        parts.sort();
        parts.dedup();
        Ok(Page {
            lines,
            walks: parts.len() as u8,
        })
    }
}

/// "a formula through its `:`; a lone `:` is one"
fn quantifier_part(formula: &[u8]) -> Vec<u8> {
    let colon = formula.iter().position(|&byte| byte == b':');
    formula[..=colon.expect("every formula has a colon")].to_vec()
}

/// The order 1, 2, .. of as many variables as the part has quantifiers.
fn in_turn(part: &[u8]) -> Vec<u8> {
    let count = part.iter().filter(|&&byte| byte == b'[').count();
    (1..=count as u8).collect()
}
