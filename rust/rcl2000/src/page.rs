//! Verdicts on pages, the bytes in which the library writes them, and their refusals.

use std::error::Error;
use std::fmt;
use std::slice;

use crate::{Refusal, Verdict, Word};

/// The most lines that a page has.
pub const MAX_LINES: usize = 32;

/// The verdict on a page of rules.
///
/// ```
/// use rcl2000::{judge_page, Word};
///
/// let nobody = [0; rcl2000::MIN_TABLES];
/// let page = judge_page(&nobody, b"U=U\n|CR|=0\nOE(U)=OE(U)\n")?;
/// assert_eq!(page.word, Word::Idle);
/// assert_eq!((page.full, page.breaking, page.walks), (2, 0, 2));
/// let words: Vec<Word> = page.lines().map(|verdict| verdict.word).collect();
/// assert_eq!(words, [Word::Held, Word::Held, Word::Idle]);
/// # Ok::<(), rcl2000::PageRefusal>(())
/// ```
#[derive(Clone, PartialEq, Eq, Hash, Debug)]
pub struct Page {
    /// Broken if some line is broken, else idle if some line is idle, else held.
    pub word: Word,
    /// The full choices of all lines.
    pub full: u64,
    /// The breaking choices of all lines.
    pub breaking: u64,
    /// How many different quantifier parts the lines have (a part is a formula through its `:`), and with it how
    /// many walks through the choices they share.
    pub walks: u8,
    lines: Vec<Verdict>,
}

impl Page {
    /// The length of what the library writes before the lines' verdicts.
    pub const HEAD: usize = 18;

    /// The most bytes that the library writes for a page.
    pub const MAX_BYTES: usize = Page::bytes(MAX_LINES);

    /// The length of the verdict on a page of so many lines as the library writes it.
    ///
    /// ```
    /// assert_eq!(rcl2000::Page::bytes(2), 70);
    /// assert_eq!(rcl2000::Page::MAX_BYTES, 850);
    /// ```
    pub const fn bytes(lines: usize) -> usize {
        Page::HEAD + Verdict::BYTES * lines
    }

    /// Each line's verdict, in turn: that of [`judge_in_turn`](crate::judge_in_turn) for the line.
    pub fn lines(&self) -> slice::Iter<'_, Verdict> {
        self.lines.iter()
    }

    /// The verdict that is written so, by [`judge_page_into`](crate::judge_page_into); `None` where
    /// this is not the length of a page of 1 to 32 lines.
    ///
    /// ```
    /// use rcl2000::{judge_page, judge_page_into, Page};
    ///
    /// let nobody = [0; rcl2000::MIN_TABLES];
    /// let mut out = [0; Page::MAX_BYTES];
    /// let length = judge_page_into(&nobody, b"|CR|=1", &mut out)?;
    /// let page = Page::from_bytes(&out[..length]);
    /// assert_eq!(page, Some(judge_page(&nobody, b"|CR|=1")?));
    /// assert_eq!(Page::from_bytes(&out[..length - 1]), None);
    /// # Ok::<(), rcl2000::PageRefusal>(())
    /// ```
    pub fn from_bytes(bytes: &[u8]) -> Option<Page> {
        let lines = bytes.len().checked_sub(Page::HEAD)? / Verdict::BYTES;
        if lines == 0 || lines > MAX_LINES || bytes.len() != Page::bytes(lines) {
            return None;
        }
        let (head, lines) = bytes.split_at(Page::HEAD);
        let number = |at: usize| u64::from_le_bytes(std::array::from_fn(|i| head[at + i]));
        let verdict = |line: &[u8]| Verdict::from_bytes(&std::array::from_fn(|i| line[i]));
        Some(Page {
            word: Word::from_number(head[0]),
            full: number(1),
            breaking: number(9),
            walks: head[17],
            lines: lines.chunks_exact(Verdict::BYTES).map(verdict).collect(),
        })
    }
}

/// Why a page was turned back, and for which of its lines.
///
/// ```
/// use rcl2000::{judge_page, PageRefusal, Refusal};
///
/// let nobody = [0; rcl2000::MIN_TABLES];
/// let refused = judge_page(&nobody, b"U=U\nU=R\n").unwrap_err();
/// assert_eq!(refused, PageRefusal { refusal: Refusal::Kind, position: 2 });
/// assert_eq!(
///     refused.to_string(),
///     "line 2: 14, kind: a part of the rule meets a kind of thing that it does not take"
/// );
/// let refused = judge_page(&nobody, b"").unwrap_err();
/// assert_eq!(refused, PageRefusal::from(Refusal::Page));
/// assert_eq!(refused.to_string(), "19, page: the page has no line or more than 32");
/// ```
#[derive(Clone, Copy, PartialEq, Eq, Hash, Debug)]
pub struct PageRefusal {
    /// Why.
    pub refusal: Refusal,
    /// The first refused line, counted from 1; 0 where it is not a line that is refused.
    pub position: u16,
}

impl From<Refusal> for PageRefusal {
    /// A refusal that is not a line's.
    fn from(refusal: Refusal) -> PageRefusal {
        PageRefusal {
            refusal,
            position: 0,
        }
    }
}

impl fmt::Display for PageRefusal {
    fn fmt(&self, f: &mut fmt::Formatter) -> fmt::Result {
        match self.position {
            0 => write!(f, "{}", self.refusal),
            position => write!(f, "line {position}: {}", self.refusal),
        }
    }
}

impl Error for PageRefusal {}

#[cfg(test)]
mod tests {
    use super::*;

    #[test]
    fn a_page_has_the_length_of_1_to_32_lines() {
        let written = [0; Page::MAX_BYTES + Verdict::BYTES];
        for length in 0..=written.len() {
            let page = Page::from_bytes(&written[..length]);
            let lines = (1..=MAX_LINES).find(|&lines| Page::bytes(lines) == length);
            assert_eq!(page.map(|page| page.lines().len()), lines, "{length}");
        }
    }

    #[test]
    fn the_parts_of_a_page_stand_where_the_library_writes_them() {
        let mut written = [0; Page::bytes(2)];
        written[0] = 2;
        written[1..17].copy_from_slice(&[1, 2, 0, 0, 0, 0, 0, 0, 3, 0, 0, 0, 0, 0, 0, 4]);
        written[17] = 5;
        written[18..44].copy_from_slice(&[255; 26]);
        written[44] = 1;
        let page = Page::from_bytes(&written).unwrap();
        assert_eq!((page.word, page.full), (Word::Broken, 0x201));
        assert_eq!((page.breaking, page.walks), (0x0400_0000_0000_0003, 5));
        let words: Vec<Word> = page.lines().map(|line| line.word).collect();
        assert_eq!(words, [Word::Unknown { number: 255 }, Word::Idle]);
    }
}
