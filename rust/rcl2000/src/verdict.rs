//! Verdicts, and the 26 bytes in which the library writes them.

use std::fmt;

/// What a verdict comes to.
///
/// Words are ordered by what they ask of whoever reads them: held, idle, broken. So the greatest of
/// a page's words is the page's: broken if some rule is, else idle if some rule is, else held.
/// `Display` pads.
///
/// ```
/// use rcl2000::Word;
///
/// assert_eq!([Word::Held, Word::Broken, Word::Idle].iter().max(), Some(&Word::Broken));
/// assert_eq!(format!("[{:<6}|{:>6}]", Word::Held, Word::Idle), "[held  |  idle]");
/// ```
#[derive(Clone, Copy, PartialEq, Eq, PartialOrd, Ord, Hash, Debug)]
#[non_exhaustive]
pub enum Word {
    /// Every full choice makes the rule true, and there is one.
    Held,
    /// There is no full choice, so the rule says nothing about these tables.
    Idle,
    /// Some full choice makes the rule false.
    Broken,
    /// A number that this version of the crate does not know. Only the crate makes it.
    #[non_exhaustive]
    Unknown {
        /// The number.
        number: u8,
    },
}

impl Word {
    /// The word that the library writes as this number.
    pub(crate) fn from_number(number: u8) -> Word {
        match number {
            0 => Word::Held,
            1 => Word::Idle,
            2 => Word::Broken,
            number => Word::Unknown { number },
        }
    }
}

impl fmt::Display for Word {
    fn fmt(&self, f: &mut fmt::Formatter) -> fmt::Result {
        match self {
            Word::Held => f.pad("held"),
            Word::Idle => f.pad("idle"),
            Word::Broken => f.pad("broken"),
            Word::Unknown { number } => f.pad(&format!("unknown-{number}")),
        }
    }
}

/// The verdict on a rule.
///
/// Its `Display` has the fields of the day sheet, one blank between them.
#[derive(Clone, Copy, PartialEq, Eq, Hash, Debug)]
pub struct Verdict {
    /// What it comes to.
    pub word: Word,
    /// How many choices are full: every variable lies in its set.
    pub full: u64,
    /// How many full choices make the rule false.
    pub breaking: u64,
    /// The item of each variable, v1 first, in the first breaking choice: a number of its sort, or
    /// of a word of its collection. `None` where there is no such variable or no such choice.
    pub first: [Option<u8>; 8],
    /// 100 × breaking / full to the nearest whole; an exact half goes to the even one, so that 1 of 8 is 12
    /// and 3 of 8 are 38. A rule that is broken may have a share of 0, and one that sometimes holds 100. `None`
    /// if idle.
    ///
    /// ```
    /// let mut tables = rcl2000::TablesBuilder::new();
    /// let weigher = tables.role([]);
    /// tables.user([weigher]);
    /// for _ in 1..8 {
    ///     tables.user([]);
    /// }
    /// let verdict = rcl2000::judge_in_turn(&tables.build()?, b"roles(OE(U))={}")?;
    /// assert_eq!((verdict.breaking, verdict.full, verdict.share), (1, 8, Some(12)));
    /// # Ok::<(), Box<dyn std::error::Error>>(())
    /// ```
    pub share: Option<u8>,
}

impl Verdict {
    /// The length of a verdict as the library writes it.
    pub const BYTES: usize = 26;

    /// The verdict that is written so, by [`judge_into`](crate::judge_into).
    ///
    /// ```
    /// use rcl2000::{Verdict, Word};
    ///
    /// let mut bytes = [0; Verdict::BYTES];
    /// let nobody = [0; rcl2000::MIN_TABLES];
    /// rcl2000::judge_into(&nobody, b"|CR|=1", &[], &mut bytes)?;
    /// let verdict = Verdict::from_bytes(&bytes);
    /// assert_eq!((verdict.full, verdict.breaking, verdict.share), (1, 1, Some(100)));
    /// assert_eq!(verdict.first, [None; 8]);
    ///
    /// let other = Verdict::from_bytes(&[3; Verdict::BYTES]);
    /// assert!(matches!(other.word, Word::Unknown { number: 3, .. }));
    /// # Ok::<(), rcl2000::Refusal>(())
    /// ```
    pub fn from_bytes(bytes: &[u8; Verdict::BYTES]) -> Verdict {
        let item = |byte: u8| (byte != 255).then_some(byte);
        let number = |at: usize| u64::from_le_bytes(std::array::from_fn(|i| bytes[at + i]));
        Verdict {
            word: Word::from_number(bytes[0]),
            full: number(1),
            breaking: number(9),
            first: std::array::from_fn(|variable| item(bytes[17 + variable])),
            share: item(bytes[25]),
        }
    }
}

impl fmt::Display for Verdict {
    fn fmt(&self, f: &mut fmt::Formatter) -> fmt::Result {
        write!(f, "{} {} {} ", self.word, self.full, self.breaking)?;
        match self.share {
            Some(share) => write!(f, "{share}")?,
            None => f.write_str("-")?,
        }
        for (place, item) in self.first.iter().enumerate() {
            if let Some(item) = item {
                write!(f, " v{}={item}", place + 1)?;
            }
        }
        Ok(())
    }
}
