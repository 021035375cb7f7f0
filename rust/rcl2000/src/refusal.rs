//! The refusals, with the documents' number and word for each.

use std::error::Error;
use std::fmt;

/// Says each refusal once: its number, its name here, the documents' word for it and its meaning, below
/// what its page says besides.
macro_rules! refusals {
    ($($(#[$besides:meta])* $number:literal $name:ident $word:literal $meaning:literal)*) => {
        /// Why an input was turned back.
        ///
        /// Its `Display` is a sentence for whoever has to put the input right.
        ///
        /// ```
        /// use rcl2000::Refusal;
        ///
        /// let refusal = rcl2000::reduce(b"|U|<=065").unwrap_err();
        /// assert_eq!(refusal, Refusal::NotARule);
        /// assert_eq!((refusal.number(), refusal.word()), (13, "not a rule"));
        /// assert_eq!(
        ///     refusal.to_string(),
        ///     "13, not a rule: the text is not written as a rule is written"
        /// );
        /// ```
        ///
        /// Later versions of the library will refuse by further numbers. A number that this
        /// version does not know is [`Unknown`](Refusal::Unknown) and carries it.
        #[derive(Clone, Copy, PartialEq, Eq, Hash, Debug)]
        #[non_exhaustive]
        pub enum Refusal {
            $(
                #[doc = concat!($number, ", ", $word, ": ", $meaning, ".")]
                $(#[$besides])*
                $name,
            )*
            /// A number that this version of the crate does not know. Only the crate makes it,
            /// and never of a number that it knows.
            #[non_exhaustive]
            Unknown {
                /// The number.
                number: u32,
            },
        }

        /// The refusals that are known, in the order of their numbers.
        const KNOWN: &[Refusal] = &[$(Refusal::$name),*];

        impl Refusal {
            /// The documents' number.
            ///
            /// ```
            /// assert_eq!(rcl2000::Refusal::Twin.number(), 9);
            /// ```
            pub fn number(self) -> u32 {
                match self {
                    $(Refusal::$name => $number,)*
                    Refusal::Unknown { number } => number,
                }
            }

            /// The documents' word for it.
            ///
            /// ```
            /// assert_eq!(rcl2000::Refusal::Deep.word(), "deep");
            /// ```
            pub fn word(self) -> &'static str {
                match self {
                    $(Refusal::$name => $word,)*
                    Refusal::Unknown { .. } => "unknown",
                }
            }

            fn meaning(self) -> &'static str {
                match self {
                    $(Refusal::$name => $meaning,)*
                    Refusal::Unknown { .. } => "a refusal of a later version of the library",
                }
            }
        }
    };
}

refusals! {
    /// Tables that stop after section 9, before the count of Done, are cut short, and so is a state that ends before its
    /// tables begin.
    1 CutShort "cut short" "the tables end where a count or a row is due, or inside a row"
    2 Overfull "overfull" "the tables announce more rows in a section than it may have"
    3 NotEntered "not entered" "a user or a permission has a row that nobody has entered yet"
    4 BadMark "bad mark" "a user has a mark above 2, or a permission one above 1"
    /// Also where a session is to be opened for such a user, or with such a role.
    5 NoSuchItem "no such item" "a row names a role, user, permission, operation or object that the tables do not have"
    6 Miscounted "miscounted" "there is not one permission for each operation on each object"
    /// [`rank_step`](crate::rank_step) says which comes first.
    7 Rank "rank" "one role misses itself or a junior's junior, or two dominate each other"
    /// Also where a session is to be opened with such a role.
    8 Overreach "overreach" "a session has a role active that is neither assigned to its user nor junior to one that is"
    9 Twin "twin" "a conflict set is listed twice"
    10 LeftOver "left over" "there are bytes after section 10, the last of the tables"
    11 RuleLength "rule length" "the rule is empty or longer than 256 bytes"
    12 Deep "deep" "the rule opens more than 32 brackets at once"
    13 NotARule "not a rule" "the text is not written as a rule is written"
    14 Kind "kind" "a part of the rule meets a kind of thing that it does not take"
    15 Choices "choices" "the rule makes more than 8 different choices"
    16 NoRulesFormula "no rule's formula" "no accepted rule has this formula"
    17 ShortSheet "short sheet" "the answer is longer than the space lent for it"
    18 Order "order" "the order does not list each variable once, after those that its set names"
    19 Page "page" "the page has no line or more than 32"
    /// Also where a session is to be opened for a user who left, with roles or without. In Done such a user may stand.
    20 Left "left" "a user who left has a role or a session, or is in a conflict set"
    21 FullHouse "full house" "64 sessions are open, and no more can be opened"
    22 NotOpen "not open" "no session with this number is open"
    23 Reader "reader" "the reader is to see a user whom the tables do not have"
}

impl Refusal {
    /// The refusal with this number: `None` for 0, which is acceptance, and
    /// [`Unknown`](Refusal::Unknown) for a number of a later version.
    ///
    /// ```
    /// use rcl2000::Refusal;
    ///
    /// assert_eq!(Refusal::from_number(9), Some(Refusal::Twin));
    /// assert_eq!(Refusal::from_number(0), None);
    /// let later = Refusal::from_number(24).unwrap();
    /// assert!(matches!(later, Refusal::Unknown { number: 24, .. }));
    /// assert_eq!(later.number(), 24);
    /// ```
    pub fn from_number(number: u32) -> Option<Refusal> {
        let place = number.checked_sub(1)? as usize;
        let known = KNOWN.get(place).copied();
        Some(known.unwrap_or(Refusal::Unknown { number }))
    }
}

impl fmt::Display for Refusal {
    fn fmt(&self, f: &mut fmt::Formatter) -> fmt::Result {
        let (number, word, meaning) = (self.number(), self.word(), self.meaning());
        write!(f, "{number}, {word}: {meaning}")
    }
}

impl Error for Refusal {}

#[cfg(test)]
mod tests {
    use super::*;

    #[test]
    fn the_numbers_run_from_1_without_a_gap() {
        for (place, &refusal) in KNOWN.iter().enumerate() {
            assert_eq!(refusal.number() as usize, place + 1);
            assert_eq!(Refusal::from_number(refusal.number()), Some(refusal));
        }
        assert_eq!(KNOWN.len(), 23);
    }

    #[test]
    fn a_number_that_is_not_known_is_a_case_of_its_own() {
        for number in [24, 25, 65_535, u32::MAX] {
            let refusal = Refusal::from_number(number).unwrap();
            assert_eq!(refusal, Refusal::Unknown { number });
            assert_eq!(refusal.number(), number);
            assert!(refusal.to_string().starts_with(&number.to_string()));
        }
    }
}
