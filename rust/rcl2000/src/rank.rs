//! The steps of the rank test.

use std::fmt;

/// The step of the rank test that a hierarchy of roles fails first.
///
/// The steps are taken in this order, each over the whole hierarchy, so that the step is not that of
/// the first role at fault: a later role that misses itself comes before all that is not transitive.
/// [`rank_step`](crate::rank_step) gives the step of tables that are refused 7.
///
/// Its `Display` is a sentence for whoever has to put the roles right.
///
/// ```
/// use rcl2000::RankStep;
///
/// let step = RankStep::Transitive;
/// assert_eq!(step.number(), 2);
/// assert_eq!(step.to_string(), "not transitive: a role does not dominate a junior's junior");
/// assert!(RankStep::Reflexive < step && step < RankStep::Antisymmetric);
/// ```
#[derive(Clone, Copy, PartialEq, Eq, PartialOrd, Ord, Hash, Debug)]
pub enum RankStep {
    /// 1, reflexive: every role dominates itself.
    Reflexive = 1,
    /// 2, transitive: a role dominates what the roles that it dominates do.
    Transitive = 2,
    /// 3, antisymmetric: no two roles dominate each other.
    Antisymmetric = 3,
}

impl RankStep {
    /// The documents' number.
    ///
    /// ```
    /// assert_eq!(rcl2000::RankStep::Antisymmetric.number(), 3);
    /// ```
    pub fn number(self) -> u32 {
        self as u32
    }

    /// The step that the library gives as this number: `None` for 0.
    pub(crate) fn from_number(number: u32) -> Option<RankStep> {
        match number {
            0 => None,
            1 => Some(RankStep::Reflexive),
            2 => Some(RankStep::Transitive),
            3 => Some(RankStep::Antisymmetric),
            number => unreachable!("the library gives a step from 0 to 3, not {number}"),
        }
    }
}

impl fmt::Display for RankStep {
    fn fmt(&self, f: &mut fmt::Formatter) -> fmt::Result {
        f.write_str(match self {
            RankStep::Reflexive => "not reflexive: a role does not dominate itself",
            RankStep::Transitive => "not transitive: a role does not dominate a junior's junior",
            RankStep::Antisymmetric => "not antisymmetric: two roles dominate each other",
        })
    }
}
