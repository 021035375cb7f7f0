//! What is wrong with tables that were collected, and in which rows.

use std::error::Error;
use std::fmt;

use crate::{Refusal, Role, Row, Section, Session, User};

/// What [`TablesBuilder`](crate::TablesBuilder) cannot encode.
#[derive(Clone, Copy, PartialEq, Eq, Hash, Debug)]
#[non_exhaustive]
pub enum Unencodable {
    /// A section has more items than its limit.
    TooMany {
        /// The section.
        section: Section,
        /// How many items it has.
        count: usize,
    },
    /// A row names an item that another section does not have.
    NoSuchItem {
        /// The row.
        row: Row,
        /// The section that does not have the item.
        of: Section,
        /// The item's number.
        item: usize,
    },
}

impl fmt::Display for Unencodable {
    fn fmt(&self, f: &mut fmt::Formatter) -> fmt::Result {
        match *self {
            Unencodable::TooMany { section, count } => {
                let (limit, (_, names)) = (section.limit(), section.names());
                write!(f, "tables hold at most {limit} {names}, not {count}")
            }
            Unencodable::NoSuchItem { row, of, item } => {
                let (name, _) = of.names();
                write!(f, "{row} names {name} {item}, which the tables do not have")
            }
        }
    }
}

impl Error for Unencodable {}

/// Rows for which the library refuses tables.
#[derive(Clone, Copy, PartialEq, Eq, Hash, Debug)]
#[non_exhaustive]
pub enum Fault {
    /// 3: the row was never entered.
    NotEntered {
        /// The row.
        row: Row,
    },
    /// 20: the row of a session, or a word of CU, names a user who left.
    Left {
        /// The row.
        row: Row,
        /// The user.
        user: User,
    },
    /// 7: a role's row leaves out the role itself.
    MissesItself {
        /// The role.
        role: Role,
    },
    /// 7: a role's row leaves out a role that one of its juniors dominates.
    MissesJunior {
        /// The role.
        role: Role,
        /// A role that it dominates.
        junior: Role,
        /// A role that the junior dominates and the role does not.
        missing: Role,
    },
    /// 7: two roles dominate each other.
    EachOther {
        /// The one with the lower number.
        first: Role,
        /// The other.
        second: Role,
    },
    /// 8: a session has a role active that is not in `roles*` of its user: neither assigned nor
    /// junior to an assigned role.
    Overreach {
        /// The session.
        session: Session,
        /// Its user.
        user: User,
        /// The role.
        role: Role,
    },
    /// 9: two words of one collection are equal.
    Twins {
        /// The earlier word.
        first: Row,
        /// The later word.
        second: Row,
    },
}

impl fmt::Display for Fault {
    fn fmt(&self, f: &mut fmt::Formatter) -> fmt::Result {
        match self {
            Fault::NotEntered { row } => write!(f, "{row} was never entered"),
            Fault::Left { row, user } => write!(f, "{row} names user {user}, who left"),
            Fault::MissesItself { role } => write!(f, "role {role} does not dominate itself"),
            Fault::MissesJunior {
                role,
                junior,
                missing,
            } => write!(
                f,
                "role {role} dominates role {junior} but not role {missing}, which that dominates"
            ),
            Fault::EachOther { first, second } => {
                write!(f, "roles {first} and {second} dominate each other")
            }
            Fault::Overreach {
                session,
                user,
                role,
            } => write!(
                f,
                "session {session} has role {role} active, \
                 which is neither assigned to user {user} nor junior to a role that is"
            ),
            Fault::Twins { first, second } => write!(f, "{first} and {second} are equal"),
        }
    }
}

/// Why [`build`](crate::TablesBuilder::build) gave no tables.
#[derive(Clone, PartialEq, Eq, Hash, Debug)]
#[non_exhaustive]
pub enum BuildError {
    /// They cannot be encoded.
    Unencodable(Unencodable),
    /// They can, and the library refuses them.
    Refused {
        /// The library's refusal.
        refusal: Refusal,
        /// The rows for which it refuses, all that there are: for refusals 3, 20, 7, 8 and 9.
        faults: Vec<Fault>,
    },
}

/// How many faults are written out before the others are counted.
const WRITTEN: usize = 5;

impl fmt::Display for BuildError {
    fn fmt(&self, f: &mut fmt::Formatter) -> fmt::Result {
        let (refusal, faults) = match self {
            BuildError::Unencodable(error) => return error.fmt(f),
            BuildError::Refused { refusal, faults } => (refusal, faults),
        };
        if faults.is_empty() {
            return write!(f, "the tables are refused {refusal}");
        }
        let (number, word) = (refusal.number(), refusal.word());
        write!(f, "the tables are refused {number}, {word}")?;
        let mut mark = ": ";
        for fault in faults.iter().take(WRITTEN) {
            write!(f, "{mark}{fault}")?;
            mark = "; ";
        }
        match faults.len().saturating_sub(WRITTEN) {
            0 => Ok(()),
            more => write!(f, "; and {more} more"),
        }
    }
}

impl Error for BuildError {
    fn source(&self) -> Option<&(dyn Error + 'static)> {
        match self {
            BuildError::Unencodable(error) => Some(error),
            BuildError::Refused { refusal, .. } => Some(refusal),
        }
    }
}

impl From<Unencodable> for BuildError {
    fn from(error: Unencodable) -> BuildError {
        BuildError::Unencodable(error)
    }
}
