//! What tables are made of: typed numbers for their items, sections, rows.

use std::fmt;

/// A number with a type of its own, so that one cannot stand in another's place.
macro_rules! item {
    ($(#[$doc:meta])* $name:ident) => {
        $(#[$doc])*
        #[derive(Clone, Copy, PartialEq, Eq, PartialOrd, Ord, Hash, Debug)]
        pub struct $name(usize);

        impl $name {
            /// The one with this number, counted from 0, which need not be there yet.
            pub const fn numbered(number: usize) -> $name {
                $name(number)
            }

            /// Its number, from 0, as verdicts name it.
            pub const fn number(self) -> usize {
                self.0
            }
        }

        impl fmt::Display for $name {
            fn fmt(&self, f: &mut fmt::Formatter) -> fmt::Result {
                self.0.fmt(f)
            }
        }
    };
}

item! {
    /// A role of the tables.
    ///
    /// A user in its place does not compile:
    ///
    /// ```compile_fail,E0271
    /// let mut tables = rcl2000::TablesBuilder::new();
    /// let anna = tables.user([]);
    /// tables.user([anna]);
    /// ```
    ///
    /// ```
    /// let mut tables = rcl2000::TablesBuilder::new();
    /// let hand = tables.role([]);
    /// tables.user([hand]);
    /// ```
    Role
}

item! {
    /// A user of the tables.
    User
}

item! {
    /// A session of the tables. Where a [`LiveRule`](crate::LiveRule) closes one before it, its number falls.
    Session
}

item! {
    /// An operation of the tables.
    Operation
}

item! {
    /// An object of the tables.
    Object
}

/// The permission for an operation on an object.
///
/// [`build`](crate::TablesBuilder::build) looks whether the tables have both, so it may be made
/// before they do.
#[derive(Clone, Copy, PartialEq, Eq, PartialOrd, Ord, Hash, Debug)]
pub struct Permission {
    /// What is done.
    pub operation: Operation,
    /// What it is done to.
    pub object: Object,
}

impl fmt::Display for Permission {
    fn fmt(&self, f: &mut fmt::Formatter) -> fmt::Result {
        write!(f, "operation {} on object {}", self.operation, self.object)
    }
}

/// The sections of tables that have items of their own.
#[derive(Clone, Copy, PartialEq, Eq, Hash, Debug)]
#[non_exhaustive]
pub enum Section {
    /// Section 1.
    Roles,
    /// Section 2.
    Users,
    /// Section 3.
    Sessions,
    /// Section 4.
    Operations,
    /// Section 5.
    Objects,
    /// Section 6.
    Permissions,
    /// Section 7, CR.
    ConflictingRoles,
    /// Section 8, CU.
    ConflictingUsers,
    /// Section 9, CP.
    ConflictingPermissions,
    /// Section 10.
    Done,
}

impl Section {
    /// The most items that the section may have.
    ///
    /// ```
    /// use rcl2000::Section;
    ///
    /// assert_eq!((Section::Users.limit(), Section::Objects.limit()), (64, 8));
    /// ```
    pub fn limit(self) -> usize {
        match self {
            Section::Operations | Section::Objects => 8,
            _ => 64,
        }
    }

    /// What one item is called, and several.
    pub(crate) fn names(self) -> (&'static str, &'static str) {
        match self {
            Section::Roles => ("role", "roles"),
            Section::Users => ("user", "users"),
            Section::Sessions => ("session", "sessions"),
            Section::Operations => ("operation", "operations"),
            Section::Objects => ("object", "objects"),
            Section::Permissions => ("permission", "permissions"),
            Section::ConflictingRoles => ("CR word", "words in CR"),
            Section::ConflictingUsers => ("CU word", "words in CU"),
            Section::ConflictingPermissions => ("CP word", "words in CP"),
            Section::Done => ("Done row", "rows in Done"),
        }
    }
}

/// A row of the tables, as an error names it.
#[derive(Clone, Copy, PartialEq, Eq, Hash, Debug)]
#[non_exhaustive]
pub enum Row {
    /// The roles that a role dominates.
    Role(Role),
    /// The roles of a user.
    User(User),
    /// The user and the active roles of a session.
    Session(Session),
    /// The roles that hold a permission.
    Permission(Permission),
    /// The word at this position of CR.
    ConflictingRoles(usize),
    /// The word at this position of CU.
    ConflictingUsers(usize),
    /// The word at this position of CP.
    ConflictingPermissions(usize),
    /// The row at this position of Done.
    Done(usize),
}

impl fmt::Display for Row {
    fn fmt(&self, f: &mut fmt::Formatter) -> fmt::Result {
        match self {
            Row::Role(role) => write!(f, "role {role}"),
            Row::User(user) => write!(f, "user {user}"),
            Row::Session(session) => write!(f, "session {session}"),
            Row::Permission(permission) => write!(f, "permission for {permission}"),
            Row::ConflictingRoles(place) => write!(f, "CR word {place}"),
            Row::ConflictingUsers(place) => write!(f, "CU word {place}"),
            Row::ConflictingPermissions(place) => write!(f, "CP word {place}"),
            Row::Done(place) => write!(f, "Done row {place}"),
        }
    }
}
