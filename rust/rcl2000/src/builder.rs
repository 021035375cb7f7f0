//! Tables from plain values, so that nobody packs bytes by hand.

use std::array;
use std::collections::BTreeMap;

use crate::words::{items, UserRow, Words};
use crate::{check_tables, BuildError, Unencodable};
use crate::{Object, Operation, Permission, Role, Row, Section, Session, User};

/// Collects tables from plain values and encodes them.
///
/// Roles, users, sessions, operations, objects and conflict sets are numbered from 0 as they are
/// added. A row may name an item that is added later, by its number ([`Role::numbered`]).
///
/// A row that never arrived is not an empty row. A user without roles is
/// [`user([])`](TablesBuilder::user); one of whom nothing is known is
/// [`user_not_entered()`](TablesBuilder::user_not_entered). A permission is entered by
/// [`held_by`](TablesBuilder::held_by) alone. Tables with such a row are refused, and
/// [`build`](TablesBuilder::build) names the row. Who left keeps the row and the number, and counts no
/// more: [`user_left()`](TablesBuilder::user_left).
///
/// ```
/// use rcl2000::{judge_in_turn, TablesBuilder};
///
/// let mut tables = TablesBuilder::new();
/// let hand = tables.role([]);
/// let leader = tables.role([hand]);
/// let (anna, bruno) = (tables.user([leader]), tables.user([hand]));
/// tables.session(anna, [leader]);
/// // Two operations on one object: hands press, leaders also grade.
/// let [press, grade] = tables.operations();
/// let tank = tables.object();
/// let pressing = tables.permission(press, tank);
/// let grading = tables.permission(grade, tank);
/// tables.held_by(pressing, [hand]);
/// tables.held_by(grading, [leader]);
/// tables.conflicting_permissions([pressing, grading]);
/// tables.conflicting_users([anna, bruno]);
/// let tables = tables.build()?;
///
/// let rule = b"|(permissions(roles*(OE(U)))&OE(CP))|<=1";
/// assert_eq!(judge_in_turn(&tables, rule)?.to_string(), "broken 2 1 50 v1=0 v2=0");
/// # Ok::<(), Box<dyn std::error::Error>>(())
/// ```
///
/// ```
/// use rcl2000::{Refusal, TablesBuilder};
///
/// let mut tables = TablesBuilder::new();
/// let hand = tables.role([]);
/// tables.user([]);
/// tables.user_not_entered();
/// let error = tables.build().unwrap_err();
/// assert_eq!(
///     error.to_string(),
///     "the tables are refused 3, not entered: user 1 was never entered"
/// );
/// // The bytes are to be had all the same, and the library says what it says of them.
/// let bytes = tables.encode()?;
/// assert_eq!(rcl2000::check_tables(&bytes), Err(Refusal::NotEntered));
/// # Ok::<(), Box<dyn std::error::Error>>(())
/// ```
#[derive(Clone, Default, Debug)]
pub struct TablesBuilder {
    roles: Vec<RoleRow>,
    users: Vec<UserRow<Vec<Role>>>,
    sessions: Vec<(User, Vec<Role>)>,
    operations: usize,
    objects: usize,
    held: BTreeMap<Permission, Vec<Role>>,
    conflicting_roles: Vec<Vec<Role>>,
    conflicting_users: Vec<Vec<User>>,
    conflicting_permissions: Vec<Vec<Permission>>,
    done: Vec<(User, Permission)>,
}

/// How the roles that a role dominates were said.
#[derive(Clone, Debug)]
enum RoleRow {
    /// By direct juniors: itself and what they dominate belong to it too.
    Juniors(Vec<Role>),
    /// As the row stands.
    Row(Vec<Role>),
}

impl TablesBuilder {
    /// Tables without anything: ten zero bytes, a count for each section.
    ///
    /// ```
    /// let nothing = rcl2000::TablesBuilder::new().build().unwrap();
    /// assert_eq!(nothing, [0; rcl2000::MIN_TABLES]);
    /// ```
    pub fn new() -> TablesBuilder {
        TablesBuilder::default()
    }

    /// Adds a role by its direct juniors. It dominates itself, them, and all that they dominate.
    ///
    /// ```
    /// use rcl2000::{judge_in_turn, TablesBuilder, Word};
    ///
    /// let mut tables = TablesBuilder::new();
    /// let hand = tables.role([]);
    /// let leader = tables.role([hand]);
    /// let owner = tables.role([leader]);
    /// tables.user([owner]);
    /// let tables = tables.build()?;
    /// // The owner reaches the hand's role through the leader's.
    /// assert_eq!(judge_in_turn(&tables, b"roles*(OE(U))=R")?.word, Word::Held);
    /// # Ok::<(), Box<dyn std::error::Error>>(())
    /// ```
    pub fn role(&mut self, juniors: impl IntoIterator<Item = Role>) -> Role {
        let row = RoleRow::Juniors(juniors.into_iter().collect());
        Role::numbered(add(&mut self.roles, row))
    }

    /// Adds a role by its whole row: all roles that it dominates, itself included, for rows that
    /// are kept so elsewhere. Nothing is added to the row, and [`build`](TablesBuilder::build)
    /// says which rows do not fit together.
    ///
    /// ```
    /// use rcl2000::{Role, TablesBuilder};
    ///
    /// let mut tables = TablesBuilder::new();
    /// let [hand, leader, owner] = [0, 1, 2].map(Role::numbered);
    /// tables.role_row([hand]);
    /// tables.role_row([hand, leader]);
    /// tables.role_row([leader, owner]);
    /// assert_eq!(
    ///     tables.build().unwrap_err().to_string(),
    ///     "the tables are refused 7, rank: \
    ///      role 2 dominates role 1 but not role 0, which that dominates"
    /// );
    /// ```
    pub fn role_row(&mut self, dominated: impl IntoIterator<Item = Role>) -> Role {
        let row = RoleRow::Row(dominated.into_iter().collect());
        Role::numbered(add(&mut self.roles, row))
    }

    /// Adds a user whose row was entered, with the roles assigned: none, where there are none.
    pub fn user(&mut self, roles: impl IntoIterator<Item = Role>) -> User {
        let row = UserRow::Entered(roles.into_iter().collect());
        User::numbered(add(&mut self.users, row))
    }

    /// Adds a user whose row never arrived. Tables with one are refused 3.
    pub fn user_not_entered(&mut self) -> User {
        User::numbered(add(&mut self.users, UserRow::NotEntered))
    }

    /// Adds a user who left. The row remains, without roles, so that nobody else gets the number; U is
    /// the others, and no verdict or forecast counts or names a leaver. Tables in which a session or a
    /// set of conflicting users names one are refused 20, and [`build`](TablesBuilder::build) says which;
    /// [`done`](TablesBuilder::done) may name one.
    ///
    /// ```
    /// use rcl2000::{judge_in_turn, TablesBuilder};
    ///
    /// let mut tables = TablesBuilder::new();
    /// let (tester, grader) = (tables.role([]), tables.role([]));
    /// let anna = tables.user([tester]);
    /// let bruno = tables.user_left();
    /// let carla = tables.user([tester, grader]);
    /// // Two users, and the one who breaks the rule is still number 2.
    /// let verdict = judge_in_turn(&tables.build()?, b"|roles(OE(U))|<=1")?;
    /// assert_eq!(verdict.to_string(), "broken 2 1 50 v1=2");
    /// tables.session(bruno, []);
    /// tables.conflicting_users([anna, bruno, carla]);
    /// assert_eq!(
    ///     tables.build().unwrap_err().to_string(),
    ///     "the tables are refused 20, left: session 0 names user 1, who left; \
    ///      CU word 0 names user 1, who left"
    /// );
    /// # Ok::<(), Box<dyn std::error::Error>>(())
    /// ```
    pub fn user_left(&mut self) -> User {
        User::numbered(add(&mut self.users, UserRow::Left))
    }

    /// Adds a session of a user with its active roles: any that are in `roles*` of the user, which
    /// are the assigned ones and their juniors. A leader may work under the hand's role, and not the
    /// other way round. With a [`LiveRule`](crate::LiveRule) sessions come and go afterwards.
    ///
    /// ```
    /// let mut tables = rcl2000::TablesBuilder::new();
    /// let hand = tables.role([]);
    /// let leader = tables.role([hand]);
    /// let (anna, bruno) = (tables.user([leader]), tables.user([hand]));
    /// tables.session(anna, [hand]);
    /// tables.build()?;
    /// tables.session(bruno, [hand, leader]);
    /// assert_eq!(
    ///     tables.build().unwrap_err().to_string(),
    ///     "the tables are refused 8, overreach: session 1 has role 1 active, \
    ///      which is neither assigned to user 1 nor junior to a role that is"
    /// );
    /// # Ok::<(), rcl2000::BuildError>(())
    /// ```
    pub fn session(&mut self, user: User, roles: impl IntoIterator<Item = Role>) -> Session {
        let row = (user, roles.into_iter().collect());
        Session::numbered(add(&mut self.sessions, row))
    }

    /// Adds an operation.
    pub fn operation(&mut self) -> Operation {
        self.operations += 1;
        Operation::numbered(self.operations - 1)
    }

    /// Adds some operations at once: `let [fill, draw] = tables.operations();`
    pub fn operations<const N: usize>(&mut self) -> [Operation; N] {
        array::from_fn(|_| self.operation())
    }

    /// Adds an object.
    pub fn object(&mut self) -> Object {
        self.objects += 1;
        Object::numbered(self.objects - 1)
    }

    /// Adds some objects at once: `let [north, south] = tables.objects();`
    pub fn objects<const N: usize>(&mut self) -> [Object; N] {
        array::from_fn(|_| self.object())
    }

    /// The permission for an operation on an object. There is one for each pair, and it may be
    /// named before all operations and objects are added: [`build`](TablesBuilder::build) looks
    /// for both.
    ///
    /// ```
    /// use rcl2000::{Operation, TablesBuilder};
    ///
    /// let mut tables = TablesBuilder::new();
    /// let tank = tables.object();
    /// let pressing = tables.permission(Operation::numbered(0), tank);
    /// tables.conflicting_permissions([pressing]);
    /// assert_eq!(
    ///     tables.build().unwrap_err().to_string(),
    ///     "CP word 0 names operation 0, which the tables do not have"
    /// );
    /// ```
    pub fn permission(&self, operation: Operation, object: Object) -> Permission {
        Permission { operation, object }
    }

    /// Enters the row of a permission: the roles that hold it, which replace those said before.
    /// Without this call the row counts as never entered, and the tables are refused 3.
    pub fn held_by(&mut self, permission: Permission, roles: impl IntoIterator<Item = Role>) {
        self.held.insert(permission, roles.into_iter().collect());
    }

    /// Adds a set of conflicting roles to CR, and gives its position there.
    ///
    /// ```
    /// let mut tables = rcl2000::TablesBuilder::new();
    /// let (tester, grader) = (tables.role([]), tables.role([]));
    /// tables.conflicting_roles([tester, grader]);
    /// tables.conflicting_roles([]);
    /// tables.conflicting_roles([grader, tester]);
    /// assert_eq!(
    ///     tables.build().unwrap_err().to_string(),
    ///     "the tables are refused 9, twin: CR word 0 and CR word 2 are equal"
    /// );
    /// ```
    pub fn conflicting_roles(&mut self, roles: impl IntoIterator<Item = Role>) -> usize {
        add(&mut self.conflicting_roles, roles.into_iter().collect())
    }

    /// Adds a set of conflicting users to CU, and gives its position there.
    pub fn conflicting_users(&mut self, users: impl IntoIterator<Item = User>) -> usize {
        add(&mut self.conflicting_users, users.into_iter().collect())
    }

    /// Adds a set of conflicting permissions to CP, and gives its position there.
    pub fn conflicting_permissions(
        &mut self,
        permissions: impl IntoIterator<Item = Permission>,
    ) -> usize {
        let permissions = permissions.into_iter().collect();
        add(&mut self.conflicting_permissions, permissions)
    }

    /// Adds to Done that a user performed an operation on an object, whether or not the user may do so
    /// now, and gives the row's position there.
    ///
    /// The rule `|done(OE(U),OE(OBJ))|<=1` says that nobody performs two operations on one object. Done has
    /// at most 64 rows; one that stands there twice fills two of them and counts once. Whoever left may stand
    /// in Done: such rows remain, and no rule counts them.
    ///
    /// ```
    /// use rcl2000::{judge_in_turn, TablesBuilder};
    ///
    /// let mut tables = TablesBuilder::new();
    /// let (anna, bruno) = (tables.user([]), tables.user_left());
    /// let [test, grade] = tables.operations();
    /// let [north, south] = tables.objects();
    /// for (operation, tank) in [(test, north), (test, south), (grade, north), (grade, south)] {
    ///     tables.held_by(tables.permission(operation, tank), []);
    /// }
    /// tables.done(anna, test, north);
    /// tables.done(anna, test, north);
    /// tables.done(anna, grade, south);
    /// tables.done(bruno, test, south);
    /// tables.done(bruno, grade, south);
    /// let rule = b"|done(OE(U),OE(OBJ))|<=1";
    /// assert_eq!(judge_in_turn(&tables.build()?, rule)?.to_string(), "held 2 0 0");
    /// // Anna (v1) on the south tank (v2), one of two choices.
    /// tables.done(anna, test, south);
    /// let verdict = judge_in_turn(&tables.build()?, rule)?;
    /// assert_eq!(verdict.to_string(), "broken 2 1 50 v1=0 v2=1");
    /// # Ok::<(), Box<dyn std::error::Error>>(())
    /// ```
    pub fn done(&mut self, user: User, operation: Operation, object: Object) -> usize {
        add(&mut self.done, (user, Permission { operation, object }))
    }

    /// The bytes of these tables, which the library accepts.
    ///
    /// # Errors
    ///
    /// What cannot be encoded; else what the library refuses, with the rows for which it refuses.
    pub fn build(&self) -> Result<Vec<u8>, BuildError> {
        let words = self.words()?;
        let bytes = words.bytes();
        match check_tables(&bytes) {
            Ok(()) => Ok(bytes),
            Err(refusal) => Err(BuildError::Refused {
                refusal,
                faults: words.faults(refusal),
            }),
        }
    }

    /// The bytes of these tables, whether or not the library accepts them.
    ///
    /// # Errors
    ///
    /// The first thing that cannot be encoded: more items than a section may have, or an item
    /// that is not there.
    pub fn encode(&self) -> Result<Vec<u8>, Unencodable> {
        Ok(self.words()?.bytes())
    }

    fn words(&self) -> Result<Words, Unencodable> {
        self.counted()?;
        Ok(Words {
            roles: self.role_words()?,
            users: self.user_words()?,
            sessions: self.session_words()?,
            operations: self.operations,
            objects: self.objects,
            permissions: self.permission_words()?,
            conflicting_roles: gathered(&self.conflicting_roles, |place, roles| {
                self.of_roles(Row::ConflictingRoles(place), roles)
            })?,
            conflicting_users: gathered(&self.conflicting_users, |place, users| {
                let users = users.iter().map(|user| user.number());
                let row = Row::ConflictingUsers(place);
                word(row, Section::Users, self.users.len(), users)
            })?,
            conflicting_permissions: gathered(&self.conflicting_permissions, |place, set| {
                self.of_permissions(Row::ConflictingPermissions(place), set)
            })?,
            done: self.done_rows()?,
        })
    }

    /// No section has more items than its limit. The permissions are as many as they have to be.
    fn counted(&self) -> Result<(), Unencodable> {
        let counts = [
            (Section::Roles, self.roles.len()),
            (Section::Users, self.users.len()),
            (Section::Sessions, self.sessions.len()),
            (Section::Operations, self.operations),
            (Section::Objects, self.objects),
            (Section::ConflictingRoles, self.conflicting_roles.len()),
            (Section::ConflictingUsers, self.conflicting_users.len()),
            (
                Section::ConflictingPermissions,
                self.conflicting_permissions.len(),
            ),
            (Section::Done, self.done.len()),
        ];
        let over = counts
            .iter()
            .find(|(section, count)| *count > section.limit());
        match over {
            None => Ok(()),
            Some(&(section, count)) => Err(Unencodable::TooMany { section, count }),
        }
    }

    /// The rows of the roles; those given by juniors grow until they have all that is dominated.
    fn role_words(&self) -> Result<Vec<u64>, Unencodable> {
        let mut rows = gathered(&self.roles, |number, row| {
            let role = Role::numbered(number);
            match row {
                RoleRow::Juniors(juniors) => {
                    Ok(1 << number | self.of_roles(Row::Role(role), juniors)?)
                }
                RoleRow::Row(row) => self.of_roles(Row::Role(role), row),
            }
        })?;
        let grows = |row: &RoleRow| matches!(row, RoleRow::Juniors(_));
        let mut grown = true;
        while grown {
            grown = false;
            for number in (0..rows.len()).filter(|&number| grows(&self.roles[number])) {
                let reached = items(rows[number]).fold(0, |word, junior| word | rows[junior]);
                grown |= reached & !rows[number] != 0;
                rows[number] |= reached;
            }
        }
        Ok(rows)
    }

    fn user_words(&self) -> Result<Vec<UserRow<u64>>, Unencodable> {
        gathered(&self.users, |number, row| {
            let user = Row::User(User::numbered(number));
            Ok(match row {
                UserRow::NotEntered => UserRow::NotEntered,
                UserRow::Entered(roles) => UserRow::Entered(self.of_roles(user, roles)?),
                UserRow::Left => UserRow::Left,
            })
        })
    }

    fn session_words(&self) -> Result<Vec<(User, u64)>, Unencodable> {
        gathered(&self.sessions, |number, (user, roles)| {
            let row = Row::Session(Session::numbered(number));
            exists(row, Section::Users, self.users.len(), user.number())?;
            Ok((*user, self.of_roles(row, roles)?))
        })
    }

    fn permission_words(&self) -> Result<Vec<Option<u64>>, Unencodable> {
        let mut rows = vec![None; self.operations * self.objects];
        for (&permission, roles) in &self.held {
            let row = Row::Permission(permission);
            let number = self.permission_number(row, permission)?;
            rows[number] = Some(self.of_roles(row, roles)?);
        }
        Ok(rows)
    }

    /// Rows that name a user, an operation and an object of the tables, looked for in that order.
    fn done_rows(&self) -> Result<Vec<(User, Permission)>, Unencodable> {
        gathered(&self.done, |place, &(user, performed)| {
            let row = Row::Done(place);
            exists(row, Section::Users, self.users.len(), user.number())?;
            self.permission_number(row, performed)?;
            Ok((user, performed))
        })
    }

    fn permission_number(&self, row: Row, permission: Permission) -> Result<usize, Unencodable> {
        let operation = permission.operation.number();
        let object = permission.object.number();
        exists(row, Section::Operations, self.operations, operation)?;
        exists(row, Section::Objects, self.objects, object)?;
        Ok(operation * self.objects + object)
    }

    fn of_roles(&self, row: Row, roles: &[Role]) -> Result<u64, Unencodable> {
        let roles = roles.iter().map(|role| role.number());
        word(row, Section::Roles, self.roles.len(), roles)
    }

    fn of_permissions(&self, row: Row, permissions: &[Permission]) -> Result<u64, Unencodable> {
        permissions.iter().try_fold(0, |word, &permission| {
            Ok(word | 1 << self.permission_number(row, permission)?)
        })
    }
}

/// Adds a row and gives its number.
fn add<T>(rows: &mut Vec<T>, row: T) -> usize {
    rows.push(row);
    rows.len() - 1
}

/// What each row with its number gives.
fn gathered<T, W>(
    rows: &[T],
    of: impl Fn(usize, &T) -> Result<W, Unencodable>,
) -> Result<Vec<W>, Unencodable> {
    let rows = rows.iter().enumerate();
    rows.map(|(number, row)| of(number, row)).collect()
}

/// The word of some items of a section, whose count is within its limit.
fn word(
    row: Row,
    of: Section,
    count: usize,
    items: impl Iterator<Item = usize>,
) -> Result<u64, Unencodable> {
    let mut word = 0;
    for item in items {
        exists(row, of, count, item)?;
        word |= 1 << item;
    }
    Ok(word)
}

fn exists(row: Row, of: Section, count: usize, item: usize) -> Result<(), Unencodable> {
    if item < count {
        return Ok(());
    }
    Err(Unencodable::NoSuchItem { row, of, item })
}
