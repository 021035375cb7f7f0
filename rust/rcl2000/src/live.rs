//! A rule whose verdict stays current while sessions come and go, with typed sessions over the calls' states.

use crate::words::items;
use crate::{session_close, session_open, sessions_start};
use crate::{Refusal, Role, Session, User, Verdict};

/// Where the rule stands in a state: behind the verdict and the two bytes of its length.
const RULE: usize = Verdict::BYTES + 2;

/// The bytes of a session's row: the user, and a word of active roles.
const ROW: usize = 9;

/// The number of a user whom no tables have, and of a session that is never open.
const NOBODY: u32 = u32::MAX;

/// A rule whose verdict stays current while sessions come and go.
///
/// It starts from tables, whose sessions are open then, and from there on its verdict is what
/// [`judge_in_turn`](crate::judge_in_turn) gives for the rule and the tables with the sessions that are open. A call that
/// is refused leaves it as it was.
///
/// **The number of a session falls** by one whenever a session before it is closed, as when a row is taken out of a
/// list. So a number that [`open`](LiveRule::open) gave is not to be kept across a [`close`](LiveRule::close):
/// afterwards it may be another session's, or nobody's. Look for the session anew among
/// [`sessions`](LiveRule::sessions).
///
/// ```
/// use rcl2000::{LiveRule, Refusal, Session, TablesBuilder, Word};
///
/// let mut tables = TablesBuilder::new();
/// let (weigher, blender) = (tables.role([]), tables.role([]));
/// let (dino, elsa) = (tables.user([weigher]), tables.user([weigher, blender]));
/// tables.session(dino, [weigher]);
/// tables.conflicting_roles([weigher, blender]);
///
/// // Nobody works in two roles that are kept apart in one session.
/// let mut live = LiveRule::start(&tables.build()?, b"|(roles(OE(S))&OE(CR))|<=1")?;
/// assert_eq!(live.verdict().to_string(), "held 1 0 0");
/// let first = live.open(elsa, [weigher])?;
/// let second = live.open(elsa, [blender, weigher])?;
/// assert_eq!((first.number(), second.number()), (1, 2));
/// assert_eq!(live.verdict().to_string(), "broken 3 1 33 v1=2 v2=0");
///
/// // Dino is no blender. Nothing has changed.
/// assert_eq!(live.open(dino, [blender]), Err(Refusal::Overreach));
/// assert_eq!(live.verdict().breaking, 1);
///
/// // His session is closed, so that Elsa's have other numbers now: the one that was number 2 is number 1.
/// live.close(Session::numbered(0))?;
/// assert_eq!(live.close(second), Err(Refusal::NotOpen));
/// let both = live.sessions().find(|open| open.roles().count() == 2).unwrap();
/// assert_eq!((both.session.number(), both.user), (1, elsa));
/// live.close(both.session)?;
/// assert_eq!(live.verdict().word, Word::Held);
/// # Ok::<(), Box<dyn std::error::Error>>(())
/// ```
///
/// # Cost
///
/// Up to [`MAX_STATE`](crate::MAX_STATE) bytes. Each call says what it may cost; one that gives a part of it costs nothing
/// to speak of.
#[derive(Clone, PartialEq, Eq, Hash, Debug)]
pub struct LiveRule {
    state: Vec<u8>,
    /// Where the tables begin in the state: behind the rule, which stays.
    tables: usize,
}

/// A session that is open.
#[derive(Clone, Copy, PartialEq, Eq, Hash, Debug)]
pub struct OpenSession {
    /// Its number, until one before it is closed.
    pub session: Session,
    /// Whose it is.
    pub user: User,
    /// Its active roles as a word: bit i stands for role i.
    pub word: u64,
}

impl OpenSession {
    /// Its active roles, lowest number first.
    ///
    /// ```
    /// use rcl2000::{OpenSession, Role, Session, User};
    ///
    /// let open = OpenSession { session: Session::numbered(0), user: User::numbered(3), word: 0b1010 };
    /// assert!(open.roles().eq([1, 3].map(Role::numbered)));
    /// ```
    pub fn roles(&self) -> impl Iterator<Item = Role> {
        items(self.word).map(Role::numbered)
    }
}

impl LiveRule {
    /// A live rule on tables, whose sessions are open.
    ///
    /// # Errors
    ///
    /// What is wrong with the tables, a refusal from 1 to 10 or 20; else with the rule, 11 to 15.
    ///
    /// # Cost
    ///
    /// As [`sessions_start`].
    pub fn start(tables: &[u8], rule: &[u8]) -> Result<LiveRule, Refusal> {
        Ok(LiveRule {
            state: sessions_start(tables, rule)?,
            tables: RULE + rule.len(),
        })
    }

    /// The live rule of a [`state`](LiveRule::state) that was kept, or that [`session_open`] or another of these calls
    /// gave.
    ///
    /// The tables and the rule in it are looked at as any are, and the rule is judged anew, so that the verdict is right
    /// whatever became of the bytes in between. Where they have not changed, the state is the same.
    ///
    /// ```
    /// use rcl2000::{LiveRule, Refusal, MIN_TABLES};
    ///
    /// let live = LiveRule::start(&[0; MIN_TABLES], b"S={}")?;
    /// let mut kept = live.state().to_vec();
    /// assert_eq!(LiveRule::from_state(&kept)?, live);
    /// // Another verdict was put in the place of the one that it had.
    /// kept[..26].fill(2);
    /// assert_eq!(LiveRule::from_state(&kept)?, live);
    /// assert_eq!(LiveRule::from_state(&kept[..29]), Err(Refusal::CutShort));
    /// # Ok::<(), Refusal>(())
    /// ```
    ///
    /// # Errors
    ///
    /// [`Refusal::CutShort`] where the bytes end before the tables begin; else as [`start`](LiveRule::start).
    ///
    /// # Cost
    ///
    /// As [`sessions_start`].
    pub fn from_state(state: &[u8]) -> Result<LiveRule, Refusal> {
        let (rule, tables) = parts(state).ok_or(Refusal::CutShort)?;
        LiveRule::start(tables, rule)
    }

    /// Opens a session of a user with its active roles, any that are assigned to the user or junior to such a role, and
    /// gives its number: it stands behind those that are open.
    ///
    /// # Errors
    ///
    /// [`Refusal::FullHouse`] where 64 sessions are open; else [`Refusal::NoSuchItem`] where the tables do not have the
    /// user or a role; else [`Refusal::Left`] where the user left; else [`Refusal::Overreach`] where the user may not
    /// open a role.
    ///
    /// # Cost
    ///
    /// As [`session_open`].
    pub fn open(
        &mut self,
        user: User,
        roles: impl IntoIterator<Item = Role>,
    ) -> Result<Session, Refusal> {
        let word = roles.into_iter().try_fold(0, |word, role| {
            let number = role.number();
            (number < 64).then(|| word | 1 << number)
        });
        match word {
            Some(word) => self.open_word(narrow(user.number()), word),
            // A word has no bit for such a role, which is refused as a user is whom no tables have.
            None => self.open_word(NOBODY, 0),
        }
    }

    /// [`open`](LiveRule::open) with a user's number and a word of active roles, as [`session_open`] takes them: bit i
    /// stands for role i.
    ///
    /// ```
    /// use rcl2000::{LiveRule, TablesBuilder};
    ///
    /// let mut tables = TablesBuilder::new();
    /// let (weigher, blender) = (tables.role([]), tables.role([]));
    /// let elsa = tables.user([weigher, blender]);
    /// let mut live = LiveRule::start(&tables.build()?, b"S={}")?;
    /// live.open_word(0, 0b11)?;
    /// let open = live.sessions().next().unwrap();
    /// assert!(open.user == elsa && open.roles().eq([weigher, blender]));
    /// # Ok::<(), Box<dyn std::error::Error>>(())
    /// ```
    ///
    /// # Errors
    ///
    /// As [`open`](LiveRule::open).
    ///
    /// # Cost
    ///
    /// As [`session_open`].
    pub fn open_word(&mut self, user: u32, roles: u64) -> Result<Session, Refusal> {
        self.state = session_open(&self.state, user, roles)?;
        Ok(Session::numbered(self.sessions().len() - 1))
    }

    /// Closes a session. The numbers of those behind it fall by one.
    ///
    /// # Errors
    ///
    /// [`Refusal::NotOpen`] where no session has this number.
    ///
    /// # Cost
    ///
    /// As [`session_close`].
    pub fn close(&mut self, session: Session) -> Result<(), Refusal> {
        self.state = session_close(&self.state, narrow(session.number()))?;
        Ok(())
    }

    /// The verdict on the rule with the sessions that are open, in the order 1, 2, ..
    pub fn verdict(&self) -> Verdict {
        Verdict::from_bytes(&std::array::from_fn(|place| self.state[place]))
    }

    /// The rule.
    pub fn rule(&self) -> &[u8] {
        &self.state[RULE..self.tables]
    }

    /// The tables with the sessions that are open, as any call takes them.
    ///
    /// ```
    /// use rcl2000::{judge_in_turn, LiveRule, TablesBuilder};
    ///
    /// let mut tables = TablesBuilder::new();
    /// let anna = tables.user([]);
    /// let mut live = LiveRule::start(&tables.build()?, b"|sessions(OE(U))|<=1")?;
    /// live.open(anna, [])?;
    /// live.open(anna, [])?;
    /// assert_eq!(live.verdict(), judge_in_turn(live.tables(), live.rule())?);
    /// // What else there is to ask of the same sessions.
    /// assert_eq!(judge_in_turn(live.tables(), b"|S|=2")?.breaking, 0);
    /// # Ok::<(), Box<dyn std::error::Error>>(())
    /// ```
    pub fn tables(&self) -> &[u8] {
        &self.state[self.tables..]
    }

    /// The sessions that are open, by their numbers.
    pub fn sessions(&self) -> impl ExactSizeIterator<Item = OpenSession> + '_ {
        let rows = section(self.tables()).chunks_exact(ROW).enumerate();
        rows.map(|(number, row)| OpenSession {
            session: Session::numbered(number),
            user: User::numbered(row[0].into()),
            word: u64::from_le_bytes(std::array::from_fn(|place| row[1 + place])),
        })
    }

    /// The state: bytes to be kept, from which [`from_state`](LiveRule::from_state) goes on.
    pub fn state(&self) -> &[u8] {
        &self.state
    }

    /// The state, without a copy.
    pub fn into_state(self) -> Vec<u8> {
        self.state
    }
}

/// The rule and the tables of a state; `None` where it ends before the tables begin.
fn parts(state: &[u8]) -> Option<(&[u8], &[u8])> {
    let (head, rest) = (state.get(..RULE)?, state.get(RULE..)?);
    let length = u16::from_le_bytes([head[RULE - 2], head[RULE - 1]]).into();
    Some((rest.get(..length)?, rest.get(length..)?))
}

/// The rows of section 3 in accepted tables, behind those of the roles, 8 bytes each, and of the users, 9 bytes each.
fn section(tables: &[u8]) -> &[u8] {
    let count = |at: usize| usize::from(tables[at]);
    let users = 1 + 8 * count(0);
    let sessions = users + 1 + 9 * count(users);
    &tables[sessions + 1..][..ROW * count(sessions)]
}

/// A number as the library takes it; one that is too large for that is nobody's, too.
fn narrow(number: usize) -> u32 {
    u32::try_from(number).unwrap_or(NOBODY)
}

#[cfg(test)]
mod tests {
    use super::*;

    #[test]
    fn parts_of_a_state_by_the_rules_length() {
        let mut state = [7; RULE + 0x102 + 5];
        (state[RULE - 2], state[RULE - 1]) = (2, 1);
        let lengths = |state| parts(state).map(|(rule, tables)| (rule.len(), tables.len()));
        assert_eq!(lengths(&state), Some((0x102, 5)));
        assert_eq!(lengths(&state[..RULE + 0x102]), Some((0x102, 0)));
        for length in [0, RULE - 1, RULE, RULE + 0x101] {
            assert_eq!(lengths(&state[..length]), None, "{length}");
        }
    }

    #[test]
    fn numbers_of_any_size_are_somebodys_or_nobodys() {
        for (number, narrowed) in [(0, 0), (256, 256), (u32::MAX as usize - 1, NOBODY - 1)] {
            assert_eq!(narrow(number), narrowed);
        }
        for number in [u32::MAX as usize, 1 << 32, usize::MAX] {
            assert_eq!(narrow(number), NOBODY);
        }
    }
}
