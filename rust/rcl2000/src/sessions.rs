//! The safe calls on states, by which sessions come and go and a rule's verdict stays current: each gives the next
//! state, allocated or in lent bytes.

use crate::calls::{allocated, length};
use crate::{library, Refusal, MAX_STATE};

/// The state from which sessions come and go: tables, a rule, and the verdict on it.
///
/// A state is bytes, to be kept, sent or written down as they are; [`LiveRule`](crate::LiveRule) wraps them, with typed
/// sessions. Its first [`Verdict::BYTES`](crate::Verdict::BYTES) bytes are the verdict that
/// [`judge_into`](crate::judge_into) writes in the order 1, 2, .. for the rule and the tables; then come two bytes with
/// the rule's length, lowest first, the rule, and up to the end the tables, whose section 3 has the sessions that are
/// open.
///
/// ```
/// use rcl2000::{session_close, session_open, sessions_start, Refusal, TablesBuilder, Verdict};
///
/// let mut tables = TablesBuilder::new();
/// let (tester, grader) = (tables.role([]), tables.role([]));
/// tables.user([tester, grader]);
/// tables.conflicting_roles([tester, grader]);
/// let tables = tables.build()?;
/// let verdict = |state: &[u8]| Verdict::from_bytes(state[..Verdict::BYTES].try_into().unwrap()).to_string();
///
/// let start = sessions_start(&tables, b"|(roles(OE(S))&OE(CR))|<=1")?;
/// assert_eq!(verdict(&start), "idle 0 0 -");
/// // User 0, with roles 0 and 1: bit i stands for role i.
/// let open = session_open(&start, 0, 0b11)?;
/// assert_eq!(verdict(&open), "broken 1 1 100 v1=0 v2=0");
/// assert_eq!(session_open(&open, 0, 0b100), Err(Refusal::NoSuchItem));
/// assert_eq!(session_close(&open, 0)?, start);
/// # Ok::<(), Box<dyn std::error::Error>>(())
/// ```
///
/// # Errors
///
/// What is wrong with the tables, a refusal from 1 to 10 or 20; else with the rule, 11 to 15.
///
/// # Cost
///
/// As [`judge`](crate::judge); at most 64 KiB of stack ([`STACK_SESSIONS_START`](crate::STACK_SESSIONS_START)).
pub fn sessions_start(tables: &[u8], rule: &[u8]) -> Result<Vec<u8>, Refusal> {
    allocated(MAX_STATE, |out| sessions_start_into(tables, rule, out))
}

/// Writes the state of [`sessions_start`] into the first bytes of `out` and gives their number.
///
/// The rest of `out` keeps its contents, and all of it does on a refusal.
///
/// ```
/// use rcl2000::{sessions_start_into, Refusal, MAX_STATE, MIN_TABLES};
///
/// let nobody = [0; MIN_TABLES];
/// let mut out = [7; MAX_STATE];
/// assert_eq!(sessions_start_into(&nobody, b"S={}", &mut out), Ok(42));
/// assert_eq!(out[26..], [&[4, 0], &b"S={}"[..], &nobody, &[7; MAX_STATE - 42]].concat());
/// assert_eq!(sessions_start_into(&nobody, b"S={}", &mut out[..41]), Err(Refusal::ShortSheet));
/// ```
///
/// # Errors
///
/// As [`sessions_start`]; then [`Refusal::ShortSheet`] where the state is longer than `out`. No state is longer than
/// [`MAX_STATE`].
///
/// # Cost
///
/// As [`sessions_start`].
pub fn sessions_start_into(tables: &[u8], rule: &[u8], out: &mut [u8]) -> Result<usize, Refusal> {
    length(library::sessions_start(tables, rule, out))
}

/// The state after a session of a user was opened, with active roles as a word: bit i stands for role i.
///
/// The new session stands behind those that are open, so that its number, counted from 0, is how many these were. The
/// state that is handed in stays as it is: after a refusal it is still the current one.
///
/// ```
/// use rcl2000::{session_open, sessions_start, Refusal, TablesBuilder};
///
/// let mut tables = TablesBuilder::new();
/// let hand = tables.role([]);
/// let leader = tables.role([hand]);
/// tables.user([leader]);
/// tables.user([hand]);
/// tables.user_left();
/// let state = sessions_start(&tables.build()?, b"S={}")?;
/// // The leader opens the hand's role, which is junior. The hand cannot open the leader's.
/// assert!(session_open(&state, 0, 0b01).is_ok());
/// assert_eq!(session_open(&state, 1, 0b10), Err(Refusal::Overreach));
/// // Whoever left opens nothing, and there is no user 3.
/// assert_eq!(session_open(&state, 2, 0), Err(Refusal::Left));
/// assert_eq!(session_open(&state, 3, 0), Err(Refusal::NoSuchItem));
/// # Ok::<(), Box<dyn std::error::Error>>(())
/// ```
///
/// # Errors
///
/// [`Refusal::FullHouse`] where 64 sessions are open; else [`Refusal::NoSuchItem`] for the user, then for a role; else
/// [`Refusal::Left`] where the user left, with roles or without; else [`Refusal::Overreach`] where a role is neither
/// assigned to the user nor junior to one that is.
///
/// Before all of them, what is wrong with bytes that no call gave as a state: [`Refusal::CutShort`] where they end before
/// the tables begin; else what is wrong with the tables, then with the rule. The verdict in them is not looked at.
///
/// # Cost
///
/// As [`judge`](crate::judge) on the changed tables, and where the rule mentions neither `S` nor `sessions` about what
/// reading the tables and the rule takes: then the verdict in the state stays, since no session has a part in it. At
/// most 64 KiB of stack ([`STACK_SESSION_OPEN`](crate::STACK_SESSION_OPEN)).
pub fn session_open(state: &[u8], user: u32, roles: u64) -> Result<Vec<u8>, Refusal> {
    allocated(MAX_STATE, |out| session_open_into(state, user, roles, out))
}

/// Writes the state of [`session_open`] into the first bytes of `out` and gives their number.
///
/// The rest of `out` keeps its contents, and all of it does on a refusal. Two buffers of [`MAX_STATE`] bytes, lent in
/// turn, serve for as many calls as there are.
///
/// ```
/// use rcl2000::{session_open_into, sessions_start_into, MAX_STATE, TablesBuilder};
///
/// let mut tables = TablesBuilder::new();
/// tables.user([]);
/// let (mut state, mut next) = ([0; MAX_STATE], [0; MAX_STATE]);
/// let mut length = sessions_start_into(&tables.build()?, b"|S|<=2", &mut state)?;
/// for _ in 0..3 {
///     length = session_open_into(&state[..length], 0, 0, &mut next)?;
///     std::mem::swap(&mut state, &mut next);
/// }
/// // Three sessions are too many: broken.
/// assert_eq!(state[0], 2);
/// # Ok::<(), Box<dyn std::error::Error>>(())
/// ```
///
/// # Errors
///
/// As [`session_open`]; then [`Refusal::ShortSheet`] where the next state is longer than `out`.
///
/// # Cost
///
/// As [`session_open`].
pub fn session_open_into(
    state: &[u8],
    user: u32,
    roles: u64,
    out: &mut [u8],
) -> Result<usize, Refusal> {
    length(library::session_open(state, user, roles, out))
}

/// The state after the session with this number, counted from 0, was closed.
///
/// The numbers of the sessions behind it fall by one, so that no number is to be kept across a close. The state that is
/// handed in stays as it is: after a refusal it is still the current one.
///
/// ```
/// use rcl2000::{session_close, session_open, sessions_start, Refusal, TablesBuilder};
///
/// let mut tables = TablesBuilder::new();
/// tables.user([]);
/// tables.user([]);
/// let start = sessions_start(&tables.build()?, b"S={}")?;
/// let both = session_open(&session_open(&start, 0, 0)?, 1, 0)?;
/// // User 1's session was number 1, and is number 0 now.
/// let second = session_close(&both, 0)?;
/// assert_eq!(second, session_open(&start, 1, 0)?);
/// assert_eq!(session_close(&second, 1), Err(Refusal::NotOpen));
/// assert_eq!(session_close(&second, 0)?, start);
/// # Ok::<(), Box<dyn std::error::Error>>(())
/// ```
///
/// # Errors
///
/// [`Refusal::NotOpen`] where no session has this number; before it what is wrong with bytes that no call gave as a
/// state, as for [`session_open`].
///
/// # Cost
///
/// As [`session_open`]; at most 64 KiB of stack ([`STACK_SESSION_CLOSE`](crate::STACK_SESSION_CLOSE)).
pub fn session_close(state: &[u8], number: u32) -> Result<Vec<u8>, Refusal> {
    allocated(MAX_STATE, |out| session_close_into(state, number, out))
}

/// Writes the state of [`session_close`] into the first bytes of `out` and gives their number.
///
/// The rest of `out` keeps its contents, and all of it does on a refusal.
///
/// ```
/// use rcl2000::{session_close_into, sessions_start, Refusal, MAX_STATE, MIN_TABLES};
///
/// let state = sessions_start(&[0; MIN_TABLES], b"S={}")?;
/// let mut out = [7; MAX_STATE];
/// assert_eq!(session_close_into(&state, 0, &mut out), Err(Refusal::NotOpen));
/// assert_eq!(out, [7; MAX_STATE]);
/// # Ok::<(), rcl2000::Refusal>(())
/// ```
///
/// # Errors
///
/// As [`session_close`]; then [`Refusal::ShortSheet`] where the next state is longer than `out`.
///
/// # Cost
///
/// As [`session_close`].
pub fn session_close_into(state: &[u8], number: u32, out: &mut [u8]) -> Result<usize, Refusal> {
    length(library::session_close(state, number, out))
}
