//! Separation-of-duty rules in RCL 2000, by a proved library.
//!
//! A rule such as `|(roles(OE(U))&OE(CR))|<=1` says what nobody may be able to do alone. This
//! crate writes a rule as a formula with its choices spelled out, gives the rule of a formula, and
//! judges a rule, or a page of them, on tables of roles, users, sessions and permissions, and of who
//! already did what. The work is done by a library whose code is proved; here are safe calls over it,
//! with Rust's types for its answers.
//!
//! ```
//! use rcl2000::{judge_in_turn, reduce, TablesBuilder, Word};
//!
//! // Two roles that exclude each other, and two users, of whom the first has both.
//! let mut tables = TablesBuilder::new();
//! let tester = tables.role([]);
//! let grader = tables.role([]);
//! tables.user([tester, grader]);
//! tables.user([tester]);
//! tables.conflicting_roles([tester, grader]);
//! let tables = tables.build()?;
//!
//! let rule = b"|(roles(OE(U))&OE(CR))|<=1";
//! assert_eq!(reduce(rule)?, b"[v1@U][v2@CR]:|(roles(v1)&v2)|<=1");
//!
//! let verdict = judge_in_turn(&tables, rule)?;
//! assert_eq!(verdict.word, Word::Broken);
//! assert_eq!((verdict.full, verdict.breaking), (2, 1));
//! assert_eq!(verdict.to_string(), "broken 2 1 50 v1=0 v2=0");
//! # Ok::<(), Box<dyn std::error::Error>>(())
//! ```
//!
//! # The calls
//!
//! [`reduce`], [`rebuild`], [`judge`] and [`judge_page`] allocate their answers; [`reduce_into`],
//! [`rebuild_into`], [`judge_into`] and [`judge_page_into`] write them into bytes that the caller
//! lends and allocate nothing. [`forecast`] and [`forecast_into`] tell of a rule, before it is judged, how
//! long its formula is and how many full choices it has at the most. [`LiveRule`] keeps a verdict current
//! while sessions come and go, by [`sessions_start`], [`session_open`] and [`session_close`], each of which
//! has its `_into` for lent bytes, too. [`sheet`] is the day sheet as a [`Reader`] sees it, who is shown some of
//! the users, and [`sheet_line`] and [`sheet_line_into`] are one line of it. Any of them gives a [`Refusal`]
//! where the input is turned back, a page's with the line that it is for, and then no lent byte has changed.
//! [`rank_step`] refuses nothing: of tables that are refused 7 it says what their hierarchy of roles is not.
//! Nothing here panics, whatever the input.
//!
//! # What a call may cost
//!
//! - **Time.** All calls take microseconds but those that judge: [`judge`] takes from microseconds to
//!   milliseconds for most rules, but there are rules of many variables for which it has to walk the
//!   full choices, and these grow as 64 to the power of the number of variables; [`judge_page`] takes
//!   about what its lines do, or less. A [`LiveRule`] takes what [`judge`] does to start and for each session
//!   that is opened or closed, and microseconds for these where the rule mentions no session. [`sheet_line`]
//!   takes what [`judge`] does for the rule of its line, and for the total what it does for all rules, so that
//!   [`sheet`] judges each twice. None can be interrupted, so ask first (below). Each call says what it may cost.
//! - **Stack.** The library takes its memory from the stack of the thread that calls it:
//!   at the most 16 KiB for [`reduce`], 48 KiB for [`rebuild`], 72 KiB for [`judge`], 248 KiB for
//!   [`judge_page`], 16 KiB for [`rank_step`], 24 KiB for [`forecast`] and 64 KiB for [`sessions_start`],
//!   [`session_open`], [`session_close`] and [`sheet_line`], whatever the input
//!   ([`STACK_REDUCE`], [`STACK_REBUILD`], [`STACK_JUDGE`], [`STACK_JUDGE_PAGE`], [`STACK_RANK_STEP`],
//!   [`STACK_FORECAST`], [`STACK_SESSIONS_START`], [`STACK_SESSION_OPEN`], [`STACK_SESSION_CLOSE`],
//!   [`STACK_SHEET_LINE`]; measured, not proved). Rust's threads have 2 MiB unless asked for less.
//! - **Threads.** The library keeps no state between calls and shares none: any number of threads
//!   may call at once. What a [`LiveRule`] goes on from is bytes that the caller keeps.
//! - **Aliasing.** The borrow checker sees to it that a lent output overlaps no input. Inputs may
//!   overlap each other.
//! - **Machine.** The archive is for x86-64 Linux, and so is this crate.
//!
//! # Asking before judging
//!
//! [`forecast`] takes microseconds whatever the rule. Ask for the ceiling, show the wait, and let the person
//! decide (`examples/ask_first.rs` does so for a folder of rules):
//!
//! ```
//! use rcl2000::{forecast, judge_in_turn};
//! use std::time::Duration;
//!
//! const PER_CHOICE: Duration = Duration::from_micros(2);
//! const PATIENCE: Duration = Duration::from_secs(1);
//!
//! let tables = [0; rcl2000::MIN_TABLES];
//! let rule = b"|(roles(OE(U))&OE(CR))|<=1";
//! let wait = forecast(&tables, rule)?.at_most(PER_CHOICE);
//! if wait <= PATIENCE {
//!     println!("{}", judge_in_turn(&tables, rule)?);
//! } else {
//!     println!("this may take up to {wait:?}");
//! }
//! # Ok::<(), rcl2000::Refusal>(())
//! ```
//!
//! - **From a ceiling to a wait.** A full choice that has to be walked takes 20 to 100 ns with most rules, and
//!   less than 2 µs with the slowest that was tried, 18 calls inside each other (docs/BENCHMARKS.md;
//!   measured on one machine, not proved). [`Forecast::at_most`] multiplies. To it comes what any call takes, a few
//!   microseconds for reading the tables and laying a plan.
//! - **It is a bound and no estimate.** A small ceiling is a promise, a large one says nothing: a rule with
//!   4.4e12 full choices, and a ceiling to match, took about a millisecond. Judging walks the items of a set,
//!   of which the sort may have far more; what was counted below a choice is not counted again where a later
//!   choice is alike in all that the rest of the rule names, so that many clauses of few variables each take
//!   thousands of steps; and it counts along an order of its own. What takes the time that the ceiling allows
//!   is one clause over all variables, or sets inside sets.
//! - **A ceiling of 0 means idle.** Some variable has no item to choose. Judging sees it at once and walks
//!   nothing, however many items the others have.
//! - **A page** has the sum of its lines' ceilings.
//! - **A reader's line** has no more full choices than the ceiling of its rule on the whole tables.
//! - **Other tables** have another ceiling. Ask again when they change, as where a session is opened.
//!
//! # Who already did what
//!
//! Roles and permissions say what a user may do. What was done stands in a section of its own, Done, to which
//! [`TablesBuilder::done`] adds, and `done(u,o)` is the set of operations that a user, or some users, performed on
//! one object. With it a rule can say that nobody performs two operations on one object. No rule on roles,
//! sessions and permissions can (source document 000): where a role changes hands it sees too little, and
//! where somebody may do either it forbids too much. Rows that stand there twice count once, and those of a
//! user who left remain and never count.
//!
//! ```
//! use rcl2000::{judge_in_turn, reduce, TablesBuilder};
//!
//! let mut tables = TablesBuilder::new();
//! let (tester, grader) = (tables.role([]), tables.role([]));
//! // Clara tested the tank while she was the tester. Now she is the grader, and graded it.
//! let (clara, dino) = (tables.user([grader]), tables.user([tester]));
//! let [test, grade] = tables.operations();
//! let tank = tables.object();
//! let kept_apart = [test, grade].map(|operation| tables.permission(operation, tank));
//! tables.held_by(kept_apart[0], [tester]);
//! tables.held_by(kept_apart[1], [grader]);
//! tables.conflicting_permissions(kept_apart);
//! tables.done(clara, test, tank);
//! tables.done(dino, test, tank);
//! tables.done(clara, grade, tank);
//! let tables = tables.build()?;
//!
//! // Nobody may do both, and yet somebody did.
//! let may = judge_in_turn(&tables, b"|(permissions(roles*(OE(U)))&OE(CP))|<=1")?;
//! assert_eq!(may.to_string(), "held 2 0 0");
//! let rule = b"|done(OE(U),OE(OBJ))|<=1";
//! assert_eq!(reduce(rule)?, b"[v1@U][v2@OBJ]:|done(v1,v2)|<=1");
//! let did = judge_in_turn(&tables, rule)?;
//! assert_eq!(did.to_string(), "broken 2 1 50 v1=0 v2=0");
//! # Ok::<(), Box<dyn std::error::Error>>(())
//! ```
//!
//! # Sessions come and go
//!
//! A tracker opens and closes sessions all day, and wants one rule's counts current. [`LiveRule::start`] takes tables and
//! a rule; from there on [`LiveRule::open`] and [`LiveRule::close`] change the sessions, [`LiveRule::verdict`] has the
//! counts that judging afresh would give, and [`LiveRule::sessions`] and [`LiveRule::tables`] what they were counted on. A
//! session is opened behind the last, and closing one moves those after it down by one: **its number falls**, so that no
//! number may be kept across a close. A call that is refused changes nothing.
//!
//! ```
//! use rcl2000::{LiveRule, Refusal, TablesBuilder};
//!
//! let mut tables = TablesBuilder::new();
//! let hand = tables.role([]);
//! let leader = tables.role([hand]);
//! let (ana, berto) = (tables.user([leader]), tables.user([hand]));
//! let gino = tables.user_left();
//!
//! // Whoever is a leader works as one.
//! let mut live = LiveRule::start(&tables.build()?, b"roles(OE(S))=roles(user(OE(S)))")?;
//! assert_eq!(live.verdict().to_string(), "idle 0 0 -");
//! let of_berto = live.open(berto, [hand])?;
//! assert_eq!(live.verdict().to_string(), "held 1 0 0");
//! // A leader may open the role of a hand, and not the other way round. Whoever left opens nothing.
//! live.open(ana, [hand])?;
//! assert_eq!(live.verdict().to_string(), "broken 2 1 50 v1=1");
//! assert_eq!(live.open(berto, [leader]), Err(Refusal::Overreach));
//! assert_eq!(live.open(gino, []), Err(Refusal::Left));
//! // Ana's session is number 0 now.
//! live.close(of_berto)?;
//! assert_eq!(live.verdict().to_string(), "broken 1 1 100 v1=0");
//! # Ok::<(), Box<dyn std::error::Error>>(())
//! ```
//!
//! # What a reader sees
//!
//! The laboratory is to see its own people's sheet, and nothing of what others hold, have open or did. [`sheet`] takes the
//! tables that everybody's sheet is made of and a [`Reader`], and judges the rules on what is left when all others are
//! taken out: they count as users who left, their sessions and their rows of Done are gone, and each set of conflicting
//! users has the reader's users alone.
//!
//! ```
//! use rcl2000::{sheet, Reader, TablesBuilder};
//!
//! let mut tables = TablesBuilder::new();
//! let [grader, tester, weigher, blender] = [(); 4].map(|_| tables.role([]));
//! tables.conflicting_roles([grader, tester]);
//! tables.conflicting_roles([weigher, blender]);
//! let elsa = tables.user([weigher, blender]);
//! let (clara, dino) = (tables.user([grader]), tables.user([tester]));
//! tables.session(elsa, [weigher]);
//! tables.session(clara, [grader]);
//! let tables = tables.build()?;
//!
//! let rules = b"|(roles(OE(U))&OE(CR))|<=1\nroles(OE(S))=roles(user(OE(S)))\n";
//! let mill = sheet(&tables, Reader::everyone(3), rules)?;
//! let laboratory = sheet(&tables, Reader::of([clara, dino]), rules)?;
//! // Elsa has two roles that are kept apart, and works in one of hers alone. The laboratory does not see her.
//! assert_eq!(mill[..2], ["1 broken 6 1 17 v1=0 v2=1", "2 broken 2 1 50 v1=0"]);
//! assert_eq!(laboratory[..2], ["1 held 4 0 0", "2 held 1 0 0"]);
//! assert_eq!(laboratory[2], "total 2 held 2 idle 0 broken 0 refused 0");
//! # Ok::<(), Box<dyn std::error::Error>>(())
//! ```
//!
//! - **Equal sheets say nothing of others.** Whatever others hold, have open or did, whether they are present or left,
//!   and whoever of them stands beside the reader's users in a set of conflicting users: where the reader's own rows,
//!   sessions, rows of Done and sets are the same, in the same sequence, every line is the same, for every rules file.
//!   That is proved. It is said of accepted tables: the number of refused ones is told to every reader, whoever's row
//!   they are refused for.
//! - **What every reader sees.** The roles and their hierarchy, the operations and objects, which roles hold which
//!   permissions, CR, CP, how many users the tables have, present or not, and whether there is a set of conflicting users
//!   without any of the reader's.
//! - **Numbers.** A user keeps the number: `v1=2` is the same person on every sheet. Sessions are numbered among the
//!   reader's own. Of the sets of conflicting users that become equal the earliest stays, so that those behind the others
//!   have lower numbers; of sets without any of the reader's users one empty one stays.
//! - **Who left** and is among the reader's users is still one who left. The reader of all users sees the day sheet itself,
//!   and a reader of nobody is a reader, too.
//!
//! `examples/laboratory.rs` prints both sheets of the sample evening.
//!
//! # The archive
//!
//! The crate links `librcl2000.a`, which the repository's `bin/archive` writes. Its build script looks for
//! it in `target/staticlib` of the repository that the crate is in, or in the folder that
//! `RCL2000_LIB_DIR` names, and tries it before it links it: an archive without the ten calls,
//! or one that answers otherwise than this version of the crate says, is a build error.

#![deny(missing_docs, unsafe_code)]

mod builder;
mod calls;
mod faults;
mod forecast;
mod items;
#[allow(unsafe_code)]
mod library;
mod live;
mod page;
mod rank;
mod readers;
mod refusal;
mod sessions;
mod verdict;
mod words;

pub use builder::TablesBuilder;
pub use calls::{check_rule, check_tables, rank_step, variables};
pub use calls::{forecast, forecast_into};
pub use calls::{judge, judge_in_turn, judge_into, rebuild, rebuild_into, reduce, reduce_into};
pub use calls::{judge_page, judge_page_into};
pub use calls::{MAX_FORMULA, MAX_LINE, MAX_RULE, MAX_RULES, MAX_STATE, MAX_TABLES};
pub use calls::{MAX_VARIABLES, MIN_TABLES};
pub use calls::{STACK_FORECAST, STACK_JUDGE, STACK_JUDGE_PAGE};
pub use calls::{STACK_RANK_STEP, STACK_REBUILD, STACK_REDUCE};
pub use calls::{STACK_SESSIONS_START, STACK_SESSION_CLOSE, STACK_SESSION_OPEN, STACK_SHEET_LINE};
pub use faults::{BuildError, Fault, Unencodable};
pub use forecast::Forecast;
pub use items::{Object, Operation, Permission, Role, Row, Section, Session, User};
pub use live::{LiveRule, OpenSession};
pub use page::{Page, PageRefusal, MAX_LINES};
pub use rank::RankStep;
pub use readers::{sheet, sheet_line, sheet_line_into, Reader};
pub use refusal::Refusal;
pub use sessions::{session_close, session_close_into, session_open, session_open_into};
pub use sessions::{sessions_start, sessions_start_into};
pub use verdict::{Verdict, Word};
