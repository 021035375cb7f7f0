//! Calls of the proved library held against an expected answer, byte by byte.

use rcl2000::{PageRefusal, RankStep, Reader};
use reference::page::{FAST, PLAIN};
use reference::protocol::{hex, FILL};
use reference::sessions::Change;
use reference::Refused;

use crate::random::Random;

/// The bytes of an answer, or a refusal. A step of the rank test is one byte, which is not written but
/// returned.
pub type Expected = Result<Vec<u8>, Refused>;

/// The number that the library gave, from what the crate makes of it.
pub fn reply(answer: Result<usize, PageRefusal>) -> u32 {
    match answer {
        Ok(length) => length as u32,
        Err(refused) => 65_536 * refused.refusal.number() + u32::from(refused.position),
    }
}

/// A way to ask a question with lent bytes.
pub trait Ask: Fn(&Question, &mut [u8]) -> Result<usize, PageRefusal> {}

impl<F: Fn(&Question, &mut [u8]) -> Result<usize, PageRefusal>> Ask for F {}

/// The number of a step, or 0 for none.
pub fn step(step: Option<RankStep>) -> u32 {
    step.map_or(0, RankStep::number)
}

/// One question to the library.
#[derive(Clone, Debug)]
pub enum Question {
    Reduce(Box<[u8]>),
    Rebuild(Box<[u8]>),
    Judge(Box<[u8]>, Box<[u8]>, Box<[u8]>),
    JudgePage(Box<[u8]>, Box<[u8]>),
    RankStep(Box<[u8]>),
    Forecast(Box<[u8]>, Box<[u8]>),
    SessionsStart(Box<[u8]>, Box<[u8]>),
    /// A session to be opened or closed in a state.
    Session(Box<[u8]>, Change),
    /// The line of tables, a reader's word and rules at a place.
    SheetLine(Box<[u8]>, u64, Box<[u8]>, usize),
}

impl Question {
    /// The verdict on a rule.
    pub fn judge(tables: Vec<u8>, rule: Vec<u8>, order: Vec<u8>) -> Question {
        Question::Judge(tables.into(), rule.into(), order.into())
    }

    /// That on an accepted rule, in the order 1, 2, ..
    pub fn judge_in_turn(tables: Vec<u8>, rule: &str) -> Question {
        let read = reference::rule::read(rule.as_bytes()).expect("an accepted rule");
        let order = (1..=read.variables.len() as u8).collect();
        Question::judge(tables, rule.into(), order)
    }

    pub fn judge_page(tables: Vec<u8>, page: Vec<u8>) -> Question {
        Question::JudgePage(tables.into(), page.into())
    }

    pub fn forecast(tables: Vec<u8>, rule: Vec<u8>) -> Question {
        Question::Forecast(tables.into(), rule.into())
    }

    pub fn sessions_start(tables: Vec<u8>, rule: Vec<u8>) -> Question {
        Question::SessionsStart(tables.into(), rule.into())
    }

    pub fn session(state: Vec<u8>, change: Change) -> Question {
        Question::Session(state.into(), change)
    }

    pub fn sheet_line(tables: Vec<u8>, reader: u64, rules: Vec<u8>, place: usize) -> Question {
        Question::SheetLine(tables.into(), reader, rules.into(), place)
    }

    /// The name of the call that it is asked by.
    pub fn call(&self) -> &'static str {
        match self {
            Question::Reduce(_) => "reduce",
            Question::Rebuild(_) => "rebuild",
            Question::Judge(..) => "judge",
            Question::JudgePage(..) => "judge_page",
            Question::RankStep(_) => "rank_step",
            Question::Forecast(..) => "forecast",
            Question::SessionsStart(..) => "sessions_start",
            Question::Session(_, Change::Open { .. }) => "session_open",
            Question::Session(_, Change::Close { .. }) => "session_close",
            Question::SheetLine(..) => "sheet_line",
        }
    }

    /// The library's answer into lent bytes; a step alone.
    pub fn ask(&self, out: &mut [u8]) -> Result<usize, PageRefusal> {
        let answer = match self {
            Question::Reduce(rule) => rcl2000::reduce_into(rule, out),
            Question::Rebuild(formula) => rcl2000::rebuild_into(formula, out),
            Question::Judge(tables, rule, order) => rcl2000::judge_into(tables, rule, order, out),
            Question::JudgePage(tables, page) => {
                return rcl2000::judge_page_into(tables, page, out)
            }
            Question::RankStep(tables) => Ok(step(rcl2000::rank_step(tables)) as usize),
            Question::Forecast(tables, rule) => rcl2000::forecast_into(tables, rule, out),
            Question::SessionsStart(tables, rule) => {
                rcl2000::sessions_start_into(tables, rule, out)
            }
            Question::Session(state, Change::Open { user, roles }) => {
                rcl2000::session_open_into(state, *user, *roles, out)
            }
            Question::Session(state, Change::Close { number }) => {
                rcl2000::session_close_into(state, *number, out)
            }
            Question::SheetLine(tables, reader, rules, place) => {
                rcl2000::sheet_line_into(tables, Reader::from_word(*reader), rules, *place, out)
            }
        };
        answer.map_err(PageRefusal::from)
    }

    /// The answer of the reference's fast modules.
    pub fn fast(&self) -> Expected {
        let answer = match self {
            Question::Reduce(rule) => reference::fast::reduce(rule),
            Question::Rebuild(formula) => reference::fast::rebuild(formula),
            Question::Judge(tables, rule, order) => {
                reference::fast::judge(tables, rule, order).map(|verdict| verdict.bytes())
            }
            Question::JudgePage(tables, page) => {
                return FAST.judge_page(tables, page).map(|page| page.bytes());
            }
            Question::RankStep(tables) => Ok(vec![reference::fast::rank_step(tables) as u8]),
            Question::Forecast(tables, rule) => {
                reference::fast::forecast(tables, rule).map(|told| told.bytes())
            }
            Question::SessionsStart(tables, rule) => reference::fast::sessions::start(tables, rule),
            Question::Session(state, change) => reference::fast::sessions::next(state, *change),
            Question::SheetLine(tables, reader, rules, place) => {
                reference::fast::readers::line(tables, *reader, rules, *place)
            }
        };
        answer.map_err(Refused::from)
    }

    /// The answer of the reference's plain modules, which try every choice.
    pub fn plain(&self) -> Expected {
        let answer = match self {
            Question::Reduce(rule) => reference::formula::reduce(rule),
            Question::Rebuild(formula) => reference::formula::rebuild(formula),
            Question::Judge(tables, rule, order) => {
                reference::verdict::judge(tables, rule, order).map(|verdict| verdict.bytes())
            }
            Question::JudgePage(tables, page) => {
                return PLAIN.judge_page(tables, page).map(|page| page.bytes());
            }
            Question::RankStep(tables) => Ok(vec![reference::tables::rank_step(tables) as u8]),
            Question::Forecast(tables, rule) => {
                reference::forecast::forecast(tables, rule).map(|told| told.bytes())
            }
            Question::SessionsStart(tables, rule) => reference::sessions::start(tables, rule),
            Question::Session(state, change) => reference::sessions::next(state, *change),
            Question::SheetLine(tables, reader, rules, place) => {
                reference::readers::line(tables, *reader, rules, *place)
            }
        };
        answer.map_err(Refused::from)
    }

    /// What the call is to return, and to leave in lent bytes.
    fn leave(&self, expected: &Expected, out: &mut [u8]) -> u32 {
        match (self, expected) {
            (Question::RankStep(_), Ok(step)) => u32::from(step[0]),
            _ => reference::lend(expected.clone(), out),
        }
    }

    /// The number by which an answer is counted: a step's, else a refusal's, or 0.
    pub fn counted(&self, expected: &Expected) -> usize {
        match (self, expected) {
            (Question::RankStep(_), Ok(step)) => usize::from(step[0]),
            (_, Ok(_)) => 0,
            (_, Err(refused)) => refused.number as usize,
        }
    }

    /// The command that asks this, as the vectors write it; those of a page, a step, a forecast and a start have no
    /// length. They have none for a call on a state by itself, which only the program `conformance` is asked.
    pub fn command(&self, length: usize) -> String {
        match self {
            Question::Reduce(rule) => format!("reduce {} {length}", hex(rule)),
            Question::Rebuild(formula) => format!("rebuild {} {length}", hex(formula)),
            Question::Judge(tables, rule, order) => {
                let (tables, rule, order) = (hex(tables), hex(rule), hex(order));
                format!("judge {tables} {rule} {order} {length}")
            }
            Question::JudgePage(tables, page) => format!("page {} {}", hex(tables), hex(page)),
            Question::RankStep(tables) => format!("rankstep {}", hex(tables)),
            Question::Forecast(tables, rule) => format!("forecast {} {}", hex(tables), hex(rule)),
            Question::SessionsStart(tables, rule) => {
                format!("sessions {} {}", hex(tables), hex(rule))
            }
            Question::Session(state, change) => {
                let call = match change {
                    Change::Open { user, roles } => {
                        format!("o:{user}:{}", hex(&roles.to_le_bytes()))
                    }
                    Change::Close { number } => format!("c:{number}"),
                };
                format!("session {} {call} {length}", hex(state))
            }
            Question::SheetLine(tables, reader, rules, place) => {
                let (tables, rules) = (hex(tables), hex(rules));
                let reader = hex(&reader.to_le_bytes());
                format!("line {tables} {reader} {rules} {place} {length}")
            }
        }
    }

    /// Asks with one length of output, in an allocation of exactly that length and the guards, and
    /// compares the reply and the whole allocation with what is expected.
    pub fn hold(&self, expected: &Expected, length: usize, guard: usize) {
        self.hold_asked(expected, length, guard, Question::ask);
    }

    /// The same, asked in a way of the caller's.
    fn hold_asked(&self, expected: &Expected, length: usize, guard: usize, ask: impl Ask) {
        let mut lent = vec![FILL; guard + length + guard].into_boxed_slice();
        let mut after = lent.clone();
        let reply = reply(ask(self, &mut lent[guard..guard + length]));
        let wanted = self.leave(expected, &mut after[guard..guard + length]);
        assert!(
            reply == wanted && lent == after,
            "{}\nexpected {wanted} {}\ngot      {reply} {}\n{guard} bytes at either end are guards",
            self.command(length),
            hex(&after),
            hex(&lent),
        );
    }

    /// Holds the library to an answer with outputs of its length L, of L - 1, of 0 and of more, each
    /// between guards, and again alone in its allocation, where valgrind sees a byte beyond it.
    pub fn hold_all(&self, expected: &Expected, random: &mut Random) {
        self.hold_all_asked(expected, random, Question::ask);
    }

    /// The same, asked in a way of the caller's.
    pub fn hold_all_asked(&self, expected: &Expected, random: &mut Random, ask: impl Ask) {
        let long = expected
            .as_ref()
            .map_or(random.below(64), |bytes| bytes.len());
        let more = long + 1 + random.below(40);
        for length in [long, long.saturating_sub(1), 0, more] {
            for guard in [16, 0] {
                self.hold_asked(expected, length, guard, &ask);
            }
        }
    }
}

/// How often each answer was met, by its number.
#[derive(Default)]
pub struct Met([u64; 24]);

impl Met {
    pub fn note(&mut self, number: usize) {
        self.0[number] += 1;
    }

    /// Fails where one of these was hardly met: then the inputs try too little.
    pub fn expect(&self, numbers: impl IntoIterator<Item = usize>, times: u64) {
        for number in numbers {
            let met = self.0[number];
            assert!(
                met >= times,
                "answer {number} was met {met} times, not {times}"
            );
        }
    }
}
