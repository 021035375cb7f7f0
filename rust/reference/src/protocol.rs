//! The commands of the vectors: one to a line, with an answer to each.

use crate::page::{self, Page};
use crate::sessions::{self, Change};
use crate::{fast, forecast, formula, lend, readers, rule, sheet, tables, verdict};
use crate::{Answer, Refused};

/// The byte that fills a lent output before the call.
pub const FILL: u8 = 0xa5;

/// The most bytes of a line that is a command.
const LONGEST_LINE: usize = 80_000;

/// The most bytes that an output may have.
const LONGEST_OUTPUT: usize = 65_536;

/// What a line asks.
pub enum Command {
    /// Whether tables are accepted.
    Tables(Vec<u8>),
    /// Whether a rule is accepted.
    Rule(Vec<u8>),
    /// The formula of a rule, into so many bytes.
    Reduce(Vec<u8>, usize),
    /// The rule of a formula.
    Rebuild(Vec<u8>, usize),
    /// The verdict on tables, a rule and an order.
    Judge([Vec<u8>; 3], usize),
    /// The day sheet of tables and rules.
    Sheet(Vec<u8>, Vec<u8>),
    /// The verdict on tables and a page.
    JudgePage(Vec<u8>, Vec<u8>),
    /// The step of the rank test that tables fail.
    RankStep(Vec<u8>),
    /// The forecast for tables and a rule.
    Forecast(Vec<u8>, Vec<u8>),
    /// The counts of a rule on tables, and after each of these calls.
    Sessions(Vec<u8>, Vec<u8>, Vec<Change>),
    /// The state after one call, into so many bytes.
    Session(Vec<u8>, Change, usize),
    /// One line of a reader's sheet, into so many bytes.
    Line(Line, usize),
}

/// What the line of a reader's sheet is asked for by.
pub struct Line {
    pub tables: Vec<u8>,
    pub reader: u64,
    pub rules: Vec<u8>,
    pub place: usize,
}

use Command::*;

impl Command {
    /// The command of a line: fields with one blank between them, bytes as [`hex`] writes them, a
    /// number in decimal digits.
    pub fn read(line: &[u8]) -> Option<Command> {
        if line.len() > LONGEST_LINE {
            return None;
        }
        let fields: Vec<&[u8]> = line.split(|&byte| byte == b' ').collect();
        Some(match fields[..] {
            [b"tables", tables] => Tables(unhex(tables)?),
            [b"rule", rule] => Rule(unhex(rule)?),
            [b"reduce", rule, length] => Reduce(unhex(rule)?, length_of(length)?),
            [b"rebuild", formula, length] => Rebuild(unhex(formula)?, length_of(length)?),
            [b"judge", tables, rule, order, length] => Judge(
                [unhex(tables)?, unhex(rule)?, unhex(order)?],
                length_of(length)?,
            ),
            [b"sheet", tables, rules] => Sheet(unhex(tables)?, unhex(rules)?),
            [b"page", tables, page] => JudgePage(unhex(tables)?, unhex(page)?),
            [b"rankstep", tables] => RankStep(unhex(tables)?),
            [b"forecast", tables, rule] => Forecast(unhex(tables)?, unhex(rule)?),
            [b"sessions", tables, rule, ref calls @ ..] => {
                let calls = calls.iter().map(|call| change(call));
                Sessions(unhex(tables)?, unhex(rule)?, calls.collect::<Option<_>>()?)
            }
            [b"session", state, call, length] => {
                Session(unhex(state)?, change(call)?, length_of(length)?)
            }
            [b"line", tables, reader, rules, place, length] => {
                let line = Line {
                    tables: unhex(tables)?,
                    reader: word(reader)?,
                    rules: unhex(rules)?,
                    place: number(place)? as usize,
                };
                Self::Line(line, length_of(length)?)
            }
            _ => return None,
        })
    }

    /// The answer of the plain modules.
    pub fn plain(&self) -> String {
        match self {
            Tables(tables) => refusal(tables::read(tables)),
            Rule(rule) => refusal(rule::read(rule)),
            Reduce(rule, length) => lent(formula::reduce(rule), *length),
            Rebuild(formula, length) => lent(formula::rebuild(formula), *length),
            Judge([tables, rule, order], length) => {
                let verdict = verdict::judge(tables, rule, order);
                lent(verdict.map(|verdict| verdict.bytes()), *length)
            }
            Sheet(tables, rules) => hex(sheet::sheet(tables, rules).as_bytes()),
            JudgePage(tables, page) => shown(page::PLAIN.judge_page(tables, page)),
            RankStep(tables) => tables::rank_step(tables).to_string(),
            Forecast(tables, rule) => told(forecast::forecast(tables, rule)),
            Sessions(tables, rule, calls) => {
                followed(sessions::start(tables, rule), calls, sessions::next)
            }
            Session(state, call, length) => lent(sessions::next(state, *call), *length),
            Self::Line(line, length) => lent(line.written(readers::line), *length),
        }
    }

    /// The answer of [`fast`], where it has the call.
    pub fn fast(&self) -> String {
        match self {
            Tables(tables) => refusal(fast::read(tables)),
            Reduce(rule, length) => lent(fast::reduce(rule), *length),
            Rebuild(formula, length) => lent(fast::rebuild(formula), *length),
            Judge([tables, rule, order], length) => {
                let verdict = fast::judge(tables, rule, order);
                lent(verdict.map(|verdict| verdict.bytes()), *length)
            }
            JudgePage(tables, page) => shown(page::FAST.judge_page(tables, page)),
            RankStep(tables) => fast::rank_step(tables).to_string(),
            Forecast(tables, rule) => told(fast::forecast(tables, rule)),
            Sessions(tables, rule, calls) => {
                let start = fast::sessions::start(tables, rule);
                followed(start, calls, fast::sessions::next)
            }
            Session(state, call, length) => lent(fast::sessions::next(state, *call), *length),
            Self::Line(line, length) => lent(line.written(fast::readers::line), *length),
            Rule(_) | Sheet(..) => self.plain(),
        }
    }
}

impl Line {
    /// The line as a call writes it.
    fn written(
        &self,
        call: impl Fn(&[u8], u64, &[u8], usize) -> Answer<Vec<u8>>,
    ) -> Answer<Vec<u8>> {
        call(&self.tables, self.reader, &self.rules, self.place)
    }
}

/// The answer to a line: `?` where it is no command.
pub fn answer(line: &[u8], respond: impl FnOnce(&Command) -> String) -> String {
    Command::read(line).map_or("?".to_string(), |command| respond(&command))
}

fn refusal<T>(answer: Answer<T>) -> String {
    answer.err().unwrap_or(0).to_string()
}

fn lent(answer: Answer<Vec<u8>>, length: usize) -> String {
    let mut out = vec![FILL; length];
    let returned = lend(answer, &mut out);
    format!("{returned} {}", hex(&out))
}

/// `refused N POS`, or the fields of a page and then those of each line.
fn shown(answer: Result<Page, Refused>) -> String {
    let page = match answer {
        Err(Refused { number, position }) => return format!("refused {number} {position}"),
        Ok(page) => page,
    };
    let word = |number: u8| ["held", "idle", "broken"][number as usize];
    let (full, breaking) = (page.full(), page.breaking());
    let mut shown = format!("{} {full} {breaking} {}", word(page.word()), page.walks);
    for line in &page.lines {
        let (word, share, choice) = (word(line.word()), line.share(), hex(&line.first));
        shown += &format!(" {word}:{}:{}:{share}:{choice}", line.full, line.breaking);
    }
    shown
}

/// `refused N`, or the length and the ceiling.
fn told(answer: Answer<forecast::Forecast>) -> String {
    match answer {
        Err(number) => format!("refused {number}"),
        Ok(told) => format!("{} {}", told.length, told.ceiling),
    }
}

/// `refused N` where the start is refused; else the counts after it and after each call, `rN` for one that is refused.
pub fn followed(
    start: Answer<Vec<u8>>,
    calls: &[Change],
    next: impl Fn(&[u8], Change) -> Answer<Vec<u8>>,
) -> String {
    let mut state = match start {
        Err(number) => return format!("refused {number}"),
        Ok(state) => state,
    };
    let mut fields = vec![counts(&state)];
    for &call in calls {
        match next(&state, call) {
            Err(number) => fields.push(format!("r{number}")),
            Ok(next) => {
                state = next;
                fields.push(counts(&state));
            }
        }
    }
    fields.join(" ")
}

/// `FULL:BREAKING`, from where a verdict has them.
fn counts(state: &[u8]) -> String {
    let word = |at: usize| u64::from_le_bytes(std::array::from_fn(|i| state[at + i]));
    format!("{}:{}", word(1), word(9))
}

/// Lowercase hexadecimal; `-` for no bytes.
pub fn hex(bytes: &[u8]) -> String {
    if bytes.is_empty() {
        return "-".to_string();
    }
    bytes.iter().map(|byte| format!("{byte:02x}")).collect()
}

/// The bytes of [`hex`].
fn unhex(text: &[u8]) -> Option<Vec<u8>> {
    if text == b"-" {
        return Some(Vec::new());
    }
    if text.is_empty() || text.len() % 2 == 1 {
        return None;
    }
    let pairs = text.chunks(2);
    pairs
        .map(|pair| Some(digit(pair[0])? * 16 + digit(pair[1])?))
        .collect()
}

fn digit(byte: u8) -> Option<u8> {
    match byte {
        b'0'..=b'9' => Some(byte - b'0'),
        b'a'..=b'f' => Some(byte - b'a' + 10),
        _ => None,
    }
}

/// The length of an output.
fn length_of(text: &[u8]) -> Option<usize> {
    let length = usize::try_from(decimal(text)?).ok()?;
    (length <= LONGEST_OUTPUT).then_some(length)
}

/// A call on a state: `o:USER:WORD` opens, `c:NUMBER` closes.
fn change(text: &[u8]) -> Option<Change> {
    let parts: Vec<&[u8]> = text.split(|&byte| byte == b':').collect();
    Some(match parts[..] {
        [b"o", user, roles] => Change::Open {
            user: number(user)?,
            roles: word(roles)?,
        },
        [b"c", session] => Change::Close {
            number: number(session)?,
        },
        _ => return None,
    })
}

/// The number of a user or a session, or the place of a line: of 32 bits at the most.
fn number(text: &[u8]) -> Option<u32> {
    decimal(text)?.try_into().ok()
}

/// A word has all of its eight bytes, the lowest first.
fn word(text: &[u8]) -> Option<u64> {
    Some(u64::from_le_bytes(unhex(text)?.try_into().ok()?))
}

/// A number in decimal digits and nothing else, with or without zeros in front.
fn decimal(text: &[u8]) -> Option<u64> {
    if text.is_empty() || !text.iter().all(u8::is_ascii_digit) {
        return None;
    }
    std::str::from_utf8(text).ok()?.parse().ok()
}
