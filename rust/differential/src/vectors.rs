//! Commands with the answers that are expected, line for line.

use rcl2000::{Refusal, Word};
use reference::forecast::forecast;
use reference::protocol::{answer, followed, hex, Command, FILL};
use reference::sessions::{Change, State};

use crate::hold::{reply, step, Question};

/// So many choices are tried one by one at the most.
const TRIED: u64 = 1 << 32;

/// What a file of commands was held to.
pub struct Held {
    pub lines: usize,
    /// How many of the lines only the library was asked.
    pub alone: usize,
}

/// Holds the library, the plain modules and the fast ones to the answers of a file of commands; of verdicts on
/// more choices than can be tried one by one, the library alone.
///
/// # Errors
///
/// What is wrong: no commands at all, other numbers of lines, or each line that is answered
/// otherwise by one of the three.
pub fn hold(commands: &[u8], answers: &[u8]) -> Result<Held, Vec<String>> {
    let (commands, answers) = (lines(commands), lines(answers));
    if commands.is_empty() {
        return Err(vec!["there are no commands".to_string()]);
    }
    if commands.len() != answers.len() {
        let (commands, answers) = (commands.len(), answers.len());
        return Err(vec![format!("{commands} commands but {answers} answers")]);
    }
    let pairs = commands.iter().zip(answers).enumerate();
    let differences: Vec<String> = pairs
        .filter_map(|(place, (command, expected))| {
            let difference = differing(command, expected)?;
            Some(format!("line {}: {difference}", place + 1))
        })
        .collect();
    match differences.is_empty() {
        true => Ok(Held {
            lines: commands.len(),
            alone: commands.iter().filter(|command| endless(command)).count(),
        }),
        false => Err(differences),
    }
}

/// The lines of a file, the last one with or without its end.
fn lines(text: &[u8]) -> Vec<&[u8]> {
    let mut lines: Vec<&[u8]> = text.split(|&byte| byte == b'\n').collect();
    if lines.last().is_some_and(|last| last.is_empty()) {
        lines.pop();
    }
    lines
}

/// A name, and how it answers.
type Respondent = (&'static str, fn(&Command) -> String);

/// Who answers a command otherwise, if anyone of those asked does.
fn differing(command: &[u8], expected: &[u8]) -> Option<String> {
    let all: [Respondent; 3] = [
        ("the library", library),
        ("the reference", Command::plain),
        ("its fast modules", Command::fast),
    ];
    let asked = match endless(command) {
        true => &all[..1],
        false => &all[..],
    };
    let (who, got) = asked
        .iter()
        .map(|(who, respond)| (who, answer(command, respond)))
        .find(|(_, answer)| answer.as_bytes() != expected)?;
    let (command, expected) = (
        String::from_utf8_lossy(command),
        String::from_utf8_lossy(expected),
    );
    Some(format!("{command}\n  expected {expected}\n  {who}: {got}"))
}

/// Whether the command is for a verdict on more choices than can be tried one by one.
fn endless(command: &[u8]) -> bool {
    let many =
        |tables: &[u8], rule: &[u8]| forecast(tables, rule).is_ok_and(|told| told.ceiling > TRIED);
    match Command::read(command) {
        Some(Command::Judge([tables, rule, _], _)) => many(&tables, &rule),
        Some(Command::Sessions(tables, rule, _)) => many(&tables, &rule),
        Some(Command::Session(state, ..)) => {
            State::split(&state).is_ok_and(|parts| many(parts.tables, parts.rule))
        }
        // No reader has more to choose from, and the plain modules list the whole sheet.
        Some(Command::Line(line, _)) => {
            let mut rules = line.rules.split(|&byte| byte == b'\n');
            rules.any(|rule| many(&line.tables, rule))
        }
        _ => false,
    }
}

/// The library's answer: that of the call, or the day sheet made of its verdicts.
fn library(command: &Command) -> String {
    let checked = |answer: Result<(), Refusal>| {
        let number = answer.err().map_or(0, |refusal| refusal.number());
        number.to_string()
    };
    let (question, length) = match command {
        Command::Tables(tables) => return checked(rcl2000::check_tables(tables)),
        Command::Rule(rule) => return checked(rcl2000::check_rule(rule)),
        Command::Reduce(rule, length) => (Question::Reduce(rule[..].into()), *length),
        Command::Rebuild(formula, length) => (Question::Rebuild(formula[..].into()), *length),
        Command::Judge([tables, rule, order], length) => (
            Question::judge(tables.clone(), rule.clone(), order.clone()),
            *length,
        ),
        Command::Sheet(tables, rules) => return hex(sheet(tables, rules).as_bytes()),
        Command::JudgePage(tables, page) => return page_fields(tables, page),
        Command::RankStep(tables) => return step(rcl2000::rank_step(tables)).to_string(),
        Command::Forecast(tables, rule) => return told(tables, rule),
        Command::Sessions(tables, rule, calls) => return counts(tables, rule, calls),
        Command::Session(state, call, length) => (Question::session(state.clone(), *call), *length),
        Command::Line(line, length) => {
            let (tables, rules) = (line.tables.clone(), line.rules.clone());
            let question = Question::sheet_line(tables, line.reader, rules, line.place);
            (question, *length)
        }
    };
    let mut out = vec![FILL; length].into_boxed_slice();
    let returned = reply(question.ask(&mut out));
    format!("{returned} {}", hex(&out))
}

/// The library's answer to a page.
fn page_fields(tables: &[u8], page: &[u8]) -> String {
    let page = match rcl2000::judge_page(tables, page) {
        Err(refused) => {
            return format!("refused {} {}", refused.refusal.number(), refused.position)
        }
        Ok(page) => page,
    };
    let mut fields = format!(
        "{} {} {} {}",
        page.word, page.full, page.breaking, page.walks
    );
    for verdict in page.lines() {
        let none = |item: Option<u8>| item.unwrap_or(255);
        let (share, choice) = (none(verdict.share), hex(&verdict.first.map(none)));
        let counts = format!("{}:{}", verdict.full, verdict.breaking);
        fields += &format!(" {}:{counts}:{share}:{choice}", verdict.word);
    }
    fields
}

/// The library's forecast.
fn told(tables: &[u8], rule: &[u8]) -> String {
    match rcl2000::forecast(tables, rule) {
        Err(refusal) => format!("refused {}", refusal.number()),
        Ok(told) => format!("{} {}", told.length, told.ceiling),
    }
}

/// The counts that the library's states have.
fn counts(tables: &[u8], rule: &[u8], calls: &[Change]) -> String {
    let start = rcl2000::sessions_start(tables, rule);
    followed(start.map_err(Refusal::number), calls, |state, change| {
        let next = match change {
            Change::Open { user, roles } => rcl2000::session_open(state, user, roles),
            Change::Close { number } => rcl2000::session_close(state, number),
        };
        next.map_err(Refusal::number)
    })
}

/// The most bytes of rules that are listed.
const LONGEST_RULES: usize = 32_768;

/// The day sheet by the library's calls: the line of each rule, and what their outcomes come to.
fn sheet(tables: &[u8], rules: &[u8]) -> String {
    if let Err(refusal) = rcl2000::check_tables(tables) {
        return format!("tables refused {}\n", refusal.number());
    }
    if rules.len() > LONGEST_RULES {
        return "rules too long\n".to_string();
    }
    let rules = lines(rules);
    let (mut sheet, mut counts) = (String::new(), [0; 4]);
    for (place, rule) in rules.iter().enumerate() {
        let (line, word) = match rcl2000::judge_in_turn(tables, rule) {
            Ok(verdict) => (verdict.to_string(), word_at(verdict.word)),
            Err(refusal) => (format!("refused {}", refusal.number()), 3),
        };
        sheet += &format!("{} {line}\n", place + 1);
        counts[word] += 1;
    }
    let ([held, idle, broken, refused], all) = (counts, rules.len());
    sheet + &format!("total {all} held {held} idle {idle} broken {broken} refused {refused}\n")
}

/// The place of a word among the counts of the total.
fn word_at(word: Word) -> usize {
    match word {
        Word::Held => 0,
        Word::Idle => 1,
        Word::Broken => 2,
        other => panic!("a verdict's word is {other}"),
    }
}
