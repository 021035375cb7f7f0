//! Document 01, "Formula": a rule's formula, and the rule of a formula as Figure 7 has it.

use crate::number::NO_RULES_FORMULA;
use crate::rule::{self, Bound, Rule, Term, Test, BASICS, FUNCTIONS, FUNCTIONS2, RELATIONS};
use crate::Answer;

/// No formula passes this many bytes.
const LONGEST: usize = 4_096;

/// Figure 7 writes `OE(X)` out before it finds `AO(X)`, so its texts pass that of the rule. They
/// double at most eight times on the way, so no accepted rule has one near this.
const LONGEST_BETWEEN: usize = 1 << 20;

/// The formula of an accepted rule.
pub fn reduce(text: &[u8]) -> Answer<Vec<u8>> {
    Ok(formula(&rule::read(text)?).into_bytes())
}

/// The accepted rule that has this formula.
pub fn rebuild(formula: &[u8]) -> Answer<Vec<u8>> {
    construct(formula)
        .map(String::into_bytes)
        .filter(|text| reduce(text).as_deref() == Ok(formula))
        .ok_or(NO_RULES_FORMULA)
}

fn formula(rule: &Rule) -> String {
    let writer = Writer { rule };
    let mut out = String::new();
    for (number, variable) in rule.variables.iter().enumerate() {
        out += &format!("[v{}@{}]", number + 1, writer.term(&variable.set));
    }
    let clauses: Vec<String> = rule.clauses.iter().map(|c| writer.clause(c)).collect();
    out + ":" + &clauses.join("^")
}

/// Writes the parts of a rule with its variables in the place of their choices.
struct Writer<'a> {
    rule: &'a Rule,
}

impl Writer<'_> {
    fn clause(&self, clause: &rule::Clause) -> String {
        match &clause.then {
            None => self.test(&clause.test),
            Some(then) => format!("{}=>{}", self.test(&clause.test), self.test(then)),
        }
    }

    fn test(&self, test: &Test) -> String {
        let sign = |equal: &bool| if *equal { "=" } else { "!=" };
        match test {
            Test::Member(item, set) => format!("{}@{}", self.term(item), self.term(set)),
            Test::Same(equal, left, right) => {
                format!("{}{}{}", self.term(left), sign(equal), self.term(right))
            }
            Test::Empty(equal, term) => format!("{}{}{{}}", self.term(term), sign(equal)),
            Test::Count(term, relation, bound) => {
                let right = match bound {
                    Bound::Number(number) => number.to_string(),
                    Bound::Count(other) => format!("|{}|", self.term(other)),
                };
                format!(
                    "|{}|{}{}",
                    self.term(term),
                    spelling(&RELATIONS, *relation),
                    right
                )
            }
        }
    }

    fn term(&self, term: &Term) -> String {
        match term {
            Term::Basic(basic) => spelling(&BASICS, *basic).to_string(),
            Term::One(number) => format!("v{}", number + 1),
            Term::Other(number) => {
                let set = &self.rule.variables[*number].set;
                format!("({}-{{v{}}})", self.term(set), number + 1)
            }
            Term::Call(function, argument) => {
                format!(
                    "{}{})",
                    spelling(&FUNCTIONS, *function),
                    self.term(argument)
                )
            }
            Term::Call2(function, first, object) => {
                let name = spelling(&FUNCTIONS2, *function);
                format!("{name}{},{})", self.term(first), self.term(object))
            }
            Term::Meet(left, right) => format!("({}&{})", self.term(left), self.term(right)),
            Term::Join(left, right) => format!("({}+{})", self.term(left), self.term(right)),
        }
    }
}

fn spelling<T: PartialEq>(table: &[(&'static str, T)], item: T) -> &'static str {
    table.iter().find(|(_, other)| *other == item).unwrap().0
}

/// Figure 7 on texts. The caller sees whether the outcome is a rule and has this formula.
fn construct(formula: &[u8]) -> Option<String> {
    if formula.len() > LONGEST || !formula.is_ascii() {
        return None;
    }
    let formula = std::str::from_utf8(formula).ok()?;
    let (quantifiers, mut rule) = quantifiers(formula)?;
    let mut sets: Vec<String> = quantifiers.into_iter().map(String::from).collect();
    while let Some(set) = sets.pop() {
        let variable = format!("v{}", sets.len() + 1);
        let element = format!("OE({set})");
        for text in sets.iter_mut().chain([&mut rule]) {
            *text = text.replace(&variable, &element);
            if text.len() > LONGEST_BETWEEN {
                return None;
            }
        }
    }
    Some(with_all_other(&rule))
}

/// The sets of `[v1@X1][v2@X2]..:` in turn, and what follows.
fn quantifiers(formula: &str) -> Option<(Vec<&str>, String)> {
    let mut rest = formula;
    let mut sets = Vec::new();
    while let Some(after) = rest.strip_prefix(&format!("[v{}@", sets.len() + 1)) {
        let (set, after) = after.split_once(']')?;
        sets.push(set);
        rest = after;
    }
    Some((sets, rest.strip_prefix(':')?.to_string()))
}

/// `text` with `AO(X)` for every `(X-{OE(X)})`, the innermost first.
fn with_all_other(text: &str) -> String {
    let mut out = String::new();
    let mut open = Vec::new();
    for symbol in text.chars() {
        if symbol == '(' {
            open.push(out.len());
        }
        out.push(symbol);
        if symbol == ')' {
            let start = open.pop().unwrap_or(0);
            if let Some(set) = difference(&out[start..]) {
                let replacement = format!("AO({set})");
                out.truncate(start);
                out += &replacement;
            }
        }
    }
    out
}

/// X, where the text is `(X-{OE(X)})`.
fn difference(text: &str) -> Option<&str> {
    let inside = text.strip_prefix('(')?.strip_suffix(")})")?;
    let half = inside.len().checked_sub("-{OE(".len())? / 2;
    let (set, rest) = (inside.get(..half)?, inside.get(half..)?);
    (rest.strip_prefix("-{OE(") == Some(set)).then_some(set)
}
