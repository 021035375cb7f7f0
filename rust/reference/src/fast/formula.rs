//! Formulas written in one pass, and read back by replacing their variables as they come.

use crate::number::NO_RULES_FORMULA;
use crate::rule::{self, Bound, Rule, Term, Test, BASICS, FUNCTIONS, FUNCTIONS2, RELATIONS};
use crate::Answer;

/// The formula of an accepted rule.
pub fn reduce(text: &[u8]) -> Answer<Vec<u8>> {
    let rule = rule::read(text)?;
    let mut writer = Writer {
        rule: &rule,
        out: Vec::with_capacity(2 * text.len()),
    };
    writer.formula();
    Ok(writer.out)
}

struct Writer<'a> {
    rule: &'a Rule,
    out: Vec<u8>,
}

impl Writer<'_> {
    fn put(&mut self, text: &str) {
        self.out.extend_from_slice(text.as_bytes());
    }

    fn variable(&mut self, number: usize) {
        self.out.extend([b'v', b'1' + number as u8]);
    }

    fn formula(&mut self) {
        for (number, variable) in self.rule.variables.iter().enumerate() {
            self.put("[");
            self.variable(number);
            self.put("@");
            self.term(&variable.set);
            self.put("]");
        }
        self.put(":");
        for (place, clause) in self.rule.clauses.iter().enumerate() {
            if place > 0 {
                self.put("^");
            }
            self.test(&clause.test);
            if let Some(then) = &clause.then {
                self.put("=>");
                self.test(then);
            }
        }
    }

    fn test(&mut self, test: &Test) {
        let sign = |equal: &bool| if *equal { "=" } else { "!=" };
        match test {
            Test::Member(item, set) => self.pair(item, "@", set),
            Test::Same(equal, left, right) => self.pair(left, sign(equal), right),
            Test::Empty(equal, term) => {
                self.term(term);
                self.put(sign(equal));
                self.put("{}");
            }
            Test::Count(term, relation, bound) => {
                self.size(term);
                let sign = RELATIONS.iter().find(|(_, other)| other == relation);
                self.put(sign.expect("every relation is spelled").0);
                match bound {
                    Bound::Number(number) => self.put(&number.to_string()),
                    Bound::Count(other) => self.size(other),
                }
            }
        }
    }

    fn size(&mut self, term: &Term) {
        self.put("|");
        self.term(term);
        self.put("|");
    }

    fn pair(&mut self, left: &Term, between: &str, right: &Term) {
        self.term(left);
        self.put(between);
        self.term(right);
    }

    fn term(&mut self, term: &Term) {
        match term {
            Term::Basic(basic) => self.put(BASICS[*basic as usize].0),
            Term::One(number) => self.variable(*number),
            Term::Other(number) => {
                self.put("(");
                self.term(&self.rule.variables[*number].set);
                self.put("-{");
                self.variable(*number);
                self.put("})");
            }
            Term::Call(function, argument) => {
                self.put(FUNCTIONS[*function as usize].0);
                self.term(argument);
                self.put(")");
            }
            Term::Call2(function, first, object) => {
                self.put(FUNCTIONS2[*function as usize].0);
                self.pair(first, ",", object);
                self.put(")");
            }
            Term::Meet(left, right) => {
                self.put("(");
                self.pair(left, "&", right);
                self.put(")");
            }
            Term::Join(left, right) => {
                self.put("(");
                self.pair(left, "+", right);
                self.put(")");
            }
        }
    }
}

/// The accepted rule that has this formula.
pub fn rebuild(formula: &[u8]) -> Answer<Vec<u8>> {
    candidate(formula)
        .filter(|text| reduce(text).as_deref() == Ok(formula))
        .ok_or(NO_RULES_FORMULA)
}

/// A variable's set, as the formula has it and as the rule has it.
struct Variable<'a> {
    formula: &'a [u8],
    rule: Vec<u8>,
}

/// The only text that can be the rule of this formula.
fn candidate(formula: &[u8]) -> Option<Vec<u8>> {
    if formula.len() > 4_096 {
        return None;
    }
    let mut variables: Vec<Variable> = Vec::new();
    let mut rest = formula;
    while let [b'[', b'v', _, b'@', after @ ..] = rest {
        let end = after.iter().position(|&byte| byte == b']')?;
        let (set, after) = (&after[..end], &after[end + 1..]);
        let rule = replaced(set, &variables)?;
        variables.push(Variable { formula: set, rule });
        rest = after;
    }
    replaced(rest.strip_prefix(b":")?, &variables)
}

/// A part of a formula with `OE(X)` for each variable and `AO(X)` for each `(X-{v})`.
fn replaced(text: &[u8], variables: &[Variable]) -> Option<Vec<u8>> {
    let find = |digit: u8| variables.get((digit as usize).checked_sub(b'1' as usize)?);
    let mut out = Vec::new();
    let mut at = 0;
    while at < text.len() && out.len() <= 256 {
        match text[at..] {
            [b'v', digit, ..] => {
                out.extend_from_slice(b"OE(");
                out.extend_from_slice(&find(digit)?.rule);
                out.push(b')');
                at += 2;
            }
            [b'-', b'{', b'v', digit, b'}', b')', ..] => {
                let set = find(digit)?;
                let open = out.len().checked_sub(set.rule.len() + 1)?;
                if !text[..at].ends_with(set.formula) || out[open] != b'(' {
                    return None;
                }
                out.truncate(open);
                out.extend_from_slice(b"AO(");
                out.extend_from_slice(&set.rule);
                out.push(b')');
                at += 6;
            }
            [byte, ..] => {
                out.push(byte);
                at += 1;
            }
            [] => break,
        }
    }
    (out.len() <= 256).then_some(out)
}
