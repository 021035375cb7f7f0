//! Document 01, "Rule text": the tree of a rule, its reader, and the checks 11 to 15. Document 02, N8: `done`.

use std::ops::Range;

use crate::kind;
use crate::number::*;
use crate::Answer;

#[derive(Clone, Copy, PartialEq, Eq, Debug)]
pub enum Basic {
    U,
    R,
    Op,
    Obj,
    P,
    S,
    Cr,
    Cp,
    Cu,
}

/// The functions of one term.
#[derive(Clone, Copy, PartialEq, Eq, Debug)]
pub enum Function {
    User,
    Roles,
    RolesStar,
    Sessions,
    Permissions,
    PermissionsStar,
    Object,
}

/// The functions of two terms: "Beside `operations` it is the only call with two terms."
#[derive(Clone, Copy, PartialEq, Eq, Debug)]
pub enum Function2 {
    Operations,
    Done,
}

#[derive(Clone, PartialEq, Eq, Debug)]
pub enum Term {
    Basic(Basic),
    Call(Function, Box<Term>),
    Call2(Function2, Box<Term>, Box<Term>),
    /// `OE(X)`: the number, from 0, of the variable whose set is X.
    One(usize),
    /// `AO(X)`: the number, from 0, of the variable whose set is X.
    Other(usize),
    Meet(Box<Term>, Box<Term>),
    Join(Box<Term>, Box<Term>),
}

#[derive(Clone, Copy, PartialEq, Eq, Debug)]
pub enum Relation {
    Below,
    AtMost,
    Above,
    AtLeast,
    Equal,
    Unequal,
}

#[derive(Clone, PartialEq, Eq, Debug)]
pub enum Bound {
    Number(usize),
    Count(Term),
}

#[derive(Clone, PartialEq, Eq, Debug)]
pub enum Test {
    Member(Term, Term),
    /// `=` where the flag is set, otherwise `!=`.
    Same(bool, Term, Term),
    Empty(bool, Term),
    Count(Term, Relation, Bound),
}

/// A test, or a test and what follows from it.
#[derive(Clone, PartialEq, Eq, Debug)]
pub struct Clause {
    pub test: Test,
    pub then: Option<Test>,
}

/// A variable: the argument X of an `OE` or `AO`, and where its text stands in the rule.
#[derive(Clone, PartialEq, Eq, Debug)]
pub struct Variable {
    pub set: Term,
    text: Range<usize>,
}

#[derive(Clone, PartialEq, Eq, Debug)]
pub struct Rule {
    pub clauses: Vec<Clause>,
    pub variables: Vec<Variable>,
}

/// The spelling of each basic set.
pub const BASICS: [(&str, Basic); 9] = [
    ("U", Basic::U),
    ("R", Basic::R),
    ("OP", Basic::Op),
    ("OBJ", Basic::Obj),
    ("P", Basic::P),
    ("S", Basic::S),
    ("CR", Basic::Cr),
    ("CP", Basic::Cp),
    ("CU", Basic::Cu),
];

/// The spelling of each function of one term, up to its argument: so none begins another.
pub const FUNCTIONS: [(&str, Function); 7] = [
    ("user(", Function::User),
    ("roles(", Function::Roles),
    ("roles*(", Function::RolesStar),
    ("sessions(", Function::Sessions),
    ("permissions(", Function::Permissions),
    ("permissions*(", Function::PermissionsStar),
    ("object(", Function::Object),
];

/// The spelling of each function of two terms, up to its first.
pub const FUNCTIONS2: [(&str, Function2); 2] = [
    ("operations(", Function2::Operations),
    ("done(", Function2::Done),
];

/// The spelling of each relation, the longer of two that begin alike first.
pub const RELATIONS: [(&str, Relation); 6] = [
    ("<=", Relation::AtMost),
    (">=", Relation::AtLeast),
    ("!=", Relation::Unequal),
    ("<", Relation::Below),
    (">", Relation::Above),
    ("=", Relation::Equal),
];

/// An accepted rule's tree, or the first of 11 to 15 that refuses it.
pub fn read(text: &[u8]) -> Answer<Rule> {
    if text.is_empty() || text.len() > 256 {
        return Err(RULE_LENGTH);
    }
    if deep(text) {
        return Err(DEEP);
    }
    let rule = parse(text).ok_or(NOT_A_RULE)?;
    kind::check(&rule)?;
    if rule.variables.len() > 8 {
        return Err(CHOICES);
    }
    Ok(rule)
}

/// Whether the surplus of opening brackets passes 32 after some byte.
fn deep(text: &[u8]) -> bool {
    let mut surplus = 0i32;
    text.iter().any(|byte| {
        surplus += match byte {
            b'(' => 1,
            b')' => -1,
            _ => 0,
        };
        surplus > 32
    })
}

fn parse(text: &[u8]) -> Option<Rule> {
    let mut reader = Reader {
        text,
        at: 0,
        variables: Vec::new(),
    };
    let mut clauses = vec![reader.clause()?];
    while reader.take("^") {
        clauses.push(reader.clause()?);
    }
    (reader.at == text.len()).then_some(Rule {
        clauses,
        variables: reader.variables,
    })
}

/// Reads from left to right; `None` is "outside the grammar".
struct Reader<'a> {
    text: &'a [u8],
    at: usize,
    variables: Vec<Variable>,
}

impl Reader<'_> {
    fn take(&mut self, expected: &str) -> bool {
        let found = self.text[self.at..].starts_with(expected.as_bytes());
        if found {
            self.at += expected.len();
        }
        found
    }

    fn expect(&mut self, expected: &str) -> Option<()> {
        self.take(expected).then_some(())
    }

    fn clause(&mut self) -> Option<Clause> {
        let test = self.test()?;
        let then = if self.take("=>") {
            Some(self.test()?)
        } else {
            None
        };
        Some(Clause { test, then })
    }

    fn test(&mut self) -> Option<Test> {
        if self.take("|") {
            return self.count_test();
        }
        let left = self.term()?;
        if self.take("@") {
            return Some(Test::Member(left, self.term()?));
        }
        let equal = match self.relation()? {
            Relation::Equal => true,
            Relation::Unequal => false,
            _ => return None,
        };
        if self.take("{}") {
            return Some(Test::Empty(equal, left));
        }
        Some(Test::Same(equal, left, self.term()?))
    }

    /// A comparison of counts, after its first `|`.
    fn count_test(&mut self) -> Option<Test> {
        let left = self.term()?;
        self.expect("|")?;
        let relation = self.relation()?;
        if !self.take("|") {
            return Some(Test::Count(left, relation, Bound::Number(self.number()?)));
        }
        let right = self.term()?;
        self.expect("|")?;
        Some(Test::Count(left, relation, Bound::Count(right)))
    }

    fn relation(&mut self) -> Option<Relation> {
        RELATIONS
            .iter()
            .find(|(spelling, _)| self.take(spelling))
            .map(|&(_, relation)| relation)
    }

    /// The longest run of digits: 0 to 64, without a leading zero.
    fn number(&mut self) -> Option<usize> {
        let digits = self.text[self.at..]
            .iter()
            .take_while(|byte| byte.is_ascii_digit())
            .count();
        let run = &self.text[self.at..self.at + digits];
        self.at += digits;
        match run {
            [b'0'] => Some(0),
            [b'1'..=b'9', ..] if digits <= 2 => {
                let value = run
                    .iter()
                    .fold(0, |n, digit| 10 * n + (digit - b'0') as usize);
                (value <= 64).then_some(value)
            }
            _ => None,
        }
    }

    fn term(&mut self) -> Option<Term> {
        if self.take("(") {
            return self.pair();
        }
        if self.take("OE(") {
            return Some(Term::One(self.choice()?));
        }
        if self.take("AO(") {
            return Some(Term::Other(self.choice()?));
        }
        if let Some((_, function)) = FUNCTIONS2.iter().find(|(name, _)| self.take(name)) {
            let first = Box::new(self.term()?);
            self.expect(",")?;
            let object = Box::new(self.term()?);
            self.expect(")")?;
            return Some(Term::Call2(*function, first, object));
        }
        if let Some((_, function)) = FUNCTIONS.iter().find(|(name, _)| self.take(name)) {
            let argument = Box::new(self.term()?);
            self.expect(")")?;
            return Some(Term::Call(*function, argument));
        }
        let (_, basic) = BASICS.iter().find(|(name, _)| self.take(name))?;
        Some(Term::Basic(*basic))
    }

    /// `(term&term)` or `(term+term)`, after its bracket.
    fn pair(&mut self) -> Option<Term> {
        let left = Box::new(self.term()?);
        let meet = self.take("&");
        if !meet {
            self.expect("+")?;
        }
        let right = Box::new(self.term()?);
        self.expect(")")?;
        Some(if meet {
            Term::Meet(left, right)
        } else {
            Term::Join(left, right)
        })
    }

    /// The number of the variable whose set is read here, after the bracket of an `OE` or `AO`:
    /// that of an equal text, or the next.
    fn choice(&mut self) -> Option<usize> {
        let start = self.at;
        let set = self.term()?;
        let text = start..self.at;
        self.expect(")")?;
        let same = |v: &Variable| self.text[v.text.clone()] == self.text[text.clone()];
        if let Some(number) = self.variables.iter().position(same) {
            return Some(number);
        }
        self.variables.push(Variable { set, text });
        Some(self.variables.len() - 1)
    }
}
