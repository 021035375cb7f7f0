//! Verdicts over words: a variable's set is evaluated once its own variables are chosen, and only
//! its items are walked.

use super::forecast::ceiling;
use super::tables::{below, items, read, Tables};
use crate::kind::{Collection, Kind, Kinds, Sort};
use crate::rule::{self, Basic, Bound, Function, Function2, Relation, Rule, Term, Test};
use crate::verdict::{read_order, Verdict, NO_CHOICE};
use crate::Answer;

/// The verdict on a rule, or the first refusal of the tables, the rule and the order.
pub fn judge(tables: &[u8], text: &[u8], order: &[u8]) -> Answer<Verdict> {
    let tables = read(tables)?;
    let rule = rule::read(text)?;
    let order = read_order(&rule, order)?;
    Ok(judged(&tables, &rule, &order))
}

/// The verdict on an accepted rule in an accepted order.
pub(super) fn judged(tables: &Tables, rule: &Rule, order: &[usize]) -> Verdict {
    let lower = Lower::new(tables, rule);
    let mut walk = Walk {
        plan: lower.plan(),
        state: vec![State::default(); order.len()],
        verdict: Verdict {
            full: 0,
            breaking: 0,
            first: NO_CHOICE,
        },
    };
    // Where a variable has no item to choose, no choice is full.
    if ceiling(tables, &lower.kinds) > 0 {
        walk.run(order);
    }
    walk.verdict
}

/// A term with its functions resolved to the rows that they look into.
enum Expr<'a> {
    Word(u64),
    One(usize),
    Other(usize),
    /// The union of the rows of the items.
    Image(&'a [u64], Box<Expr<'a>>),
    /// The items whose row meets the word.
    Preimage(&'a [u64], Box<Expr<'a>>),
    Operations(&'a Tables, Box<Expr<'a>>, Box<Expr<'a>>),
    Done(&'a Tables, Box<Expr<'a>>, Box<Expr<'a>>),
    And(Box<Expr<'a>>, Box<Expr<'a>>),
    Or(Box<Expr<'a>>, Box<Expr<'a>>),
}

enum Check<'a> {
    Member(Expr<'a>, Expr<'a>),
    Same(bool, Expr<'a>, Expr<'a>),
    Size(Expr<'a>, Relation, u32),
    Sizes(Expr<'a>, Relation, Expr<'a>),
}

struct Plan<'a> {
    /// For each variable its set, and its words where it chooses one.
    variables: Vec<(Expr<'a>, Option<&'a [u64]>)>,
    clauses: Vec<(Check<'a>, Option<Check<'a>>)>,
}

/// Makes the plan of a rule over tables.
struct Lower<'a> {
    tables: &'a Tables,
    rule: &'a Rule,
    kinds: Kinds,
}

impl<'a> Lower<'a> {
    fn new(tables: &'a Tables, rule: &'a Rule) -> Self {
        let kinds = Kinds::of(rule).expect("an accepted rule has kinds");
        Lower {
            tables,
            rule,
            kinds,
        }
    }

    fn plan(&self) -> Plan<'a> {
        let variables = self.rule.variables.iter().enumerate();
        let clauses = self.rule.clauses.iter();
        Plan {
            variables: variables
                .map(|(number, v)| (self.term(&v.set), self.words(number)))
                .collect(),
            clauses: clauses
                .map(|c| (self.test(&c.test), c.then.as_ref().map(|t| self.test(t))))
                .collect(),
        }
    }

    fn words(&self, variable: usize) -> Option<&'a [u64]> {
        match self.kinds.set(variable) {
            Kind::Collection(Collection::Cr) => Some(&self.tables.cr),
            Kind::Collection(Collection::Cp) => Some(&self.tables.cp),
            Kind::Collection(Collection::Cu) => Some(&self.tables.cu),
            _ => None,
        }
    }

    fn test(&self, test: &Test) -> Check<'a> {
        match test {
            Test::Member(item, set) => Check::Member(self.term(item), self.term(set)),
            Test::Same(equal, left, right) => {
                Check::Same(*equal, self.term(left), self.term(right))
            }
            Test::Empty(equal, term) => Check::Same(*equal, self.term(term), Expr::Word(0)),
            Test::Count(term, relation, Bound::Number(number)) => {
                Check::Size(self.term(term), *relation, *number as u32)
            }
            Test::Count(term, relation, Bound::Count(other)) => {
                Check::Sizes(self.term(term), *relation, self.term(other))
            }
        }
    }

    fn boxed(&self, term: &Term) -> Box<Expr<'a>> {
        Box::new(self.term(term))
    }

    fn term(&self, term: &Term) -> Expr<'a> {
        match term {
            Term::Basic(basic) => Expr::Word(self.all(*basic)),
            Term::One(number) => Expr::One(*number),
            Term::Other(number) => Expr::Other(*number),
            Term::Call(function, argument) => self.call(*function, argument),
            Term::Call2(function, first, object) => {
                let call = match function {
                    Function2::Operations => Expr::Operations,
                    Function2::Done => Expr::Done,
                };
                call(self.tables, self.boxed(first), self.boxed(object))
            }
            Term::Meet(left, right) => Expr::And(self.boxed(left), self.boxed(right)),
            Term::Join(left, right) => Expr::Or(self.boxed(left), self.boxed(right)),
        }
    }

    fn call(&self, function: Function, argument: &Term) -> Expr<'a> {
        let Ok(Kind::Element(sort) | Kind::Set(sort)) = self.kinds.term(argument) else {
            unreachable!("an accepted rule has no function of a collection")
        };
        let tables = self.tables;
        let argument = self.boxed(argument);
        let roles = match sort {
            Sort::U => &tables.assigned,
            Sort::P => &tables.holders,
            _ => &tables.active,
        };
        match (function, sort) {
            (Function::User, Sort::R) => Expr::Preimage(&tables.assigned, argument),
            (Function::User, _) => Expr::Image(&tables.session_user, argument),
            (Function::Roles, _) => Expr::Image(roles, argument),
            (Function::RolesStar, Sort::P) => {
                Expr::Preimage(&tables.dominated, Box::new(Expr::Image(roles, argument)))
            }
            (Function::RolesStar, _) => {
                Expr::Image(&tables.dominated, Box::new(Expr::Image(roles, argument)))
            }
            (Function::Sessions, _) => Expr::Preimage(&tables.session_user, argument),
            (Function::Permissions, _) => Expr::Preimage(&tables.holders, argument),
            (Function::PermissionsStar, _) => {
                let juniors = Expr::Image(&tables.dominated, argument);
                Expr::Preimage(&tables.holders, Box::new(juniors))
            }
            (Function::Object, _) => Expr::Image(&tables.object, argument),
        }
    }

    fn all(&self, basic: Basic) -> u64 {
        let tables = self.tables;
        below(match basic {
            Basic::U => return tables.present,
            Basic::R => tables.dominated.len(),
            Basic::Op => tables.operations,
            Basic::Obj => tables.objects,
            Basic::P => tables.holders.len(),
            Basic::S => tables.active.len(),
            Basic::Cr => tables.cr.len(),
            Basic::Cp => tables.cp.len(),
            Basic::Cu => tables.cu.len(),
        })
    }
}

/// A chosen variable: its set, its item, and its value (the item alone, or the word there).
#[derive(Clone, Copy, Default)]
struct State {
    set: u64,
    item: usize,
    value: u64,
}

struct Walk<'a> {
    plan: Plan<'a>,
    state: Vec<State>,
    verdict: Verdict,
}

impl Walk<'_> {
    fn run(&mut self, order: &[usize]) {
        let Some((&variable, rest)) = order.split_first() else {
            return self.full();
        };
        let (set, words) = &self.plan.variables[variable];
        let (set, words) = (self.value(set), *words);
        for item in items(set) {
            let value = words.map_or(1 << item, |words| words[item]);
            self.state[variable] = State { set, item, value };
            self.run(rest);
        }
    }

    fn full(&mut self) {
        self.verdict.full += 1;
        let holds = self.plan.clauses.iter().all(|(test, then)| match then {
            None => self.check(test),
            Some(then) => !self.check(test) || self.check(then),
        });
        if holds {
            return;
        }
        if self.verdict.breaking == 0 {
            for (place, state) in self.verdict.first.iter_mut().zip(&self.state) {
                *place = state.item as u8;
            }
        }
        self.verdict.breaking += 1;
    }

    fn check(&self, check: &Check) -> bool {
        match check {
            Check::Member(item, set) => self.value(item) & !self.value(set) == 0,
            Check::Same(equal, left, right) => *equal == (self.value(left) == self.value(right)),
            Check::Size(term, relation, number) => {
                stands(self.value(term).count_ones(), *relation, *number)
            }
            Check::Sizes(term, relation, other) => {
                let right = self.value(other).count_ones();
                stands(self.value(term).count_ones(), *relation, right)
            }
        }
    }

    fn value(&self, expr: &Expr) -> u64 {
        match expr {
            Expr::Word(word) => *word,
            Expr::One(variable) => self.state[*variable].value,
            Expr::Other(variable) => {
                let state = &self.state[*variable];
                state.set & !(1 << state.item)
            }
            Expr::Image(rows, set) => image(rows, self.value(set)),
            Expr::Preimage(rows, set) => preimage(rows, self.value(set)),
            Expr::Operations(tables, roles, object) => {
                operations(tables, self.value(roles), self.value(object))
            }
            Expr::Done(tables, users, object) => {
                done(tables, self.value(users), self.value(object))
            }
            Expr::And(left, right) => self.value(left) & self.value(right),
            Expr::Or(left, right) => self.value(left) | self.value(right),
        }
    }
}

fn image(rows: &[u64], set: u64) -> u64 {
    items(set).fold(0, |all, item| all | rows[item])
}

fn preimage(rows: &[u64], set: u64) -> u64 {
    rows.iter().enumerate().fold(0, |all, (item, row)| {
        all | u64::from(row & set != 0) << item
    })
}

/// The operations of one of these roles on one object.
fn operations(tables: &Tables, roles: u64, object: u64) -> u64 {
    let object = object.trailing_zeros() as usize;
    let held = |op: usize| tables.holders[op * tables.objects + object] & roles != 0;
    (0..tables.operations).fold(0, |all, op| all | u64::from(held(op)) << op)
}

/// The operations that one of these users did on one object.
fn done(tables: &Tables, users: u64, object: u64) -> u64 {
    let first = object.trailing_zeros() as usize * tables.assigned.len();
    image(&tables.done[first..], users)
}

fn stands(left: u32, relation: Relation, right: u32) -> bool {
    match relation {
        Relation::Below => left < right,
        Relation::AtMost => left <= right,
        Relation::Above => left > right,
        Relation::AtLeast => left >= right,
        Relation::Equal => left == right,
        Relation::Unequal => left != right,
    }
}
