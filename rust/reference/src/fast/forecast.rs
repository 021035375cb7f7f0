//! Forecasts without the formula: its length is summed up, and each variable's set is measured once.

use super::tables::{read, Tables};
use crate::forecast::Forecast;
use crate::kind::{Collection, Kind, Kinds, Sort};
use crate::rule::{self, Bound, Clause, Relation, Rule, Term, Test};
use crate::rule::{BASICS, FUNCTIONS, FUNCTIONS2, RELATIONS};
use crate::Answer;

/// The forecast for a rule, or the first refusal of the tables and the rule.
pub fn forecast(tables: &[u8], text: &[u8]) -> Answer<Forecast> {
    let tables = read(tables)?;
    let rule = rule::read(text)?;
    Ok(Forecast {
        length: Lengths::of(&rule).formula(&rule) as u64,
        ceiling: ceiling(&tables, &Kinds::of(&rule)?),
    })
}

/// The ceiling on the full choices of a rule whose variables have sets of these kinds.
pub(super) fn ceiling(tables: &Tables, kinds: &Kinds) -> u64 {
    let items = kinds.sets().map(|set| items(tables, set) as u64);
    items.product()
}

/// How many items, or words, a variable may have.
fn items(tables: &Tables, set: Kind) -> usize {
    match set {
        Kind::Collection(Collection::Cr) => tables.cr.len(),
        Kind::Collection(Collection::Cp) => tables.cp.len(),
        Kind::Collection(Collection::Cu) => tables.cu.len(),
        Kind::Element(sort) | Kind::Set(sort) => match sort {
            Sort::U => tables.present.count_ones() as usize,
            Sort::R => tables.dominated.len(),
            Sort::Op => tables.operations,
            Sort::Obj => tables.objects,
            Sort::P => tables.holders.len(),
            Sort::S => tables.active.len(),
        },
    }
}

/// How long each variable's set is in the formula.
struct Lengths(Vec<usize>);

impl Lengths {
    /// A set names earlier variables only.
    fn of(rule: &Rule) -> Lengths {
        let mut lengths = Lengths(Vec::with_capacity(rule.variables.len()));
        for variable in &rule.variables {
            let length = lengths.term(&variable.set);
            lengths.0.push(length);
        }
        lengths
    }

    fn formula(&self, rule: &Rule) -> usize {
        let quantifiers = self.0.iter().map(|set| "[v1@]".len() + set);
        // Each clause stands behind a `:` or a `^`.
        let clauses = rule.clauses.iter().map(|clause| 1 + self.clause(clause));
        quantifiers.chain(clauses).sum()
    }

    fn clause(&self, clause: &Clause) -> usize {
        let then = clause.then.as_ref();
        self.test(&clause.test) + then.map_or(0, |test| "=>".len() + self.test(test))
    }

    fn test(&self, test: &Test) -> usize {
        let sign = |equal: bool| if equal { "=".len() } else { "!=".len() };
        match test {
            Test::Member(item, set) => "@".len() + self.two(item, set),
            Test::Same(equal, left, right) => sign(*equal) + self.two(left, right),
            Test::Empty(equal, term) => self.term(term) + sign(*equal) + "{}".len(),
            Test::Count(term, relation, bound) => {
                let right = match bound {
                    Bound::Number(number) => 1 + usize::from(*number > 9),
                    Bound::Count(other) => "||".len() + self.term(other),
                };
                "||".len() + self.term(term) + spelled(*relation) + right
            }
        }
    }

    fn two(&self, left: &Term, right: &Term) -> usize {
        self.term(left) + self.term(right)
    }

    fn term(&self, term: &Term) -> usize {
        match term {
            Term::Basic(basic) => BASICS[*basic as usize].0.len(),
            Term::One(_) => "v1".len(),
            Term::Other(number) => "(-{v1})".len() + self.0[*number],
            Term::Call(function, argument) => {
                FUNCTIONS[*function as usize].0.len() + self.term(argument) + ")".len()
            }
            Term::Call2(function, first, object) => {
                FUNCTIONS2[*function as usize].0.len() + self.two(first, object) + ",)".len()
            }
            Term::Meet(left, right) | Term::Join(left, right) => {
                "(&)".len() + self.two(left, right)
            }
        }
    }
}

fn spelled(relation: Relation) -> usize {
    let sign = RELATIONS.iter().find(|(_, other)| *other == relation);
    sign.expect("every relation is spelled").0.len()
}
