//! Document 01, "Kinds": what each term of a rule denotes, and refusal 14. Document 02, N8: `done`.

use crate::number::KIND;
use crate::rule::{Basic, Bound, Function, Function2, Rule, Term, Test};
use crate::Answer;

#[derive(Clone, Copy, PartialEq, Eq, Debug)]
pub enum Sort {
    U,
    R,
    Op,
    Obj,
    P,
    S,
}

#[derive(Clone, Copy, PartialEq, Eq, Debug)]
pub enum Collection {
    Cr,
    Cp,
    Cu,
}

#[derive(Clone, Copy, PartialEq, Eq, Debug)]
pub enum Kind {
    Element(Sort),
    Set(Sort),
    Collection(Collection),
}

use Kind::{Element, Set};

impl Collection {
    /// The sort of the items in its words.
    pub fn sort(self) -> Sort {
        match self {
            Collection::Cr => Sort::R,
            Collection::Cp => Sort::P,
            Collection::Cu => Sort::U,
        }
    }
}

/// Refuses a rule whose kinds do not fit.
pub fn check(rule: &Rule) -> Answer<()> {
    let kinds = Kinds::of(rule)?;
    for clause in &rule.clauses {
        kinds.test(&clause.test)?;
        if let Some(test) = &clause.then {
            kinds.test(test)?;
        }
    }
    Ok(())
}

/// The kinds of the sets of a rule's variables, by number.
pub struct Kinds(Vec<Kind>);

impl Kinds {
    /// Each variable's set names earlier variables only, so one pass from the first serves.
    pub fn of(rule: &Rule) -> Answer<Kinds> {
        let mut kinds = Kinds(Vec::new());
        for variable in &rule.variables {
            match kinds.term(&variable.set)? {
                Element(_) => return Err(KIND),
                kind => kinds.0.push(kind),
            }
        }
        Ok(kinds)
    }

    /// The kind of a variable's set.
    pub fn set(&self, variable: usize) -> Kind {
        self.0[variable]
    }

    /// Those of all sets, the first variable's first.
    pub fn sets(&self) -> impl Iterator<Item = Kind> + '_ {
        self.0.iter().copied()
    }

    pub fn term(&self, term: &Term) -> Answer<Kind> {
        Ok(match term {
            Term::Basic(basic) => of_basic(*basic),
            Term::One(number) => match self.0[*number] {
                Set(sort) => Element(sort),
                Kind::Collection(collection) => Set(collection.sort()),
                Element(_) => return Err(KIND),
            },
            Term::Other(number) => self.0[*number],
            Term::Call(function, argument) => of_call(*function, self.term(argument)?)?,
            Term::Call2(function, first, object) => {
                of_call2(*function, self.term(first)?, self.term(object)?)?
            }
            Term::Meet(left, right) | Term::Join(left, right) => {
                joined(self.term(left)?, self.term(right)?)?
            }
        })
    }

    fn test(&self, test: &Test) -> Answer<()> {
        let fits = match test {
            Test::Member(item, set) => match (self.term(item)?, self.term(set)?) {
                (Element(sort), Set(of)) => sort == of,
                _ => false,
            },
            Test::Same(_, left, right) => self.term(left)? == self.term(right)?,
            Test::Empty(_, term) => self.countable(term)?,
            Test::Count(term, _, Bound::Number(_)) => self.countable(term)?,
            Test::Count(term, _, Bound::Count(other)) => {
                self.countable(term)? && self.countable(other)?
            }
        };
        fits.then_some(()).ok_or(KIND)
    }

    fn countable(&self, term: &Term) -> Answer<bool> {
        Ok(!matches!(self.term(term)?, Element(_)))
    }
}

fn of_basic(basic: Basic) -> Kind {
    match basic {
        Basic::U => Set(Sort::U),
        Basic::R => Set(Sort::R),
        Basic::Op => Set(Sort::Op),
        Basic::Obj => Set(Sort::Obj),
        Basic::P => Set(Sort::P),
        Basic::S => Set(Sort::S),
        Basic::Cr => Kind::Collection(Collection::Cr),
        Basic::Cp => Kind::Collection(Collection::Cp),
        Basic::Cu => Kind::Collection(Collection::Cu),
    }
}

fn of_call(function: Function, argument: Kind) -> Answer<Kind> {
    let (Element(sort) | Set(sort)) = argument else {
        return Err(KIND);
    };
    Ok(match (function, sort) {
        (Function::User, Sort::S) if argument == Element(Sort::S) => Element(Sort::U),
        (Function::User, Sort::S | Sort::R) => Set(Sort::U),
        (Function::Roles | Function::RolesStar, Sort::U | Sort::P | Sort::S) => Set(Sort::R),
        (Function::Sessions, Sort::U) => Set(Sort::S),
        (Function::Permissions | Function::PermissionsStar, Sort::R) => Set(Sort::P),
        (Function::Object, Sort::P) => Set(Sort::Obj),
        _ => return Err(KIND),
    })
}

/// Both are of one object, "an element", and give a set of operations.
fn of_call2(function: Function2, first: Kind, object: Kind) -> Answer<Kind> {
    let sort = match function {
        Function2::Operations => Sort::R,
        Function2::Done => Sort::U,
    };
    let fits = [Element(sort), Set(sort)].contains(&first) && object == Element(Sort::Obj);
    fits.then_some(Set(Sort::Op)).ok_or(KIND)
}

/// The kind of a union or an intersection: an element counts as the set of itself.
fn joined(left: Kind, right: Kind) -> Answer<Kind> {
    match (left, right) {
        (Element(a) | Set(a), Element(b) | Set(b)) if a == b => Ok(Set(a)),
        (Kind::Collection(a), Kind::Collection(b)) if a == b => Ok(left),
        _ => Err(KIND),
    }
}
