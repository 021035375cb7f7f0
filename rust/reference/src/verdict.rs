//! Document 01, "Verdict": every choice tried in turn, in the order asked for.

use crate::kind::{Collection, Kind, Kinds, Sort};
use crate::number::ORDER;
use crate::rule::{self, Basic, Bound, Clause, Function, Function2, Relation, Rule, Term, Test};
use crate::set::Set;
use crate::tables::{self, Tables};
use crate::Answer;

/// A choice, by variable number; 255 where unused or none.
pub type Choice = [u8; 8];

pub const NO_CHOICE: Choice = [255; 8];

#[derive(Clone, Copy, PartialEq, Eq, Debug)]
pub struct Verdict {
    pub full: u64,
    pub breaking: u64,
    pub first: Choice,
}

impl Verdict {
    /// 0 held, 1 idle, 2 broken.
    pub fn word(&self) -> u8 {
        match (self.full, self.breaking) {
            (0, _) => 1,
            (_, 0) => 0,
            _ => 2,
        }
    }

    /// Document 02, N7: of the whole numbers of hundredths on either side the nearer, of two as near the
    /// even one; 255 if idle.
    pub fn share(&self) -> u8 {
        let hundredfold = 100 * self.breaking;
        let Some(below) = hundredfold.checked_div(self.full) else {
            return 255;
        };
        let off = |share: &u64| (hundredfold.abs_diff(share * self.full), share % 2);
        let share = [below, below + 1].into_iter().min_by_key(off);
        share.expect("one of two") as u8
    }

    /// The 26 bytes that the tracker reads.
    pub fn bytes(&self) -> Vec<u8> {
        let mut bytes = vec![self.word()];
        bytes.extend(self.full.to_le_bytes());
        bytes.extend(self.breaking.to_le_bytes());
        bytes.extend(self.first);
        bytes.push(self.share());
        bytes
    }
}

/// The verdict on a rule, or the first refusal of the tables, the rule and the order.
pub fn judge(tables: &[u8], text: &[u8], order: &[u8]) -> Answer<Verdict> {
    let tables = tables::read(tables)?;
    let rule = rule::read(text)?;
    let order = read_order(&rule, order)?;
    Ok(walk(&tables, &rule, &order))
}

/// The verdict on an accepted rule in an accepted order.
pub fn walk(tables: &Tables, rule: &Rule, order: &[usize]) -> Verdict {
    let kinds = Kinds::of(rule).expect("an accepted rule has kinds");
    let mut judge = Judge {
        tables,
        rule,
        kinds,
        choice: vec![0; rule.variables.len()],
        verdict: Verdict {
            full: 0,
            breaking: 0,
            first: NO_CHOICE,
        },
    };
    // "A choice gives each variable one item of its sort": where there is none, there is no choice.
    if ceiling(tables, rule) > 0 {
        judge.try_all(order);
    }
    judge.verdict
}

/// Document 02, N5: "The ceiling is the product over the variables .. Without variables it is 1." No
/// walk tries more choices, in any order.
pub fn ceiling(tables: &Tables, rule: &Rule) -> u64 {
    choosable(tables, rule).iter().product()
}

/// The ceiling, but none count as one: the size that generated tables are cut by. By the ceiling, most
/// that are few enough would be those in which a variable has nothing to choose.
pub fn steps(tables: &Tables, rule: &Rule) -> u64 {
    let items = choosable(tables, rule);
    items.iter().map(|&items| items.max(1)).product()
}

/// How many items each variable has to choose from.
fn choosable(tables: &Tables, rule: &Rule) -> Vec<u64> {
    let kinds = Kinds::of(rule).expect("an accepted rule has kinds");
    let sets = kinds.sets();
    sets.map(|set| items(tables, set).len() as u64).collect()
}

/// The variable numbers in order, from 0: each once, and each after those that its set names.
pub fn read_order(rule: &Rule, order: &[u8]) -> Answer<Vec<usize>> {
    let mut known = vec![false; rule.variables.len()];
    if order.len() != known.len() {
        return Err(ORDER);
    }
    for &number in order {
        let place = (number as usize).wrapping_sub(1);
        let ready = place < known.len()
            && !known[place]
            && named(&rule.variables[place].set, rule)
                .iter()
                .all(|&v| known[v]);
        if !ready {
            return Err(ORDER);
        }
        known[place] = true;
    }
    Ok(order.iter().map(|&number| number as usize - 1).collect())
}

/// The variables written in a term's formula: `(X-{v})` has those of X as well.
pub fn named(term: &Term, rule: &Rule) -> Vec<usize> {
    match term {
        Term::Basic(_) => vec![],
        Term::One(number) => vec![*number],
        Term::Other(number) => {
            let mut names = named(&rule.variables[*number].set, rule);
            names.push(*number);
            names
        }
        Term::Call(_, argument) => named(argument, rule),
        Term::Call2(_, left, right) | Term::Meet(left, right) | Term::Join(left, right) => {
            let mut names = named(left, rule);
            names.extend(named(right, rule));
            names
        }
    }
}

struct Judge<'a> {
    tables: &'a Tables,
    rule: &'a Rule,
    kinds: Kinds,
    choice: Vec<usize>,
    verdict: Verdict,
}

impl Judge<'_> {
    /// Tries every choice of the variables in `order`, the last fastest, smallest item first.
    fn try_all(&mut self, order: &[usize]) {
        let Some((&variable, rest)) = order.split_first() else {
            return self.try_one();
        };
        for item in items(self.tables, self.kinds.set(variable)).items() {
            self.choice[variable] = item;
            self.try_all(rest);
        }
    }

    fn try_one(&mut self) {
        if !(0..self.choice.len()).all(|v| self.set(v).contains(self.choice[v])) {
            return;
        }
        self.verdict.full += 1;
        if self.rule.clauses.iter().all(|clause| self.holds(clause)) {
            return;
        }
        if self.verdict.breaking == 0 {
            for (place, &item) in self.verdict.first.iter_mut().zip(&self.choice) {
                *place = item as u8;
            }
        }
        self.verdict.breaking += 1;
    }

    fn set(&self, variable: usize) -> Set {
        self.value(&self.rule.variables[variable].set)
    }

    fn holds(&self, clause: &Clause) -> bool {
        match &clause.then {
            None => self.test(&clause.test),
            Some(then) => !self.test(&clause.test) || self.test(then),
        }
    }

    fn test(&self, test: &Test) -> bool {
        match test {
            Test::Member(item, set) => self.value(item).within(&self.value(set)),
            Test::Same(equal, left, right) => *equal == (self.value(left) == self.value(right)),
            Test::Empty(equal, term) => *equal == self.value(term).is_empty(),
            Test::Count(term, relation, bound) => {
                let right = match bound {
                    Bound::Number(number) => *number,
                    Bound::Count(other) => self.value(other).len(),
                };
                stands(self.value(term).len(), *relation, right)
            }
        }
    }

    /// A set is its items, an element the set of itself, a collection its words' positions.
    fn value(&self, term: &Term) -> Set {
        match term {
            Term::Basic(basic) => all(self.tables, *basic),
            Term::One(number) => match self.kinds.set(*number) {
                Kind::Collection(collection) => {
                    words(self.tables, collection)[self.choice[*number]]
                }
                _ => Set::single(self.choice[*number]),
            },
            Term::Other(number) => self
                .set(*number)
                .without(&Set::single(self.choice[*number])),
            Term::Call(function, argument) => self.call(*function, argument),
            Term::Call2(function, first, object) => {
                let (first, object) = (self.value(first), self.value(object));
                match function {
                    Function2::Operations => self.tables.operations_of(&first, &object),
                    Function2::Done => self.tables.done_by(&first, &object),
                }
            }
            Term::Meet(left, right) => self.value(left).and(&self.value(right)),
            Term::Join(left, right) => self.value(left).or(&self.value(right)),
        }
    }

    fn call(&self, function: Function, argument: &Term) -> Set {
        let tables = self.tables;
        let set = self.value(argument);
        match (function, self.sort(argument)) {
            (Function::User, Sort::R) => tables.users_of_roles(&set),
            (Function::User, _) => tables.users_of_sessions(&set),
            (Function::Roles, sort) => self.roles(sort, &set),
            (Function::RolesStar, Sort::P) => tables.seniors(&self.roles(Sort::P, &set)),
            (Function::RolesStar, sort) => tables.juniors(&self.roles(sort, &set)),
            (Function::Sessions, _) => tables.sessions_of_users(&set),
            (Function::Permissions, _) => tables.permissions_of_roles(&set),
            (Function::PermissionsStar, _) => tables.permissions_of_roles(&tables.juniors(&set)),
            (Function::Object, _) => tables.objects_of_permissions(&set),
        }
    }

    fn roles(&self, sort: Sort, set: &Set) -> Set {
        match sort {
            Sort::U => self.tables.roles_of_users(set),
            Sort::P => self.tables.roles_of_permissions(set),
            _ => self.tables.roles_of_sessions(set),
        }
    }

    fn sort(&self, term: &Term) -> Sort {
        match self.kinds.term(term) {
            Ok(Kind::Element(sort) | Kind::Set(sort)) => sort,
            _ => unreachable!("an accepted rule has no function of a collection"),
        }
    }
}

fn stands(left: usize, relation: Relation, right: usize) -> bool {
    match relation {
        Relation::Below => left < right,
        Relation::AtMost => left <= right,
        Relation::Above => left > right,
        Relation::AtLeast => left >= right,
        Relation::Equal => left == right,
        Relation::Unequal => left != right,
    }
}

/// The items that a variable has to choose from, by the kind of its set: all of its sort, or all
/// words.
fn items(tables: &Tables, set: Kind) -> Set {
    match set {
        Kind::Element(sort) | Kind::Set(sort) => all_of(tables, sort),
        Kind::Collection(collection) => Set::below(words(tables, collection).len()),
    }
}

/// The items of a sort. A leaver is none, and keeps the number.
fn all_of(tables: &Tables, sort: Sort) -> Set {
    match sort {
        Sort::U => tables.present,
        Sort::R => Set::below(tables.dominated.len()),
        Sort::Op => Set::below(tables.operations),
        Sort::Obj => Set::below(tables.objects),
        Sort::P => Set::below(tables.permissions()),
        Sort::S => Set::below(tables.sessions.len()),
    }
}

fn words(tables: &Tables, collection: Collection) -> &[Set] {
    match collection {
        Collection::Cr => &tables.cr,
        Collection::Cp => &tables.cp,
        Collection::Cu => &tables.cu,
    }
}

fn all(tables: &Tables, basic: Basic) -> Set {
    match basic {
        Basic::U => all_of(tables, Sort::U),
        Basic::R => all_of(tables, Sort::R),
        Basic::Op => all_of(tables, Sort::Op),
        Basic::Obj => all_of(tables, Sort::Obj),
        Basic::P => all_of(tables, Sort::P),
        Basic::S => all_of(tables, Sort::S),
        Basic::Cr => Set::below(tables.cr.len()),
        Basic::Cp => Set::below(tables.cp.len()),
        Basic::Cu => Set::below(tables.cu.len()),
    }
}
