//! Rules from the grammar, well-kinded and otherwise, and rules at the limits.

use rcl2000::MAX_RULE;
use reference::kind::{Collection, Kind, Sort};

use crate::damage;
use crate::random::Random;

const SORTS: [(&str, Sort); 6] = [
    ("U", Sort::U),
    ("R", Sort::R),
    ("OP", Sort::Op),
    ("OBJ", Sort::Obj),
    ("P", Sort::P),
    ("S", Sort::S),
];

const COLLECTIONS: [(&str, Collection); 3] = [
    ("CR", Collection::Cr),
    ("CP", Collection::Cp),
    ("CU", Collection::Cu),
];

/// The functions that give a set of a sort, and the sort that they take an element or a set of.
const CALLS: [(Sort, &str, Sort); 14] = [
    (Sort::U, "user", Sort::R),
    (Sort::U, "user", Sort::S),
    (Sort::R, "roles", Sort::U),
    (Sort::R, "roles", Sort::P),
    (Sort::R, "roles", Sort::S),
    (Sort::R, "roles*", Sort::U),
    (Sort::R, "roles*", Sort::P),
    (Sort::R, "roles*", Sort::S),
    (Sort::S, "sessions", Sort::U),
    (Sort::P, "permissions", Sort::R),
    (Sort::P, "permissions*", Sort::R),
    (Sort::Obj, "object", Sort::P),
    (Sort::Op, "operations", Sort::R),
    (Sort::Op, "done", Sort::U),
];

/// The rules of Tables I and II of source document 002, in document 01's spelling.
pub const PAPER: [&str; 10] = [
    "|(roles*(OE(U))&OE(CR))|<=1",
    "|(permissions(roles*(OE(U)))&OE(CP))|<=1",
    "|(permissions(roles*(OE(U)))&OE(CP))|<=1^|(permissions*(OE(R))&OE(CP))|<=1",
    "|(roles*(OE(U))&OE(CR))|<=1^|(permissions*(OE(R))&OE(CP))|<=1\
     ^(permissions(OE(R))&OE(CP))!={}=>(OE(R)&OE(CR))!={}",
    "|(roles*(OE(U))&OE(CR))|<=1^|(user(OE(CR))&OE(CU))|<=1",
    "|(roles*(OE(U))&OE(CR))|<=1^|(permissions*(OE(R))&OE(CP))|<=1\
     ^(permissions(OE(R))&OE(CP))!={}=>(OE(R)&OE(CR))!={}\
     ^|(roles*(OE(U))&OE(CR))|<=1^|(user(OE(CR))&OE(CU))|<=1",
    "|(roles*(sessions(OE(U)))&OE(CR))|<=1",
    "|(roles*(sessions(OE(OE(CU))))&OE(CR))|<=1",
    "|(roles*(OE(sessions(OE(U))))&OE(CR))|<=1",
    "|(roles*(OE(sessions(OE(OE(CU)))))&OE(CR))|<=1",
];

/// Rules of a committee, each of several that share their choices: C1 to C9.
pub const COMMITTEE: [&str; 9] = [
    "|(roles*(OE(U))&OE(CR))|<=1^|(permissions*(OE(R))&OE(CP))|<=1\
     ^(permissions(OE(R))&OE(CP))!={}=>(OE(R)&OE(CR))!={}^|(user(OE(CR))&OE(CU))|<=1\
     ^|(roles*(OE(S))&OE(CR))|<=1",
    "|(roles*(OE(U))&OE(CR))|<=1^|(roles*(OE(sessions(OE(U))))&OE(CR))|<=1\
     ^|(permissions(roles*(OE(U)))&OE(CP))|<=1^|(user(OE(CR))&OE(CU))|<=1\
     ^|(roles*(OE(OE(CU)))&OE(CR))|<=1",
    "|(roles*(OE(U))&OE(CR))|<=1^|(permissions*(OE(R))&OE(CP))|<=1^|(user(OE(S))&OE(CU))|<=1",
    "|(roles*(OE(U))&OE(CR))|<=1^|(roles*(OE(S))&OE(CR))|<=1^|(OE(R)&OE(CR))|<=1\
     ^|(roles*(OE(P))&OE(CR))|<=1^|(user(OE(CR))&OE(CU))|<=1\
     ^|(permissions(OE(CR))&OE(CP))|<=1",
    "|(roles*(OE(U))&OE(CR))|<=1^|(permissions(OE(CR))&OE(CP))|<=1\
     ^|(permissions*(OE(R))&OE(CP))|<=1^|(user(OE(R))&OE(CU))|<=1^|(user(OE(S))&OE(CU))|<=1\
     ^|(roles(OE(S))&roles(OE(P)))|<=9^OE(OBJ)@object(OE(P))",
    "|(roles*(OE(U))&OE(CR))|<=1^|(user(OE(CR))&OE(CU))|<=1^|(user(OE(R))&OE(CU))|<=1\
     ^|(permissions*(OE(R))&OE(CP))|<=1^|(permissions(roles*(OE(U)))&OE(CP))|<=1\
     ^|(roles*(OE(S))&OE(CR))|<=1",
    "|(roles*(OE(sessions(OE(OE(CU)))))&OE(CR))|<=1^|(roles*(OE(U))&OE(CR))|<=1\
     ^|(permissions*(OE(R))&OE(CP))|<=1",
    "OE(OE(CR))@roles(OE(U))=>(AO(OE(CR))&roles(OE(U)))={}\
     ^OE(OE(CP))@permissions(roles*(OE(U)))=>(AO(OE(CP))&permissions(roles*(OE(U))))={}\
     ^|(user(OE(CR))&OE(CU))|<=1",
    "|((roles(OE(U))+roles(OE(S)))&OE(CR))|<=1\
     ^|((permissions(OE(R))+permissions(OE(OE(CR))))&OE(CP))|<=2^|(roles*(OE(U))&OE(CR))|<=1",
];

/// Rules of who did what, of at most three variables; the first is document 02's.
pub const DONE: [&str; 10] = [
    "|done(OE(U),OE(OBJ))|<=1",
    "done(U,OE(OBJ))={}",
    "|done(OE(CU),OE(OBJ))|<=1",
    "done(OE(U),OE(OBJ))=operations(roles*(OE(U)),OE(OBJ))",
    "(done(OE(U),OE(OBJ))&operations(roles(OE(U)),OE(OBJ)))=done(OE(U),OE(OBJ))",
    "|done(user(OE(R)),OE(OBJ))|>=|operations(OE(R),OE(OBJ))|",
    "OE(OP)@done(AO(U),OE(OBJ))=>OE(OP)@operations(R,OE(OBJ))",
    "done(user(OE(S)),OE(object(P)))!={}",
    "OE(done(OE(U),OE(OBJ)))@OP",
    "|(done(OE(U),OE(OBJ))+operations(roles*(OE(U)),OE(OBJ)))|<=1",
];

/// A rule of some sort: from the grammar, damaged, or at a limit.
pub fn any(random: &mut Random) -> Vec<u8> {
    let mut text = match random.below(10) {
        0 => at_limit(random),
        1 => random.pick(&PAPER).to_string(),
        2 => grown(random, 8),
        _ => grown(random, 0),
    }
    .into_bytes();
    if random.once_in(4) {
        for _ in 0..random.between(1, 3) {
            damage::text(random, &mut text);
        }
    }
    text
}

/// A rule from the grammar. Where `wrong` is not 0, one term in `wrong` has a kind at random.
pub fn grown(random: &mut Random, wrong: usize) -> String {
    let mut grower = Grower {
        random,
        wrong,
        chosen: Vec::new(),
    };
    let clauses = [1, 1, 1, 2, 2, 3, 4][grower.random.below(7)];
    let clauses: Vec<String> = (0..clauses).map(|_| grower.clause()).collect();
    clauses.join("^")
}

struct Grower<'a> {
    random: &'a mut Random,
    wrong: usize,
    /// The arguments of `OE` and `AO` so far, to be chosen from again.
    chosen: Vec<(Kind, String)>,
}

impl Grower<'_> {
    fn clause(&mut self) -> String {
        let test = self.test();
        if self.random.once_in(3) {
            return format!("{test}=>{}", self.test());
        }
        test
    }

    fn test(&mut self) -> String {
        let depth = self.random.below(4);
        let sign = *self.random.pick(&["=", "!="]);
        match self.random.below(4) {
            0 => {
                let sort = self.random.pick(&SORTS).1;
                let item = self.term(Kind::Element(sort), depth);
                format!("{item}@{}", self.term(Kind::Set(sort), depth))
            }
            1 => {
                let kind = self.kind();
                let left = self.term(kind, depth);
                format!("{left}{sign}{}", self.term(kind, depth))
            }
            2 => format!("{}{sign}{{}}", self.countable(depth)),
            _ => {
                let left = self.countable(depth);
                let relation = *self.random.pick(&["<", "<=", ">", ">=", "=", "!="]);
                if self.random.once_in(3) {
                    return format!("|{left}|{relation}|{}|", self.countable(depth));
                }
                let number = [self.random.below(4), self.random.below(65)][self.random.below(2)];
                format!("|{left}|{relation}{number}")
            }
        }
    }

    fn kind(&mut self) -> Kind {
        let sort = self.random.pick(&SORTS).1;
        match self.random.below(5) {
            0 | 1 => Kind::Element(sort),
            2 | 3 => Kind::Set(sort),
            _ => Kind::Collection(self.random.pick(&COLLECTIONS).1),
        }
    }

    /// A set or a collection.
    fn countable(&mut self, depth: usize) -> String {
        let kind = match self.kind() {
            Kind::Element(sort) => Kind::Set(sort),
            kind => kind,
        };
        self.term(kind, depth)
    }

    fn term(&mut self, kind: Kind, depth: usize) -> String {
        let kind = match self.wrong {
            0 => kind,
            wrong if self.random.once_in(wrong) => self.kind(),
            _ => kind,
        };
        match kind {
            Kind::Element(Sort::U) if depth > 0 && self.random.once_in(4) => {
                format!("user({})", self.term(Kind::Element(Sort::S), depth - 1))
            }
            Kind::Element(sort) => self.chosen("OE", Kind::Set(sort), depth),
            Kind::Set(sort) => self.set(sort, depth),
            Kind::Collection(collection) => self.collection(collection, depth),
        }
    }

    fn set(&mut self, sort: Sort, depth: usize) -> String {
        let basic = name(&SORTS, sort);
        let of = COLLECTIONS.iter().find(|(_, c)| c.sort() == sort);
        match self.random.below(8) {
            0 => self.chosen("AO", Kind::Set(sort), depth),
            1 | 2 if of.is_some() => {
                let (_, collection) = of.unwrap();
                self.chosen("OE", Kind::Collection(*collection), depth)
            }
            3 | 4 if depth > 0 => {
                let sign = *self.random.pick(&["&", "+"]);
                let left = self.either(sort, depth - 1);
                format!("({left}{sign}{})", self.either(sort, depth - 1))
            }
            _ if depth > 0 => self.call(sort, depth - 1),
            _ => basic.to_string(),
        }
    }

    fn call(&mut self, sort: Sort, depth: usize) -> String {
        let calls: Vec<_> = CALLS.iter().filter(|(of, _, _)| *of == sort).collect();
        let (_, name, from) = *self.random.pick(&calls);
        let argument = self.either(*from, depth);
        // Of two terms are those that give operations.
        if sort == Sort::Op {
            let object = self.term(Kind::Element(Sort::Obj), depth);
            return format!("{name}({argument},{object})");
        }
        format!("{name}({argument})")
    }

    /// An element or a set of a sort.
    fn either(&mut self, sort: Sort, depth: usize) -> String {
        let kind = [Kind::Element(sort), Kind::Set(sort)][self.random.below(2)];
        self.term(kind, depth)
    }

    fn collection(&mut self, collection: Collection, depth: usize) -> String {
        let kind = Kind::Collection(collection);
        match self.random.below(4) {
            0 => self.chosen("AO", kind, depth),
            1 if depth > 0 => {
                let sign = *self.random.pick(&["&", "+"]);
                let left = self.term(kind, depth - 1);
                format!("({left}{sign}{})", self.term(kind, depth - 1))
            }
            _ => name(&COLLECTIONS, collection).to_string(),
        }
    }

    /// `OE` or `AO` of a set or collection, often one that was chosen from before.
    fn chosen(&mut self, function: &str, kind: Kind, depth: usize) -> String {
        let before: Vec<_> = self.chosen.iter().filter(|(k, _)| *k == kind).collect();
        if !before.is_empty() && !self.random.once_in(3) {
            return format!("{function}({})", self.random.pick(&before).1);
        }
        let argument = self.term(kind, depth.saturating_sub(1));
        self.chosen.push((kind, argument.clone()));
        format!("{function}({argument})")
    }
}

fn name<T: PartialEq>(names: &[(&'static str, T)], item: T) -> &'static str {
    names.iter().find(|(_, other)| *other == item).unwrap().0
}

/// A rule of clauses of the papers, of the committee and of who did what, with 5 to 8 variables.
pub fn joined(random: &mut Random) -> String {
    let rules = PAPER.iter().chain(&COMMITTEE).chain(&DONE);
    let pool: Vec<&str> = rules.flat_map(|rule| rule.split('^')).collect();
    loop {
        let count = random.between(2, 6);
        let clauses: Vec<&str> = (0..count).map(|_| *random.pick(&pool)).collect();
        let text = clauses.join("^");
        let read = reference::rule::read(text.as_bytes());
        if read.is_ok_and(|rule| rule.variables.len() >= 5) {
            return text;
        }
    }
}

/// A rule about as long, as deep or with as many choices as is allowed, or a little more.
pub fn at_limit(random: &mut Random) -> String {
    match random.below(7) {
        0 => long(random),
        1 => deep(random),
        2 => below_zero(random),
        3 => many_choices(random),
        4 => nested_choices(random),
        5 => wide_formula(random),
        _ => numbered(random),
    }
}

/// A rule of 254 to 258 bytes: a shorter one, filled up with clauses of 4 and 5 bytes.
fn long(random: &mut Random) -> String {
    let length = random.between(254, 258);
    let text = grown(random, 0);
    let missing = length.saturating_sub(text.len());
    if missing < 15 {
        return text;
    }
    let fives = missing % 4;
    text + &"^R!=R".repeat(fives) + &"^U=U".repeat((missing - 5 * fives) / 4)
}

/// A rule with 31 to 34 brackets open at once.
fn deep(random: &mut Random) -> String {
    let depth = random.between(31, 34);
    let (open, inner) = *random.pick(&[
        (["(U&", "(U+"], "U"),
        (["roles(", "user("], "U"),
        (["permissions*(", "roles*("], "R"),
        (["(", "("], "U"),
    ]);
    let opened: String = (0..depth).map(|i| open[i % 2]).collect();
    format!("|{opened}{inner}{}|>0", ")".repeat(depth))
}

/// Brackets that close before they open.
fn below_zero(random: &mut Random) -> String {
    let closed = random.below(4);
    let opened = 31 + closed + random.below(4);
    format!("{}{}U", ")".repeat(closed), "(".repeat(opened))
}

/// A rule with 7 to 10 choices side by side.
fn many_choices(random: &mut Random) -> String {
    let mut sets = vec![
        "U",
        "R",
        "OP",
        "OBJ",
        "P",
        "S",
        "CR",
        "CP",
        "CU",
        "roles(U)",
        "user(R)",
        "sessions(U)",
        "permissions(R)",
        "object(P)",
        "(U&U)",
        "(R+R)",
        "roles*(S)",
        "done(U,OE(OBJ))",
    ];
    random.shuffle(&mut sets);
    let count = random.between(7, 10);
    let tests: Vec<String> = sets[..count]
        .iter()
        .map(|set| match random.below(3) {
            0 => format!("AO({set})={{}}"),
            1 => format!("OE({set})=OE({set})"),
            _ => format!("|AO({set})|<3"),
        })
        .collect();
    tests.join("^")
}

/// A rule with 6 to 10 choices inside each other.
fn nested_choices(random: &mut Random) -> String {
    let mut set = random.pick(&["U", "R", "CR", "CP", "roles(U)"]).to_string();
    for _ in 0..random.between(6, 10) {
        set = match random.below(3) {
            0 => format!("AO(({set}+{set}))"),
            _ => format!("AO({set})"),
        };
        if set.len() > 120 {
            break;
        }
    }
    format!("|{set}|>=0")
}

/// A rule with a long formula: choices from a long set, inside each other or named many times.
fn wide_formula(random: &mut Random) -> String {
    let mut set = random
        .pick(&["U", "OBJ", "S", "permissions*(R)"])
        .to_string();
    let most = random.between(2, 240);
    while 2 * set.len() + 3 <= most {
        set = format!("({set}+{set})");
    }
    for _ in 0..random.between(3, 8) {
        set = format!("AO({set})");
    }
    let mut text = format!("{set}={{}}");
    while text.len() + set.len() + 5 <= random.between(240, 256) {
        text += &format!("^{set}!={{}}");
    }
    text
}

/// A rule of 256 bytes that makes so many choices inside each other from the longest set, which is what
/// makes its formula the longest of such rules.
pub fn longest_formula(choices: usize) -> String {
    let length = MAX_RULE - choices * "AO()".len() - "={}".len();
    let set = union(1 + (length - 1) / "(U+)".len());
    inside(choices).replace('U', &set) + "={}"
}

/// All users but so many, each chosen from those that are left.
pub fn inside(choices: usize) -> String {
    "AO(".repeat(choices) + "U" + &")".repeat(choices)
}

/// So many users, none of whom is chosen from a set that names another.
pub fn apart(choices: usize) -> String {
    let one = format!("OE({})", union(choices));
    match choices {
        1 => one,
        _ => format!("({one}+{})", apart(choices - 1)),
    }
}

/// The union of U with itself, so many times U.
fn union(times: usize) -> String {
    match times {
        0 | 1 => "U".to_string(),
        _ => format!("({}+{})", union(times / 2), union(times - times / 2)),
    }
}

/// A count held against a number in and out of range.
fn numbered(random: &mut Random) -> String {
    let numbers = [
        "0",
        "1",
        "9",
        "10",
        "63",
        "64",
        "65",
        "00",
        "01",
        "064",
        "99",
        "100",
        "256",
        "640",
        "18446744073709551616",
        "",
        "-1",
        "+1",
        "1 ",
        "6 4",
    ];
    let relation = *random.pick(&["<", "<=", ">", ">=", "=", "!=", "==", "=<", "=>", "!"]);
    let count = *random.pick(&["|U|", "|OE(CR)|", "|CR|", "|OE(U)|", "U", "||"]);
    format!("{count}{relation}{}", random.pick(&numbers))
}
