//! Inputs that are meant to hurt: long, deep, endless when written out, on the largest tables.

use rcl2000::{MAX_RULE, MAX_RULES, MIN_TABLES};
use reference::sessions::Change;

use crate::formulas::doubling;
use crate::hold::Question;
use crate::leavers::STILL;
use crate::random::Random;
use crate::tables::Plain;
use crate::{formulas, orders, pages, rules, scaled, sessions, tables};

/// The length of the longest inputs.
const MEGABYTES: usize = 4 << 20;

/// All of them, made part by part while they are asked for: together they have more than a gigabyte.
pub fn questions() -> impl Iterator<Item = Question> {
    let parts: [fn() -> Vec<Question>; 16] = [
        brackets,
        nested,
        deepest_rules,
        deepest_candidates,
        exponential,
        generated,
        largest,
        second_plans,
        long_pages,
        last_roles,
        long_forecasts,
        nothing_to_choose,
        nobody_present,
        named_last,
        long_states,
        long_sheets,
    ];
    repeated().chain(parts.into_iter().flat_map(|part| part()))
}

/// The same text as a rule, as a formula, as tables, a rule and an order, and as a page; as tables for the
/// rank test, too, and as tables and as a rule of a forecast and of a start; as a state, and as the rule and the tables
/// in one; as the tables of a sheet, and as its rules, for the first line and for the total behind one.
fn everywhere(text: Vec<u8>) -> Vec<Question> {
    let nobody = vec![0; MIN_TABLES];
    vec![
        Question::Reduce(text.clone().into()),
        Question::Rebuild(text.clone().into()),
        Question::judge(text.clone(), b"U=U".to_vec(), vec![]),
        Question::judge(nobody.clone(), text.clone(), vec![]),
        Question::judge(nobody.clone(), b"U=U".to_vec(), text.clone()),
        Question::judge_page(text.clone(), b"U=U".to_vec()),
        Question::judge_page(nobody.clone(), text.clone()),
        Question::RankStep(text.clone().into()),
        Question::forecast(text.clone(), b"U=U".to_vec()),
        Question::forecast(nobody.clone(), text.clone()),
        Question::sessions_start(text.clone(), b"S=S".to_vec()),
        Question::sessions_start(nobody.clone(), text.clone()),
        Question::session(text.clone(), OPEN),
        Question::session(text.clone(), CLOSE),
        Question::session(sessions::state(b"S=S", &text), OPEN),
        Question::session(sessions::state(longest_part(&text), &nobody), CLOSE),
        Question::sheet_line(text.clone(), 0, b"U=U".to_vec(), 1),
        Question::sheet_line(nobody.clone(), 0, text.clone(), 1),
        Question::sheet_line(nobody, 0, text, 2),
    ]
}

/// A session of the first user, with all roles that there may be; and the first session.
const OPEN: Change = Change::Open {
    user: 0,
    roles: u64::MAX,
};
const CLOSE: Change = Change::Close { number: 0 };

/// As much of a text as a state can have as its rule.
fn longest_part(text: &[u8]) -> &[u8] {
    &text[..text.len().min(u16::MAX.into())]
}

/// Megabytes of one thing.
fn repeated() -> impl Iterator<Item = Question> {
    [
        "(", ")", "[", "[v1@", "[v1@U]", ":", "U", "^U=U", "OE(", "AO(", "v1", "-{v1})", "9", "\0",
        "\u{1}", "@", "\n", "U=U\n",
    ]
    .into_iter()
    .flat_map(|piece| everywhere(piece.repeat(MEGABYTES / piece.len()).into_bytes()))
}

/// Brackets nested as deep as 4,096 and 4,097 bytes allow, and as 256 and 257 do.
fn brackets() -> Vec<Question> {
    let mut questions = Vec::new();
    for length in [
        31, 32, 33, 255, 256, 257, 2_000, 4_095, 4_096, 4_097, 100_000,
    ] {
        for open in [
            "(",
            "(U&",
            "roles(",
            "OE(",
            "AO(",
            "operations(",
            "done(",
            "|",
            "((U-{v1})&",
        ] {
            for before in ["", ":", "[v1@", "[v1@U]:", "|", ":|"] {
                let mut text = before.to_string() + &open.repeat(length / open.len());
                text.truncate(length);
                questions.extend(everywhere(text.clone().into_bytes()));
                let closed = text + "U" + &")".repeat(length / open.len()) + "=U";
                questions.push(Question::Rebuild(closed.clone().into_bytes().into()));
                questions.push(Question::Reduce(closed.into_bytes().into()));
            }
        }
    }
    questions
}

/// Brackets 31, 32 and 33 deep, around a term of a rule, of a formula's rule, and of a chain of sets each of
/// which names the one before it, so that its tree is eight times as deep as its brackets.
fn nested() -> Vec<Question> {
    let mut questions = Vec::new();
    for depth in [31, 32, 33] {
        for (open, close) in [
            ("(", "&U)"),
            ("(U+", ")"),
            ("OE(", ")"),
            ("AO(", ")"),
            ("roles(", ")"),
            ("operations(", ",U)"),
            ("operations(U,", ")"),
            ("done(", ",U)"),
            ("done(U,", ")"),
            ("(", "-{v1})"),
        ] {
            let around = |term: &str| open.repeat(depth) + term + &close.repeat(depth);
            let rule = around("U") + "=" + &around("R");
            questions.extend(everywhere(rule.clone().into_bytes()));
            questions.push(Question::Rebuild(
                (":".to_string() + &rule).into_bytes().into(),
            ));
            let mut chain = String::from("[v1@U]");
            for digit in 2..9 {
                chain += &format!("[v{digit}@{}]", around(&format!("v{}", digit - 1)));
            }
            chain += &format!(":{}=U", around("v8"));
            questions.push(Question::Rebuild(chain.into_bytes().into()));
        }
    }
    questions
}

/// What a term is wrapped in, four bytes for a bracket.
const WRAPS: [(&str, &str); 3] = [("(U&", ")"), ("(U+", ")"), ("(", "&U)")];

/// Rules whose last term has as many brackets as are allowed, all others of all others innermost or not, behind as
/// many clauses as 256 bytes hold.
fn deepest() -> Vec<String> {
    let mut rules = Vec::new();
    for (open, close) in WRAPS {
        for (choices, depth) in [(0, 1), (0, 16), (0, 31), (0, 32), (8, 23), (8, 24)] {
            let last = open.repeat(depth) + &rules::inside(choices) + &close.repeat(depth) + "={}";
            rules.push("U=U^".repeat((MAX_RULE - last.len()) / 4) + &last);
        }
    }
    rules
}

/// Such rules, and their formulas: clauses are written one inside the other, too.
fn deepest_rules() -> Vec<Question> {
    let mut questions = Vec::new();
    for rule in deepest() {
        let formula = reference::fast::reduce(rule.as_bytes());
        let formula = formula.expect("made to be accepted");
        questions.push(Question::Rebuild(formula.into()));
        questions.extend(everywhere(rule.into_bytes()));
    }
    questions
}

/// Formulas for which a text of about 256 bytes is written before it is seen to be no rule: with the set of its
/// variable, its term is twice as deep as is allowed.
fn deepest_candidates() -> Vec<Question> {
    let mut questions = Vec::new();
    for (open, close) in WRAPS {
        let around = |term: &str, depth: usize| open.repeat(depth) + term + &close.repeat(depth);
        for outer in 29..=32 {
            for inner in 29..=32 {
                let text = format!("[v1@{}]:{}=U", around("U", inner), around("v1", outer));
                questions.push(Question::Rebuild(text.into_bytes().into()));
            }
        }
    }
    questions
}

/// Short formulas whose rules would be endless.
fn exponential() -> Vec<Question> {
    let mut questions = Vec::new();
    for first in ["U", "(U+U)", "CR", "roles(U)", "OBJ"] {
        for next in [
            "({v}+{v})",
            "({p}-{{v}})",
            "(({p}-{{v}})+({p}-{{v}}))",
            "roles(({v}&{v}))",
            "((({v}+{v})+({v}+{v}))+(({v}+{v})+({v}+{v})))",
        ] {
            for count in [2, 5, 8, 9, 20, 60] {
                let text = doubling(first, next, count);
                questions.push(Question::Rebuild(text.into_bytes().into()));
            }
        }
    }
    questions
}

fn generated() -> Vec<Question> {
    let random = &mut Random::new(9);
    (0..scaled(3_000))
        .flat_map(|_| {
            [
                Question::Rebuild(formulas::hurtful(random).into()),
                Question::Reduce(rules::at_limit(random).into_bytes().into()),
            ]
        })
        .collect()
}

/// The rules of source document 002 on the largest tables, as far as they have few choices.
fn largest() -> Vec<Question> {
    let tables = tables::full(&mut Random::new(10)).bytes();
    let rules = rules::PAPER.iter().filter(|rule| rule.len() < 45);
    rules
        .map(|rule| Question::judge_in_turn(tables.clone(), rule))
        .collect()
}

/// Rules that are counted along an order of their own and break, so that along the caller's another plan is laid:
/// `judge` and a page go deepest there.
const SECOND_PLANS: [&str; 4] = [
    "OE(R)@roles(OE(U))^|roles(OE(S))|<2",
    "OE(OP)@done(OE(U),OE(OBJ))^|roles(OE(S))|<2",
    "OE(U)@U^OE(OBJ)@OBJ^|roles(OE(S))|<2^|done(OE(U),OE(OBJ))|<1",
    "OE(OP)@operations(OE(R),OE(OBJ))^|(user(OE(R))&OE(CU))|<1",
];

/// The largest tables, in which all have all roles.
fn all_roles(random: &mut Random) -> Plain {
    Plain {
        roles: (0..64).map(|role| 1 << role).collect(),
        users: vec![u64::MAX; 64],
        sessions: (0..64).map(|user| (user, u64::MAX)).collect(),
        permissions: vec![u64::MAX; 64],
        ..tables::full(random)
    }
}

/// Such rules in the order 1, 2, .. and in others, as lines alone, and on pages whose lines share a walk, on tables in
/// which all have all roles.
fn second_plans() -> Vec<Question> {
    let random = &mut Random::new(26);
    let tables = all_roles(random).bytes();
    let mut questions = Vec::new();
    for rule in SECOND_PLANS {
        let read = reference::rule::read(rule.as_bytes()).expect("an accepted rule");
        questions.push(Question::judge_in_turn(tables.clone(), rule));
        for _ in 0..4 {
            let order = orders::admissible(random, &read);
            questions.push(Question::judge(tables.clone(), rule.into(), order));
        }
        for page in [
            rule.to_string(),
            format!("{rule}\n{rule}^U=U"),
            SECOND_PLANS.join("\n"),
        ] {
            questions.push(Question::judge_page(tables.clone(), page.into()));
        }
    }
    questions
}

/// A user with a role, and two sessions.
fn two_sessions() -> Plain {
    Plain {
        roles: vec![1],
        users: vec![1],
        sessions: vec![(0, 1); 2],
        ..Plain::default()
    }
}

/// What sessions that come and go are judged by at the greatest length or depth: rules that mention S, on a few sessions,
/// and those that need another plan, or are source document 002's, on as many as there may be.
fn long_states() -> Vec<Question> {
    let random = &mut Random::new(27);
    let (few, all) = (two_sessions(), all_roles(random));
    let longest = (1..=8).map(rules::longest_formula);
    let of_sessions = deepest().into_iter().chain(longest);
    let of_sessions = of_sessions.map(|rule| (&few, rule.replace('U', "S")));
    let paper = rules::PAPER.iter().filter(|rule| rule.len() < 45);
    let on_all = SECOND_PLANS.iter().chain(paper);
    let on_all = on_all.map(|rule| (&all, rule.to_string()));
    of_sessions
        .chain(on_all)
        .flat_map(|(plain, rule)| coming_and_going(plain, &rule))
        .collect()
}

/// A start; on its state, where there may be no room for one more, a session opened and one closed; and both where one
/// was closed.
fn coming_and_going(plain: &Plain, rule: &str) -> Vec<Question> {
    let start = Question::sessions_start(plain.bytes(), rule.into());
    let state = start.fast().expect("made to be accepted");
    let closed = reference::fast::sessions::next(&state, CLOSE).expect("a session is open");
    let roles = plain.users[0];
    let open = Change::Open { user: 0, roles };
    let states = [state, closed];
    let calls = states.map(|state| [open, CLOSE].map(|change| (state.clone(), change)));
    let calls = calls.into_iter().flatten();
    let mut questions = vec![start];
    questions.extend(calls.map(|(state, change)| Question::session(state, change)));
    questions
}

/// What a reader's lines go deepest for: rules of the greatest length or depth on a user with two sessions; those that
/// need another plan, and source document 002's, on the largest tables for all users and for all but one; eight users
/// for a reader of nobody; each alone, and all of them in the total.
fn long_sheets() -> Vec<Question> {
    let random = &mut Random::new(28);
    let all = all_roles(random).bytes();
    let longest = (1..=8).map(rules::longest_formula);
    let deepest: Vec<String> = deepest().into_iter().chain(longest).collect();
    let paper = rules::PAPER.iter().filter(|rule| rule.len() < 45);
    let plans: Vec<String> = SECOND_PLANS
        .iter()
        .chain(paper)
        .map(|rule| rule.to_string())
        .collect();
    let nobody: Vec<String> = [rules::inside(7), rules::apart(7)]
        .map(|users| format!("OE({users})@U"))
        .to_vec();
    let empty = vec![String::new(); MAX_RULES];
    [
        (two_sessions().bytes(), 1, deepest),
        (all.clone(), u64::MAX, plans.clone()),
        (all.clone(), !LAST, plans),
        (all.clone(), 0, nobody),
        (all, LAST, empty),
    ]
    .into_iter()
    .flat_map(|(tables, reader, rules)| sheet_of(tables, reader, &rules))
    .collect()
}

/// The lines of a sheet, of which no more than a few where there are many, its total, and the place behind it.
fn sheet_of(tables: Vec<u8>, reader: u64, rules: &[String]) -> Vec<Question> {
    let (count, file) = (rules.len(), rules.join("\n") + "\n");
    let places = (1..=count).step_by(1 + count / 100);
    let places = places.chain([count + 1, count + 2]);
    places
        .map(|place| Question::sheet_line(tables.clone(), reader, file.clone().into(), place))
        .collect()
}

/// The largest tables, whose roles are a chain, and that chain with one step of the rank test failed by
/// its last roles alone.
fn last_roles() -> Vec<Question> {
    let chain = tables::chain();
    // Role 63 misses itself; it misses role 0; roles 62 and 63 have one row.
    let ends = [chain[63], chain[62], chain[63] - 1];
    let mut hierarchies: Vec<Vec<u64>> = ends
        .iter()
        .map(|&end| [&chain[..63], &[end]].concat())
        .collect();
    hierarchies.push([&chain[..62], &[chain[63]; 2]].concat());
    let plain = tables::full(&mut Random::new(17));
    let with = |roles| Plain {
        roles,
        ..plain.clone()
    };
    let tables = hierarchies.into_iter().map(|roles| with(roles).bytes());
    tables
        .map(|bytes| Question::RankStep(bytes.into()))
        .collect()
}

/// Rules that are as long, as deep or with as many choices as is allowed, and of these the ones with the
/// longest formulas, on the largest tables.
fn long_forecasts() -> Vec<Question> {
    let random = &mut Random::new(20);
    let tables = tables::full(random).bytes();
    let rules = (0..scaled(1_000)).map(|_| rules::at_limit(random));
    let rules = rules.chain((1..=8).map(rules::longest_formula));
    rules
        .map(|rule| Question::forecast(tables.clone(), rule.into_bytes()))
        .collect()
}

/// Sets that are empty where there are users alone, and their sorts; `X` stands for users.
const EMPTY: [(&str, &str); 4] = [
    ("roles(X)", "R"),
    ("sessions(X)", "S"),
    ("permissions(roles(X))", "P"),
    ("object(permissions(roles(X)))", "OBJ"),
];

/// Eight variables: seven users, inside each other or apart, and behind them one that has no item to choose
/// but names them all. Where this is walked, it takes hours.
fn nothing_to_choose() -> Vec<Question> {
    let random = &mut Random::new(23);
    let alone = Plain {
        users: vec![0; 64],
        ..Plain::default()
    };
    let without_sessions = Plain {
        sessions: vec![],
        ..tables::full(random)
    };
    let mut questions = Vec::new();
    for users in [rules::inside(7), rules::apart(7)] {
        for (set, sort) in EMPTY {
            let chosen = set.replace('X', &users);
            let tables = match sort {
                "S" => &without_sessions,
                _ => &alone,
            };
            questions.extend(empty(random, tables, &chosen, sort));
        }
    }
    questions
}

/// The last of 64 users.
const LAST: u64 = 1 << 63;

/// All users left, or all but the last: eight users, inside each other or apart, of nobody or of one.
fn nobody_present() -> Vec<Question> {
    let random = &mut Random::new(24);
    let mut questions = Vec::new();
    for left in [u64::MAX, !LAST] {
        let mut plain = tables::full(random);
        plain.leave(random, left);
        for users in [rules::inside(7), rules::apart(7)] {
            questions.extend(empty(random, &plain, &users, "U"));
        }
    }
    questions
}

/// The largest tables, in which the last user left and one thing is still there, by each call that reads tables.
fn named_last() -> Vec<Question> {
    let random = &mut Random::new(25);
    let mut plain = tables::full(random);
    plain.leave(random, LAST);
    let kept = STILL.map(|still| {
        let mut plain = plain.clone();
        plain.keep(random, still);
        plain.bytes()
    });
    let asked = |tables: Vec<u8>| {
        [
            Question::judge(tables.clone(), b"U=U".to_vec(), vec![]),
            Question::judge_page(tables.clone(), b"U=U".to_vec()),
            Question::RankStep(tables.clone().into()),
            Question::forecast(tables.clone(), b"U=U".to_vec()),
            Question::sessions_start(tables.clone(), b"U=U".to_vec()),
            Question::session(sessions::state(b"U=U", &tables), OPEN),
            Question::session(sessions::state(b"U=U", &tables), CLOSE),
            Question::sheet_line(tables.clone(), u64::MAX, b"U=U".to_vec(), 1),
        ]
    };
    kept.into_iter().flat_map(asked).collect()
}

/// A choice from the empty set, in several orders, and on a page beside lines that choose alike and one that
/// does not.
fn empty(random: &mut Random, tables: &Plain, set: &str, sort: &str) -> Vec<Question> {
    let rule = format!("OE({set})@{sort}");
    let read = reference::rule::read(rule.as_bytes()).expect("made to be accepted");
    let judged = |order| Question::judge(tables.bytes(), rule.clone().into(), order);
    let mut questions: Vec<Question> = (0..4)
        .map(|_| judged(orders::admissible(random, &read)))
        .collect();
    let page = format!("{rule}\nAO({set})={{}}\nAO(U)={{}}\nAO({set})!={{}}");
    questions.push(Question::judge_page(tables.bytes(), page.into()));
    questions
}

/// Pages of 32 lines that are as long as they may be: with eight variables and as many terms as they
/// have room for, all in one part, in parts that almost agree, and in parts of thousands of bytes; the
/// papers' and others' rules; bounds on one count on the largest tables.
fn long_pages() -> Vec<Question> {
    let random = &mut Random::new(15);
    let small: Vec<Vec<u8>> = (0..3)
        .map(|most| tables::of_size(random, most).bytes())
        .collect();
    let mut pages: Vec<String> = (0..scaled(200)).map(|_| many_terms(random)).collect();
    pages.extend((0..scaled(200)).map(|_| at_limits(random)));
    let mut questions = Vec::new();
    for page in pages {
        for tables in &small {
            questions.push(Question::judge_page(tables.clone(), page.clone().into()));
        }
    }
    let largest = tables::full(random).bytes();
    for count in ["|(roles(OE(U))&OE(CR))|<=", "|(roles*(OE(U))&OE(CR))|>"] {
        let page = pages::bounds(count);
        questions.push(Question::judge_page(largest.clone(), page.into()));
    }
    questions
}

/// A page of 32 rules of at most 256 bytes with the same eight choices, in one order or in several, and
/// terms at random.
fn many_terms(random: &mut Random) -> String {
    let mut choices = [
        "OE(U)@U",
        "OE(R)@R",
        "OE(OP)@OP",
        "OE(OBJ)@OBJ",
        "OE(P)@P",
        "OE(S)@S",
        "OE(CR)!={}",
        "OE(CP)!={}",
    ];
    let turned = random.once_in(2);
    let mut lines = Vec::new();
    while lines.len() < 32 {
        if turned {
            random.shuffle(&mut choices);
        }
        let line = filled_up(random, choices.join("^"));
        assert!(reference::rule::read(line.as_bytes()).is_ok(), "{line}");
        lines.push(line);
    }
    lines.join("\n")
}

/// The rule with as many clauses more as 256 bytes hold.
fn filled_up(random: &mut Random, mut text: String) -> String {
    loop {
        let more = format!("^|{}|<{}", random.pick(&TERMS), random.below(65));
        if text.len() + more.len() > 256 {
            return text;
        }
        text += &more;
    }
}

/// Terms of choices that the rules above make.
const TERMS: [&str; 13] = [
    "roles(OE(U))",
    "roles*(OE(U))",
    "(roles(OE(S))&OE(CR))",
    "(roles*(OE(P))+OE(CR))",
    "permissions(OE(R))",
    "permissions*(OE(CR))",
    "(permissions(OE(R))&OE(CP))",
    "operations(OE(R),OE(OBJ))",
    "done(OE(U),OE(OBJ))",
    "object(OE(CP))",
    "sessions(OE(U))",
    "user(OE(R))",
    "(R&OE(CR))",
];

/// A page of 32 accepted rules that are about as long, as deep or with as many choices as is allowed.
fn at_limits(random: &mut Random) -> String {
    let mut lines = Vec::new();
    while lines.len() < 32 {
        let text = rules::at_limit(random);
        if reference::rule::read(text.as_bytes()).is_ok() {
            lines.push(text);
        }
    }
    lines.join("\n")
}
