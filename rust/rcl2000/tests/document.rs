//! Document 01's own examples, A to K, its tables T and listing, and the edges that it and document 02
//! name.

use rcl2000::{
    check_rule, check_tables, forecast, forecast_into, judge, judge_in_turn, judge_into,
};
use rcl2000::{judge_page, judge_page_into, rank_step, rebuild, rebuild_into, reduce, reduce_into};
use rcl2000::{variables, Forecast, Page, PageRefusal, RankStep, Refusal, Role, TablesBuilder};
use rcl2000::{Object, Operation, User, Verdict, Word};
use rcl2000::{MAX_LINES, MAX_TABLES, MIN_TABLES};

const A: &str = "|(roles(OE(U))&OE(CR))|<=1";
const B: &str = "OE(OE(CR))@roles(OE(U))=>(AO(OE(CR))&roles(OE(U)))={}";
const C: &str = "AO(U)={}";
const D: &str = "|CR|=1";

/// Tables T: two roles, two users (the first has both roles), and one set of conflicting roles.
fn tables() -> Vec<u8> {
    let mut tables = TablesBuilder::new();
    let (first, second) = (tables.role([]), tables.role([]));
    tables.user([first, second]);
    tables.user([first]);
    tables.conflicting_roles([first, second]);
    tables.build().unwrap()
}

fn in_turn(tables: &[u8], rule: &str) -> Result<Verdict, Refusal> {
    judge_in_turn(tables, rule.as_bytes())
}

#[test]
fn the_builder_gives_tables_t() {
    let word = |low: u8| [low, 0, 0, 0, 0, 0, 0, 0];
    let bytes = [
        &[2][..],
        &word(1),
        &word(2),
        &[2, 1],
        &word(3),
        &[1],
        &word(1),
        &[0, 0, 0, 0, 1],
        &word(3),
        &[0, 0, 0],
    ];
    assert_eq!(tables(), bytes.concat());
}

#[test]
fn formulas_a_to_d() {
    let formulas = [
        (A, "[v1@U][v2@CR]:|(roles(v1)&v2)|<=1"),
        (
            B,
            "[v1@CR][v2@v1][v3@U]:v2@roles(v3)=>((v1-{v2})&roles(v3))={}",
        ),
        (C, "[v1@U]:(U-{v1})={}"),
        (D, ":|CR|=1"),
    ];
    for (rule, formula) in formulas {
        assert_eq!(reduce(rule.as_bytes()).unwrap(), formula.as_bytes());
        assert_eq!(rebuild(formula.as_bytes()).unwrap(), rule.as_bytes());
    }
}

#[test]
fn verdicts_e_to_j() {
    let counts = |rule: &str, order: &[u8]| {
        let verdict = judge(&tables(), rule.as_bytes(), order)?;
        Ok((verdict.full, verdict.breaking))
    };
    assert_eq!(counts(A, &[1, 2]), Ok((2, 1)));
    assert_eq!(counts(B, &[1, 2, 3]), Ok((4, 2)));
    assert_eq!(counts(B, &[3, 1, 2]), Ok((4, 2)));
    assert_eq!(counts(C, &[1]), Ok((2, 2)));
    assert_eq!(counts("OE(U)=OE(U)", &[1]), Ok((2, 0)));
    assert_eq!(counts("|(roles(OE(S))&OE(CR))|<=1", &[1, 2]), Ok((0, 0)));
    assert_eq!(counts(B, &[2, 1, 3]), Err(Refusal::Order));
}

#[test]
fn no_rules_formula_k() {
    for formula in ["[v1@U]:U=U", "[v1@U][v2@U]:v1=v2"] {
        assert_eq!(rebuild(formula.as_bytes()), Err(Refusal::NoRulesFormula));
    }
}

#[test]
fn the_listing() {
    let lines = [
        (A, "broken 2 1 50 v1=0 v2=0"),
        ("|(roles(OE(S))&OE(CR))|<=1", "idle 0 0 -"),
        (D, "held 1 0 0"),
    ];
    for (rule, line) in lines {
        assert_eq!(in_turn(&tables(), rule).unwrap().to_string(), line);
    }
    assert_eq!(in_turn(&tables(), "|roles(OE(U))"), Err(Refusal::NotARule));
}

#[test]
fn the_listing_as_a_page() {
    let page = [A, "|(roles(OE(S))&OE(CR))|<=1", D].join("\n");
    let page = judge_page(&tables(), page.as_bytes()).unwrap();
    assert_eq!((page.word, page.full, page.breaking), (Word::Broken, 3, 1));
    assert_eq!(page.walks, 3);
    let lines: Vec<String> = page.lines().map(Verdict::to_string).collect();
    let expected = ["broken 2 1 50 v1=0 v2=0", "idle 0 0 -", "held 1 0 0"];
    assert_eq!(lines, expected);
}

#[test]
fn pages_of_no_line_one_and_thirty_two() {
    let rule = D.to_string() + "\n";
    let page = |lines| judge_page(&tables(), rule.repeat(lines).as_bytes());
    for lines in [1, MAX_LINES] {
        let page = page(lines).unwrap();
        assert_eq!((page.word, page.lines().len()), (Word::Held, lines));
        assert_eq!((page.full, page.walks), (lines as u64, 1));
    }
    for lines in [0, MAX_LINES + 1] {
        assert_eq!(page(lines), Err(PageRefusal::from(Refusal::Page)));
    }
}

#[test]
fn a_page_is_refused_for_its_first_refused_line() {
    let refused = |tables: &[u8], page: &str| {
        let refused = judge_page(tables, page.as_bytes()).unwrap_err();
        (refused.refusal, refused.position)
    };
    let (all, last) = ("U=U\n".repeat(31), MAX_LINES as u16);
    let at_last = |line: &str| refused(&tables(), &(all.clone() + line));
    assert_eq!(at_last("U"), (Refusal::NotARule, last));
    assert_eq!(at_last("\n"), (Refusal::RuleLength, last));
    assert_eq!(at_last("U=U\r\n"), (Refusal::NotARule, last));
    // The first of two; 19 before both; the tables before all.
    assert_eq!(refused(&tables(), "U=R\nU=U\nU\n"), (Refusal::Kind, 1));
    assert_eq!(at_last("U=U\nU"), (Refusal::Page, 0));
    assert_eq!(refused(&[1], ""), (Refusal::CutShort, 0));
    assert_eq!(refused(&[1], "U"), (Refusal::CutShort, 0));
}

/// Tables of roles alone, each by the roles that it dominates.
fn roles(rows: &[&[usize]]) -> Vec<u8> {
    let mut tables = TablesBuilder::new();
    for row in rows {
        tables.role_row(row.iter().copied().map(Role::numbered));
    }
    tables.encode().unwrap()
}

#[test]
fn the_first_step_that_the_roles_fail() {
    let step = |rows: &[&[usize]]| rank_step(&roles(rows));
    assert_eq!((step(&[]), step(&[&[0], &[0, 1]])), (None, None));
    assert_eq!(step(&[&[0], &[0]]), Some(RankStep::Reflexive));
    let missing: [&[usize]; 3] = [&[0, 1], &[1, 2], &[2]];
    assert_eq!(step(&missing), Some(RankStep::Transitive));
    assert_eq!(step(&[&[0, 1], &[0, 1]]), Some(RankStep::Antisymmetric));
    // An earlier role fails a later step.
    let each_other: [&[usize]; 5] = [&[0, 1], &[0, 1], &[2, 3], &[3, 4], &[4]];
    assert_eq!(step(&each_other), Some(RankStep::Transitive));
    assert_eq!(step(&[&[0, 1], &[0, 1], &[]]), Some(RankStep::Reflexive));
}

#[test]
fn no_step_where_another_refusal_comes_first_or_none() {
    let bytes = roles(&[&[]]);
    assert_eq!(check_tables(&bytes), Err(Refusal::Rank));
    assert_eq!(rank_step(&bytes), Some(RankStep::Reflexive));
    let longer = [&bytes[..], &[0]].concat();
    assert_eq!(check_tables(&longer), Err(Refusal::LeftOver));
    assert_eq!(rank_step(&longer), None);
    for length in 0..bytes.len() {
        assert_eq!(rank_step(&bytes[..length]), None);
    }
    assert_eq!(rank_step(&tables()), None);
}

/// The ceiling of a rule whose formula is as long as told.
fn ceiling(tables: &[u8], rule: &str) -> u64 {
    let told = forecast(tables, rule.as_bytes()).unwrap();
    assert_eq!(
        told.length,
        reduce(rule.as_bytes()).unwrap().len(),
        "{rule}"
    );
    told.ceiling
}

#[test]
fn forecasts_of_a_to_d() {
    for (rule, expected) in [(A, 2), (B, 4), (C, 2), (D, 1)] {
        assert_eq!(ceiling(&tables(), rule), expected, "{rule}");
        assert!(in_turn(&tables(), rule).unwrap().full <= expected, "{rule}");
    }
    // T has no sessions, and nobody has anything else.
    assert_eq!(ceiling(&tables(), "OE(sessions(OE(U)))@S"), 0);
    assert_eq!(ceiling(&[0; MIN_TABLES], "OE(U)=OE(U)"), 0);
    assert_eq!(ceiling(&[0; MIN_TABLES], "U=U"), 1);
}

#[test]
fn a_ceiling_counts_the_sort_or_the_whole_collection() {
    let mut tables = TablesBuilder::new();
    let roles = [(); 5].map(|_| tables.role([]));
    tables.user([roles[0]]);
    for word in [0..0, 0..1, 1..4] {
        tables.conflicting_roles(roles[word].iter().copied());
    }
    let tables = tables.build().unwrap();
    let cases = [
        ("OE(R)@R", 5),
        ("OE(CR)={}", 3),
        ("OE(AO(CR))={}", 3 * 3),
        ("OE((CR+CR))={}", 3),
        ("OE(OE(CR))@R", 3 * 5),
        ("OE(AO(OE(CR)))@R", 3 * 5 * 5),
        ("OE(roles(OE(U)))@R", 5),
    ];
    for (rule, expected) in cases {
        assert_eq!(ceiling(&tables, rule), expected, "{rule}");
    }
}

/// One role, which the last user has, and so many users, those in `left` with mark 2.
fn with_leavers(users: usize, left: &[usize]) -> TablesBuilder {
    let mut tables = TablesBuilder::new();
    let role = tables.role([]);
    for user in 0..users {
        match left.contains(&user) {
            true => tables.user_left(),
            false if user + 1 == users => tables.user([role]),
            false => tables.user([]),
        };
    }
    tables
}

#[test]
fn who_left_is_no_user_and_keeps_the_number() {
    let some = with_leavers(5, &[0, 2]).build().unwrap();
    let lines = [
        ("OE(U)=OE(U)", "held 3 0 0"),
        ("|U|=3", "held 1 0 0"),
        ("roles(OE(U))={}", "broken 3 1 33 v1=4"),
        ("OE(AO(U))@user(R)", "broken 6 4 67 v1=1 v2=3"),
        ("user(R)=U", "broken 1 1 100"),
    ];
    for (rule, line) in lines {
        assert_eq!(in_turn(&some, rule).unwrap().to_string(), line, "{rule}");
    }
    assert_eq!(ceiling(&some, "OE(AO(U))@U"), 3 * 3);
    let none = with_leavers(64, &(0..64).collect::<Vec<_>>())
        .build()
        .unwrap();
    assert_eq!(in_turn(&none, "U={}").unwrap().to_string(), "held 1 0 0");
    assert_eq!(
        in_turn(&none, "OE(U)=OE(U)").unwrap().to_string(),
        "idle 0 0 -"
    );
    assert_eq!(ceiling(&none, "OE(U)=OE(U)"), 0);
    let page = judge_page(&some, b"AO(U)={}\n|AO(U)|=2").unwrap();
    let words: Vec<Word> = page.lines().map(|line| line.word).collect();
    assert_eq!(words, [Word::Broken, Word::Held]);
}

/// The mark of the first of the users that [`with_leavers`] adds.
const FIRST_MARK: usize = 1 + 8 + 1;

#[test]
fn marks_of_users_and_of_permissions() {
    let mut tables = with_leavers(2, &[0]);
    let (operation, object) = (tables.operation(), tables.object());
    tables.held_by(tables.permission(operation, object), []);
    let bytes = tables.build().unwrap();
    // Two users, no sessions, one operation, one object, one permission.
    let permission = FIRST_MARK + 2 * 9 + 1 + 3;
    let marked = |at: usize, mark: u8| {
        let mut bytes = bytes.clone();
        bytes[at] = mark;
        check_tables(&bytes)
    };
    for (mark, user, permitted) in [
        (0, Err(Refusal::NotEntered), Err(Refusal::NotEntered)),
        (1, Ok(()), Ok(())),
        (2, Ok(()), Err(Refusal::BadMark)),
        (3, Err(Refusal::BadMark), Err(Refusal::BadMark)),
        (255, Err(Refusal::BadMark), Err(Refusal::BadMark)),
    ] {
        assert_eq!(marked(FIRST_MARK, mark), user, "user, mark {mark}");
        assert_eq!(
            marked(permission, mark),
            permitted,
            "permission, mark {mark}"
        );
    }
}

#[test]
fn what_is_still_there_of_a_leaver() {
    let clean = with_leavers(2, &[0]).build().unwrap();
    let with_word = |word: u8| {
        let mut bytes = clean.clone();
        bytes[FIRST_MARK + 1] = word;
        bytes
    };
    assert_eq!(check_tables(&with_word(1)), Err(Refusal::Left));
    // A bit at the role count is met while reading, and what is left over before a leaver is looked for.
    assert_eq!(check_tables(&with_word(2)), Err(Refusal::NoSuchItem));
    let longer = [with_word(1), vec![0]].concat();
    assert_eq!(check_tables(&longer), Err(Refusal::LeftOver));
    // The rule, the order and the output come behind, and so does a step of the rank test.
    let refused = judge_into(&with_word(1), b"", &[9], &mut []);
    assert_eq!(refused, Err(Refusal::Left));
    let refused = judge_page(&with_word(1), b"").unwrap_err();
    assert_eq!((refused.refusal, refused.position), (Refusal::Left, 0));
    assert_eq!(forecast(&with_word(1), b""), Err(Refusal::Left));
    let mut unranked = with_word(1);
    unranked[1] = 0;
    assert_eq!(check_tables(&unranked), Err(Refusal::Left));
    assert_eq!(rank_step(&unranked), None);
}

/// That nobody performs two operations on one object.
const COMMITTEE: &str = "|done(OE(U),OE(OBJ))|<=1";

/// Three users, of whom the last left, two operations, three objects, and rows of Done.
fn with_done(rows: &[[usize; 3]]) -> TablesBuilder {
    let mut tables = TablesBuilder::new();
    let present = [tables.user([]), tables.user([])];
    tables.user_left();
    tables.conflicting_users(present);
    let operations: [_; 2] = tables.operations();
    let objects: [_; 3] = tables.objects();
    for operation in operations {
        for object in objects {
            tables.held_by(tables.permission(operation, object), []);
        }
    }
    for &[user, operation, object] in rows {
        tables.done(
            User::numbered(user),
            Operation::numbered(operation),
            Object::numbered(object),
        );
    }
    tables
}

#[test]
fn the_committees_rule_and_its_formula() {
    let formula = b"[v1@U][v2@OBJ]:|done(v1,v2)|<=1";
    assert_eq!(reduce(COMMITTEE.as_bytes()).unwrap(), formula);
    assert_eq!(rebuild(formula).unwrap(), COMMITTEE.as_bytes());
    assert_eq!(ceiling(&with_done(&[]).build().unwrap(), COMMITTEE), 2 * 3);
}

#[test]
fn what_was_done_by_one_by_some_and_by_a_leaver() {
    // User 0 both on object 1, user 1 one on each of two, the leaver both on object 0.
    let rows = [
        [0, 0, 1],
        [1, 1, 0],
        [2, 0, 0],
        [0, 1, 1],
        [1, 0, 2],
        [2, 1, 0],
    ];
    let tables = with_done(&rows).build().unwrap();
    let lines = [
        (COMMITTEE, "broken 6 1 17 v1=0 v2=1"),
        ("|done(U,OE(OBJ))|<=1", "broken 3 1 33 v1=1"),
        ("|done(OE(CU),OE(OBJ))|>0", "held 3 0 0"),
        ("done(AO(U),OE(OBJ))={}", "broken 6 3 50 v1=0 v2=0"),
        ("OE(OP)@done(U,OE(OBJ))", "broken 6 2 33 v1=0 v2=0"),
        (
            "done(U,OE(OBJ))=operations(R,OE(OBJ))",
            "broken 3 3 100 v1=0",
        ),
        ("done((U&user(S)),OE(OBJ))={}", "held 3 0 0"),
    ];
    for (rule, line) in lines {
        assert_eq!(in_turn(&tables, rule).unwrap().to_string(), line, "{rule}");
    }
    // Nothing but the rows as a set counts, and of them those of present users.
    let mut otherwise: Vec<[usize; 3]> = rows.iter().rev().copied().collect();
    otherwise.retain(|row| row[0] != 2);
    otherwise.extend([[0, 0, 1], [0, 0, 1], [1, 0, 2]]);
    let otherwise = with_done(&otherwise).build().unwrap();
    for (rule, line) in lines {
        let verdict = in_turn(&otherwise, rule).unwrap();
        assert_eq!(verdict.to_string(), line, "{rule}");
    }
}

#[test]
fn the_terms_of_done() {
    let kinds = [
        "done(U,OBJ)={}",
        "done(U,AO(OBJ))={}",
        "done(U,object(P))={}",
        "done(U,object(OE(P)))={}",
        "done(U,OE(CP))={}",
        "done(OE(OBJ),OE(U))={}",
        "done(R,OE(OBJ))={}",
        "done(S,OE(OBJ))={}",
        "done(CU,OE(OBJ))={}",
        "done(U,OE(OBJ))=U",
    ];
    for rule in kinds {
        assert_eq!(check_rule(rule.as_bytes()), Err(Refusal::Kind), "{rule}");
    }
    let grammar = [
        "done()={}",
        "done(U)={}",
        "done(U,)={}",
        "done(U,OE(OBJ),U)={}",
        "done={}",
        "Done(U,OE(OBJ))={}",
        "done*(U,OE(OBJ))={}",
    ];
    for rule in grammar {
        assert_eq!(
            check_rule(rule.as_bytes()),
            Err(Refusal::NotARule),
            "{rule}"
        );
    }
}

#[test]
fn rows_of_done_are_read_behind_section_9() {
    let row = [1, 1, 2];
    let bytes = with_done(&[row, row]).build().unwrap();
    let count = bytes.len() - 2 * row.len() - 1;
    let changed = |at: usize, byte: u8| {
        let mut bytes = bytes.clone();
        bytes[at] = byte;
        bytes
    };
    // Every cut, the one after section 9 among them.
    for length in 0..bytes.len() {
        assert_eq!(check_tables(&bytes[..length]), Err(Refusal::CutShort));
    }
    assert_eq!(check_tables(&changed(count, 3)), Err(Refusal::CutShort));
    assert_eq!(check_tables(&changed(count, 1)), Err(Refusal::LeftOver));
    for above in [65, 255] {
        let bytes = changed(count, above);
        assert_eq!(check_tables(&bytes), Err(Refusal::Overfull));
        assert_eq!(check_tables(&bytes[..=count]), Err(Refusal::Overfull));
    }
    // Three users, the leaver among them, two operations, three objects.
    for (place, items) in [3, 2, 3].into_iter().enumerate() {
        let at = count + 1 + place;
        assert_eq!(check_tables(&changed(at, items - 1)), Ok(()));
        for above in [items, 255] {
            assert_eq!(check_tables(&changed(at, above)), Err(Refusal::NoSuchItem));
        }
        // A row that is not complete is not looked at.
        let cut = &changed(at + row.len(), 255)[..bytes.len() - 1];
        let expected = Err(Refusal::CutShort);
        assert_eq!(check_tables(cut), expected, "{place}");
    }
}

#[test]
fn what_is_wrong_in_done_comes_before_what_is_looked_at_afterwards() {
    let mut tables = with_done(&[[0, 0, 0]]);
    tables.session(User::numbered(2), []);
    tables.role_row([]);
    let mut bytes = tables.encode().unwrap();
    assert_eq!(check_tables(&bytes), Err(Refusal::Left));
    bytes.push(0);
    assert_eq!(check_tables(&bytes), Err(Refusal::LeftOver));
    let object = bytes.len() - 2;
    bytes[object] = 3;
    assert_eq!(check_tables(&bytes), Err(Refusal::NoSuchItem));
    assert_eq!(rank_step(&bytes), None);
    assert_eq!(forecast(&bytes, b""), Err(Refusal::NoSuchItem));
    let refused = judge_page(&bytes, b"").unwrap_err();
    assert_eq!(
        (refused.refusal, refused.position),
        (Refusal::NoSuchItem, 0)
    );
}

/// The users with a role break the rule.
#[test]
fn a_half_goes_to_the_even_number() {
    for (users, with, line) in [
        (8, 1, "broken 8 1 12 v1=0"),
        (8, 3, "broken 8 3 38 v1=0"),
        (2, 1, "broken 2 1 50 v1=0"),
        (8, 0, "held 8 0 0"),
        (0, 0, "idle 0 0 -"),
    ] {
        let mut tables = TablesBuilder::new();
        let role = tables.role([]);
        for user in 0..users {
            tables.user((user < with).then_some(role));
        }
        let verdict = in_turn(&tables.build().unwrap(), "roles(OE(U))={}");
        assert_eq!(verdict.unwrap().to_string(), line);
    }
}

#[test]
fn eight_variables_on_the_largest_tables() {
    let mut tables = TablesBuilder::new();
    for _ in 0..64 {
        tables.user([]);
    }
    let tables = tables.build().unwrap();
    let nested = |depth: usize| "AO(".repeat(depth) + "U" + &")".repeat(depth);
    let told = |depth: usize| ceiling(&tables, &(nested(depth) + "={}"));
    assert_eq!((told(8), told(1)), (281_474_976_710_656, 64));
    let refused = forecast(&tables, (nested(9) + "={}").as_bytes());
    assert_eq!(refused, Err(Refusal::Choices));
    // No sessions: nothing is walked, which would take hours.
    let rule = format!("OE(sessions({}))@S", nested(7));
    assert_eq!(ceiling(&tables, &rule), 0);
    assert_eq!(in_turn(&tables, &rule).unwrap().word, Word::Idle);
    let page = judge_page(&tables, format!("{rule}\n{rule}^U=U").as_bytes()).unwrap();
    assert_eq!((page.word, page.full, page.walks), (Word::Idle, 0, 1));
}

#[test]
fn a_forecast_is_refused_for_tables_rule_and_output_in_turn() {
    let (tables, mut out) = (tables(), [7; Forecast::BYTES + 1]);
    let mut refused = |tables: &[u8], rule: &str, length: usize| {
        let refusal = forecast_into(tables, rule.as_bytes(), &mut out[..length]).unwrap_err();
        assert_eq!(out, [7; Forecast::BYTES + 1]);
        refusal
    };
    for length in [0, 15, 16, 17] {
        assert_eq!(refused(&[1], "", length), Refusal::CutShort);
        assert_eq!(refused(&tables, "", length), Refusal::RuleLength);
        assert_eq!(refused(&tables, "OE(U)=U", length), Refusal::Kind);
    }
    for length in 0..Forecast::BYTES {
        assert_eq!(refused(&tables, C, length), Refusal::ShortSheet);
    }
    assert_eq!(forecast_into(&tables, C.as_bytes(), &mut out), Ok(16));
    assert_eq!(out, [18, 0, 0, 0, 0, 0, 0, 0, 2, 0, 0, 0, 0, 0, 0, 0, 7]);
}

#[test]
fn sixty_four_users_and_one_more() {
    let mut users = TablesBuilder::new();
    for _ in 0..64 {
        users.user([]);
    }
    let mut bytes = users.build().unwrap();
    assert_eq!(in_turn(&bytes, "|U|=64").unwrap().word, Word::Held);
    bytes[1] = 65;
    assert_eq!(in_turn(&bytes, "|U|=64"), Err(Refusal::Overfull));
    users.user([]);
    let error = users.build().unwrap_err();
    assert_eq!(error.to_string(), "tables hold at most 64 users, not 65");
}

#[test]
fn checks_alone_say_what_judging_says() {
    for rule in [A, B, C, D, "", "U", "OE(U)=U", "|roles(OE(U))"] {
        let judged = judge_in_turn(&tables(), rule.as_bytes());
        assert_eq!(check_rule(rule.as_bytes()), judged.map(|_| ()), "{rule}");
    }
    let bytes = tables();
    for length in 0..=bytes.len() {
        let judged = in_turn(&bytes[..length], D);
        assert_eq!(check_tables(&bytes[..length]), judged.map(|_| ()));
    }
    // Tables are looked at before the rule.
    assert_eq!(in_turn(&[1], "U"), Err(Refusal::CutShort));
    assert_eq!(in_turn(&bytes, "U"), Err(Refusal::NotARule));
}

#[test]
fn the_largest_tables() {
    let mut builder = TablesBuilder::new();
    let roles = [(); 64].map(|()| builder.role([]));
    let users = [(); 64].map(|()| builder.user(roles));
    let operations: [_; 8] = builder.operations();
    let objects: [_; 8] = builder.objects();
    for operation in operations {
        for object in objects {
            let permission = builder.permission(operation, object);
            builder.held_by(permission, [roles[0]]);
            builder.conflicting_permissions([permission]);
        }
    }
    for place in 0..64 {
        builder.session(users[place], [roles[place]]);
        builder.conflicting_roles([roles[place]]);
        builder.conflicting_users([users[place]]);
        builder.done(users[place], operations[place % 8], objects[place / 8]);
    }
    assert_eq!(builder.build().unwrap().len(), MAX_TABLES);
}

#[test]
fn the_length_the_depth_and_the_choices_of_a_rule() {
    let long = "U=U^".repeat(63) + "OP=P";
    assert_eq!(reduce(long.as_bytes()), Err(Refusal::Kind));
    assert_eq!(reduce((long + "P").as_bytes()), Err(Refusal::RuleLength));
    let deep = |depth| format!("{}U{}=U", "(U&".repeat(depth), ")".repeat(depth));
    assert_eq!(
        reduce(deep(32).as_bytes()).unwrap().len(),
        deep(32).len() + 1
    );
    assert_eq!(reduce(deep(33).as_bytes()), Err(Refusal::Deep));
    let chosen = |count| format!("{}U{}={{}}", "AO(".repeat(count), ")".repeat(count));
    assert_eq!(variables(chosen(8).as_bytes()), Ok(8));
    assert_eq!(variables(chosen(9).as_bytes()), Err(Refusal::Choices));
}

#[test]
fn outputs_of_the_answers_length_and_one_less() {
    let formula = b"[v1@U]:(U-{v1})={}";
    lent(formula.len(), |out| reduce_into(C.as_bytes(), out));
    lent(C.len(), |out| rebuild_into(formula, out));
    lent(Verdict::BYTES, |out| {
        judge_into(&tables(), C.as_bytes(), &[1], out)
    });
    for lines in [1, 2, MAX_LINES] {
        let page = (C.to_string() + "\n").repeat(lines);
        lent(Page::bytes(lines), |out| {
            judge_page_into(&tables(), page.as_bytes(), out).map_err(unplaced)
        });
    }
}

/// A refusal that is not a line's.
fn unplaced(refused: PageRefusal) -> Refusal {
    assert_eq!(refused.position, 0);
    refused.refusal
}

/// The call writes its answer of `length` bytes, and refuses an output that is one shorter.
fn lent(length: usize, call: impl Fn(&mut [u8]) -> Result<usize, Refusal>) {
    let mut short = vec![7; length - 1];
    assert_eq!(call(&mut short), Err(Refusal::ShortSheet));
    assert_eq!(short, vec![7; length - 1]);
    let mut longer = vec![7; length + 1];
    assert_eq!(call(&mut longer), Ok(length));
    assert_eq!(longer[length], 7);
}
