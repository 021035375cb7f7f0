//! What a reader sees: document 02's words about the sheet of one who is shown some of the users, line by line and whole.

use rcl2000::{judge_in_turn, sheet, sheet_line, sheet_line_into, Reader, Refusal, Role};
use rcl2000::{TablesBuilder, User, MAX_LINE, MAX_RULES, MIN_TABLES};

/// Users 0 to 4 of the mill, of whom the third left.
const USERS: usize = 5;

/// Roles 0 above 1, and 2 beside them. Users: 0 has roles 0 and 2, 1 has role 1, 2 left, 3 has role 2, 4 has none. Sessions
/// of 0, 1, 3 and 1. CR has roles 0 and 2. CU has users 0 and 1, 0 and 3, 1, and 4. Users 0, 2, 1 and 3 did an operation.
fn mill() -> TablesBuilder {
    let mut tables = TablesBuilder::new();
    let leader = tables.role([Role::numbered(1)]);
    let (hand, tester) = (tables.role([]), tables.role([]));
    let (ana, berto, gino) = (
        tables.user([leader, tester]),
        tables.user([hand]),
        tables.user_left(),
    );
    let (dino, elsa) = (tables.user([tester]), tables.user([]));
    tables.session(ana, [hand]);
    tables.session(berto, [hand]);
    tables.session(dino, [tester]);
    tables.session(berto, []);
    let (test, tank) = (tables.operation(), tables.object());
    tables.held_by(tables.permission(test, tank), [tester]);
    tables.conflicting_roles([leader, tester]);
    for family in [&[ana, berto][..], &[ana, dino], &[berto], &[elsa]] {
        tables.conflicting_users(family.iter().copied());
    }
    for user in [ana, gino, berto, dino] {
        tables.done(user, test, tank);
    }
    tables
}

/// Rules, with what all users see of the mill and what users 1 and 3 do.
const SEEN: [(&str, &str, &str); 9] = [
    (
        "|(roles(OE(U))&OE(CR))|<=1",
        "broken 4 1 25 v1=0 v2=0",
        "held 2 0 0",
    ),
    ("|U|=2", "broken 1 1 100", "held 1 0 0"),
    // Whoever keeps a number keeps it on every sheet.
    (
        "roles(OE(U))=roles(AO(U))",
        "broken 4 4 100 v1=0",
        "broken 2 2 100 v1=1",
    ),
    // Of four sessions the last three are the reader's, and have the numbers 0 to 2.
    (
        "roles(OE(S))!={}",
        "broken 4 1 25 v1=3",
        "broken 3 1 33 v1=2",
    ),
    (
        "user(OE(S))=OE(user(roles(OE(S))))",
        "broken 4 2 50 v1=0 v2=1",
        "held 2 0 0",
    ),
    (
        "done(OE(U),OE(OBJ))!={}",
        "broken 4 1 25 v1=4 v2=0",
        "held 2 0 0",
    ),
    // Others are assigned nothing.
    (
        "|user(OE(R))|=1",
        "broken 3 1 33 v1=2",
        "broken 3 1 33 v1=0",
    ),
    // Users 1, 3, 1 and nobody: the third word goes, and the empty one, which was the fourth, is the third.
    ("OE(CU)!={}", "held 4 0 0", "broken 3 1 33 v1=2"),
    (
        "OE(U)@OE(CU)",
        "broken 16 10 62 v1=0 v2=2",
        "broken 6 4 67 v1=1 v2=1",
    ),
];

fn tables() -> Vec<u8> {
    mill().build().unwrap()
}

fn reader(users: &[usize]) -> Reader {
    users.iter().copied().map(User::numbered).collect()
}

/// The line of one rule, without its place.
fn line(users: &[usize], rule: &str) -> String {
    let line = sheet_line(&tables(), reader(users), rule.as_bytes(), 1).unwrap();
    line.unwrap().strip_prefix("1 ").unwrap().to_string()
}

#[test]
fn others_are_as_left() {
    let (own, all) = ([1, 3], [0, 1, 2, 3, 4]);
    for (rule, mill, laboratory) in SEEN {
        assert_eq!(line(&all, rule), mill, "{rule}");
        assert_eq!(line(&own, rule), laboratory, "{rule}");
    }
}

/// A leaver among the reader's users is no user, whatever was done then.
#[test]
fn a_leaver_stays_a_leaver() {
    for rule in [
        "OE(U)=OE(U)",
        "U={}",
        "done(U,OE(OBJ))={}",
        "OE(CU)={}",
        "|CU|=1",
        "S={}",
    ] {
        assert_eq!(line(&[2], rule), line(&[], rule), "{rule}");
        assert_eq!(line(&[2, 3], rule), line(&[3], rule), "{rule}");
    }
    assert_eq!(line(&[2], "done(U,OE(OBJ))={}"), "held 1 0 0");
    assert_eq!(line(&[2], "OE(CU)={}"), "held 1 0 0");
}

#[test]
fn all_users_see_the_day_sheet() {
    let rules = [
        "|(roles(OE(U))&OE(CR))|<=1",
        "OE(CU)={}",
        "user(OE(S))@U",
        "U",
        "|U|=4",
    ];
    let lines = sheet(
        &tables(),
        Reader::everyone(USERS),
        rules.join("\n").as_bytes(),
    )
    .unwrap();
    assert_eq!(lines.len(), rules.len() + 1);
    for ((place, rule), line) in (1..).zip(rules).zip(&lines) {
        let expected = match judge_in_turn(&tables(), rule.as_bytes()) {
            Ok(verdict) => format!("{place} {verdict}"),
            Err(refusal) => format!("{place} refused {}", refusal.number()),
        };
        assert_eq!(*line, expected, "{rule}");
    }
    assert_eq!(lines[5], "total 5 held 2 idle 0 broken 2 refused 1");
}

/// Other rows of others, on which the sheet of the reader's users does not depend, refusals included.
#[test]
fn equal_sheets() {
    let rules = b"roles(OE(S))!={}\nOE(CU)!={}\n|U|=2\ndone(OE(U),OE(OBJ))={}\nU\nOE(S)@sessions(OE(OE(CU)))";
    let mut other = TablesBuilder::new();
    let leader = other.role([Role::numbered(1)]);
    let (hand, tester) = (other.role([]), other.role([]));
    // The first left, whoever left is back with a role, and the last has all.
    other.user_left();
    let berto = other.user([hand]);
    let gino = other.user([leader]);
    let dino = other.user([tester]);
    let elsa = other.user([leader, hand, tester]);
    other.session(berto, [hand]);
    other.session(elsa, [tester]);
    other.session(dino, [tester]);
    other.session(gino, []);
    other.session(berto, []);
    let (test, tank) = (other.operation(), other.object());
    other.held_by(other.permission(test, tank), [tester]);
    other.conflicting_roles([leader, tester]);
    for family in [&[berto][..], &[gino, dino, elsa], &[berto, gino], &[]] {
        other.conflicting_users(family.iter().copied());
    }
    for user in [berto, elsa, dino] {
        other.done(user, test, tank);
    }
    let other = other.build().unwrap();
    let seen = |tables: &[u8], users: &[usize]| sheet(tables, reader(users), rules);
    assert_eq!(seen(&tables(), &[1, 3]), seen(&other, &[1, 3]));
    assert_ne!(seen(&tables(), &[1, 3, 4]), seen(&other, &[1, 3, 4]));
    assert_ne!(seen(&tables(), &[1]), seen(&other, &[3]));
    let mut out = [7; MAX_LINE];
    for tables in [&tables(), &other] {
        assert_eq!(seen(tables, &[1, USERS]), Err(Refusal::Reader));
        let short = sheet_line_into(tables, reader(&[1, 3]), rules, 1, &mut out[..5]);
        assert_eq!(short, Err(Refusal::ShortSheet));
    }
}

/// Tables with so many users, none of whom has a role.
fn crowd(users: usize) -> Vec<u8> {
    let mut tables = TablesBuilder::new();
    for _ in 0..users {
        tables.user([]);
    }
    tables.build().unwrap()
}

#[test]
fn a_bit_at_the_count_of_the_users() {
    for users in [0, 1, 5, 63, 64] {
        let tables = crowd(users);
        for bit in 0..64 {
            let line = sheet_line(&tables, Reader::from_word(1 << bit), b"|U|=1", 1);
            let expected = match bit < users {
                true => Ok(Some("1 held 1 0 0".to_string())),
                false => Err(Refusal::Reader),
            };
            assert_eq!(line, expected, "bit {bit} of {users}");
        }
        let all = format!("|U|={users}");
        let line = sheet_line(&tables, Reader::everyone(users), all.as_bytes(), 1);
        assert_eq!(line, Ok(Some("1 held 1 0 0".to_string())));
        let all = sheet(&tables, Reader::from_word(u64::MAX), b"");
        assert_eq!(all.is_ok(), users == 64);
    }
}

/// A user for whom a word has no bit is refused as one whom the tables do not have, behind what is wrong with the tables.
#[test]
fn users_beyond_any_word() {
    for number in [64, 65, 255, 256, 1 << 32, usize::MAX] {
        let far = reader(&[0, number, 1]);
        assert_eq!(far.word(), None);
        assert_eq!(sheet(&crowd(64), far, b""), Err(Refusal::Reader));
        assert_eq!(sheet(&[1], far, b""), Err(Refusal::CutShort));
        let mut out = [7; 4];
        let refused = sheet_line_into(&crowd(64), far, b"", 0, &mut out);
        assert_eq!((refused, out), (Err(Refusal::Reader), [7; 4]));
    }
    assert_eq!(Reader::everyone(65).word(), None);
    assert_eq!(Reader::everyone(64), Reader::from_word(u64::MAX));
}

/// The tables' number, then 23, and only then the rules and the place.
#[test]
fn a_line_is_refused_for_tables_and_reader_in_turn() {
    let long = vec![b'\n'; MAX_RULES + 1];
    let left_over = [&tables()[..], &[0]].concat();
    let refused = |tables: &[u8], reader: Reader| {
        [(&b""[..], 0), (b"U=U", 1), (&long, 1), (&long, 2)].map(|(rules, place)| {
            let mut out = [7; MAX_LINE];
            let refusal = sheet_line_into(tables, reader, rules, place, &mut out).unwrap_err();
            assert_eq!(out, [7; MAX_LINE]);
            refusal
        })
    };
    for word in [0, 1 << USERS, u64::MAX] {
        let reader = Reader::from_word(word);
        assert_eq!(refused(&left_over, reader), [Refusal::LeftOver; 4]);
        assert_eq!(refused(&[], reader), [Refusal::CutShort; 4]);
    }
    for word in [1 << USERS, 1 << 63, u64::MAX] {
        let reader = Reader::from_word(word);
        assert_eq!(refused(&tables(), reader), [Refusal::Reader; 4]);
    }
}

#[test]
fn places_of_lines_and_no_others() {
    let tables = tables();
    let at = |rules: &[u8], place| sheet_line(&tables, reader(&[1]), rules, place).unwrap();
    let total = |count: usize| {
        Some(format!(
            "total {count} held 0 idle 0 broken 0 refused {count}"
        ))
    };
    for count in [0, 1, 3, MAX_RULES] {
        let rules = vec![b'\n'; count];
        for none in [0, count + 2, count + 3, usize::MAX] {
            assert_eq!(at(&rules, none), None, "{none} of {count}");
        }
        assert_eq!(at(&rules, count + 1), total(count));
        for place in [1, count / 2, count]
            .into_iter()
            .filter(|&place| place > 0 && place <= count)
        {
            assert_eq!(at(&rules, place), Some(format!("{place} refused 11")));
        }
    }
    let long = vec![b'\n'; MAX_RULES + 1];
    assert_eq!(at(&long, 1).as_deref(), Some("rules too long"));
    for none in [0, 2, MAX_RULES + 1, MAX_RULES + 2, usize::MAX] {
        assert_eq!(at(&long, none), None, "{none}");
    }
    assert_eq!(
        sheet(&tables, reader(&[1]), &long).unwrap(),
        ["rules too long"]
    );
    // A last line has an end or not, and nothing behind its end is none.
    for (rules, lines) in [("U=U", 2), ("U=U\n", 2), ("U=U\n\n", 3), ("\n", 2), ("", 1)] {
        let sheet = sheet(&tables, reader(&[1]), rules.as_bytes()).unwrap();
        assert_eq!(sheet.len(), lines, "{rules:?}");
    }
}

/// 17 only where there is a line, and a byte less is all that it takes.
#[test]
fn outputs_of_the_lines_length_and_one_less() {
    let (tables, rules) = (tables(), b"OE(CU)!={}\nU=U\n");
    for place in 0..5 {
        let line = sheet_line(&tables, reader(&[3]), rules, place).unwrap();
        let line = line.unwrap_or_default().into_bytes();
        for length in [line.len() + 1, line.len()] {
            let mut out = vec![7; length];
            let written = sheet_line_into(&tables, reader(&[3]), rules, place, &mut out);
            assert_eq!(written, Ok(line.len()));
            assert_eq!(out, [&line[..], &vec![7; length - line.len()]].concat());
        }
        for length in 0..line.len() {
            let mut out = vec![7; length];
            let refused = sheet_line_into(&tables, reader(&[3]), rules, place, &mut out);
            assert_eq!(refused, Err(Refusal::ShortSheet));
            assert_eq!(out, vec![7; length]);
        }
    }
}

/// The longest line: a place of five digits, and eight choices of which all are broken, more than 10 to the power of 14, the
/// first one by items of two digits.
#[test]
fn the_longest_line() {
    let mut tables = TablesBuilder::new();
    let roles: Vec<Role> = (0..64).map(|_| tables.role([])).collect();
    // The first who is present has number 10, and the roles from 10; those behind have all.
    for _ in 0..10 {
        tables.user_left();
    }
    for user in 10..64 {
        let first = if user == 10 { 10 } else { 0 };
        tables.user(roles[first..].iter().copied());
    }
    let (operations, objects) = (tables.operations::<8>(), tables.objects::<8>());
    let pairs = operations
        .iter()
        .flat_map(|&operation| objects.map(|object| (operation, object)));
    for (number, (operation, object)) in pairs.enumerate() {
        let role_10 = Some(roles[10]).filter(|_| number >= 10);
        let others = roles.iter().copied().filter(|&role| role != roles[10]);
        tables.held_by(tables.permission(operation, object), others.chain(role_10));
    }
    let users = ["(U&U)", "(U+U)", "((U&U)&U)", "((U&U)+U)", "((U+U)&U)"];
    let apart = users.map(|users| format!("OE({users})@U"));
    let chain = "OE(permissions(OE(roles(OE(U)))))@P".to_string();
    let rule = [&[chain], &apart[..], &["U={}".to_string()]]
        .concat()
        .join("^");
    let rules = "\n".repeat(9_999) + &rule;
    let line = sheet_line(
        &tables.build().unwrap(),
        Reader::everyone(64),
        rules.as_bytes(),
        10_000,
    );
    let line = line.unwrap().unwrap();
    assert_eq!(line.len(), MAX_LINE, "{line}");
    assert!(line.ends_with(" 100 v1=10 v2=10 v3=10 v4=10 v5=10 v6=10 v7=10 v8=10"));
}

#[test]
fn nobody_is_a_reader() {
    let rules = b"OE(U)=OE(U)\nU={}\nOE(S)=OE(S)\n";
    let lines = [
        "1 idle 0 0 -",
        "2 held 1 0 0",
        "3 idle 0 0 -",
        "total 3 held 1 idle 2 broken 0 refused 0",
    ];
    for tables in [tables(), crowd(64), vec![0; MIN_TABLES]] {
        assert_eq!(sheet(&tables, Reader::default(), rules).unwrap(), lines);
    }
}
