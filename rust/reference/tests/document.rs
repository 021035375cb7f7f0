//! Document 01's own examples, and what document 02 adds, by the plain and by the fast modules.

use reference::number::{NO_RULES_FORMULA, ORDER};
use reference::protocol::{answer, hex, Command};
use reference::{fast, formula, sheet, verdict};

/// Tables T.
const T: &[u8] = b"\x02\x01\0\0\0\0\0\0\0\x02\0\0\0\0\0\0\0\
    \x02\x01\x03\0\0\0\0\0\0\0\x01\x01\0\0\0\0\0\0\0\
    \0\0\0\0\x01\x03\0\0\0\0\0\0\0\0\0\0";

const B: &[u8] = b"OE(OE(CR))@roles(OE(U))=>(AO(OE(CR))&roles(OE(U)))={}";

#[test]
fn the_listing() {
    let rules = b"|(roles(OE(U))&OE(CR))|<=1\n|(roles(OE(S))&OE(CR))|<=1\n|CR|=1\n|roles(OE(U))";
    let lines = "1 broken 2 1 50 v1=0 v2=0\n2 idle 0 0 -\n3 held 1 0 0\n4 refused 13\n";
    let total = "total 4 held 1 idle 1 broken 1 refused 1\n";
    assert_eq!(sheet::sheet(T, rules), [lines, total].concat());
}

#[test]
fn the_foot_of_the_listing() {
    let none = "total 0 held 0 idle 0 broken 0 refused 0\n";
    assert_eq!(sheet::sheet(T, b""), none);
    for rules in [&b"U=U\n\n"[..], b"U=U\n\r"] {
        let foot = "total 2 held 1 idle 0 broken 0 refused 1\n";
        assert!(sheet::sheet(T, rules).ends_with(foot));
    }
    let longest = vec![b'\n'; 32_768];
    let foot = "total 32768 held 0 idle 0 broken 0 refused 32768\n";
    assert!(sheet::sheet(T, &longest).ends_with(foot));
    assert_eq!(sheet::sheet(T, &[b'\n'; 32_769]), "rules too long\n");
    assert_eq!(sheet::sheet(b"A", b""), "tables refused 2\n");
}

#[test]
fn formulas_both_ways() {
    let examples: [(&[u8], &[u8]); 5] = [
        (
            B,
            b"[v1@CR][v2@v1][v3@U]:v2@roles(v3)=>((v1-{v2})&roles(v3))={}",
        ),
        (b"AO(U)={}", b"[v1@U]:(U-{v1})={}"),
        (b"|CR|=1", b":|CR|=1"),
        // Document 02, N8.
        (
            b"|done(OE(U),OE(OBJ))|<=1",
            b"[v1@U][v2@OBJ]:|done(v1,v2)|<=1",
        ),
        (
            b"OE(done(AO(U),OE(OBJ)))@OP",
            b"[v1@U][v2@OBJ][v3@done((U-{v1}),v2)]:v3@OP",
        ),
    ];
    for (rule, written) in examples {
        for reduce in [formula::reduce, fast::reduce] {
            assert_eq!(reduce(rule).as_deref(), Ok(written));
        }
        for rebuild in [formula::rebuild, fast::rebuild] {
            assert_eq!(rebuild(written).as_deref(), Ok(rule));
        }
    }
    let none: [&[u8]; 4] = [
        b"[v1@U]:U=U",
        b"[v1@U][v2@U]:v1=v2",
        b"[v1@OBJ]:done(v1)={}",
        b"[v1@U]:done(v1,OBJ)={}",
    ];
    for written in none {
        assert_eq!(formula::rebuild(written), Err(NO_RULES_FORMULA));
        assert_eq!(fast::rebuild(written), Err(NO_RULES_FORMULA));
    }
}

#[test]
fn verdicts_in_any_order() {
    for judge in [verdict::judge, fast::judge] {
        let counts = |rule: &[u8], order: &[u8]| {
            judge(T, rule, order).map(|verdict| (verdict.full, verdict.breaking))
        };
        assert_eq!(counts(B, &[1, 2, 3]), Ok((4, 2)));
        assert_eq!(counts(B, &[3, 1, 2]), Ok((4, 2)));
        assert_eq!(counts(B, &[2, 1, 3]), Err(ORDER));
        assert_eq!(counts(b"AO(U)={}", &[1]), Ok((2, 2)));
        assert_eq!(counts(b"OE(U)=OE(U)", &[1]), Ok((2, 0)));
    }
}

/// Seven users of whom each may be one of 64, and a session of theirs: nobody has one, so there is no choice.
#[test]
fn nothing_to_choose_is_idle_at_once() {
    let user = [1, 0, 0, 0, 0, 0, 0, 0, 0];
    let tables = [&[0, 64][..], &user.repeat(64), &[0; 8]].concat();
    let users = "AO(".repeat(7) + "U" + &")".repeat(7);
    let rule = format!("OE(sessions({users}))@S");
    assert!(forecast(&tables, &rule).ends_with(" 0"));
    let order: Vec<u8> = (1..=8).collect();
    for judge in [verdict::judge, fast::judge] {
        let counts = |order: &[u8]| {
            judge(&tables, rule.as_bytes(), order).map(|verdict| (verdict.full, verdict.breaking))
        };
        assert_eq!(counts(&order), Ok((0, 0)));
        assert_eq!(counts(&order[1..]), Err(ORDER));
    }
}

#[test]
fn pages() {
    let long = "U=U\n".repeat(33);
    let cases: [(&[u8], &str, &str); 9] = [
        (T, "", "refused 19 0"),
        (T, &long, "refused 19 0"),
        (&T[1..], "", "refused 5 0"),
        (T, "\n", "refused 11 1"),
        (T, "U=U\nU=U\r\n\n", "refused 13 2"),
        (T, "|CR|=1\n|CR|=1", "held 2 0 1 held:1:0:0:ffffffffffffffff held:1:0:0:ffffffffffffffff"),
        (T, "|OE(S)|=1", "refused 14 1"),
        (
            T,
            "OE(S)=OE(S)\nU=U\n",
            "idle 1 0 2 idle:0:0:255:ffffffffffffffff held:1:0:0:ffffffffffffffff",
        ),
        (
            T,
            "AO(U)={}\nOE(S)=OE(S)\nOE(U)@U",
            "broken 4 2 2 broken:2:2:100:00ffffffffffffff idle:0:0:255:ffffffffffffffff held:2:0:0:ffffffffffffffff",
        ),
    ];
    for (tables, page, expected) in cases {
        let command = format!("page {} {}", hex(tables), hex(page.as_bytes()));
        for respond in [Command::plain, Command::fast] {
            assert_eq!(answer(command.as_bytes(), respond), expected, "{page:?}");
        }
    }
}

/// Tables of roles alone, by the low byte of each row.
fn roles(rows: &[u8]) -> Vec<u8> {
    let mut bytes = vec![rows.len() as u8];
    for &row in rows {
        bytes.extend([row, 0, 0, 0, 0, 0, 0, 0]);
    }
    bytes.extend([0; 9]);
    bytes
}

#[test]
fn steps_of_the_rank_test() {
    let longer = [roles(&[0]), vec![0]].concat();
    let cases = [
        (roles(&[]), 0),
        (T.to_vec(), 0),
        (vec![], 0),
        // Each step alone.
        (roles(&[0]), 1),
        (roles(&[0b011, 0b110, 0b100]), 2),
        (roles(&[0b11, 0b11]), 3),
        // Two of them: the earlier one, also where an earlier role fails the later one.
        (roles(&[0b011, 0b110, 0]), 1),
        (roles(&[0b011, 0b011, 0]), 1),
        (roles(&[0b0011, 0b0011, 0b0110, 0b1000]), 2),
        // A refusal that comes before 7.
        (longer, 0),
        (roles(&[0])[..17].to_vec(), 0),
        (roles(&[0b10]), 0),
    ];
    for (tables, step) in cases {
        let command = format!("rankstep {}", hex(&tables));
        for respond in [Command::plain, Command::fast] {
            let answered = answer(command.as_bytes(), respond);
            assert_eq!(answered, step.to_string(), "{command}");
        }
    }
}

/// The forecast for a rule, as the plain and the fast modules both tell it.
fn forecast(tables: &[u8], rule: &str) -> String {
    both(&format!(
        "forecast {} {}",
        hex(tables),
        hex(rule.as_bytes())
    ))
}

/// Tables in which every count is another one: 2 roles, 3 users, 5 sessions, 1 operation, 7 objects, so 7
/// permissions, 4 words in CR, 6 in CU, 8 in CP, 9 rows in Done. Nobody has a role.
fn counted() -> Vec<u8> {
    let word = |low: u8| [low, 0, 0, 0, 0, 0, 0, 0];
    let rows = |mark: &[u8], count: u8, of: fn(u8) -> u8| {
        let rows = (0..count).flat_map(|row| [mark, &word(of(row))].concat());
        [vec![count], rows.collect()].concat()
    };
    [
        rows(&[], 2, |row| 1 << row),
        rows(&[1], 3, |_| 0),
        rows(&[0], 5, |_| 0),
        vec![1, 7],
        rows(&[1], 7, |_| 0),
        rows(&[], 4, |row| row),
        rows(&[], 6, |row| row),
        rows(&[], 8, |row| row),
        vec![9],
        vec![0; 3 * 9],
    ]
    .concat()
}

#[test]
fn forecasts_count_the_sort_or_the_whole_collection() {
    let cases = [
        ("U=U", ":U=U", 1),
        ("OE(U)@U", "[v1@U]:v1@U", 3),
        ("OE(R)@R", "[v1@R]:v1@R", 2),
        ("OE(OP)@OP", "[v1@OP]:v1@OP", 1),
        ("OE(OBJ)@OBJ", "[v1@OBJ]:v1@OBJ", 7),
        ("OE(P)@P", "[v1@P]:v1@P", 7),
        ("OE(S)@S", "[v1@S]:v1@S", 5),
        ("OE(CR)={}", "[v1@CR]:v1={}", 4),
        ("OE(CP)={}", "[v1@CP]:v1={}", 8),
        ("OE(CU)={}", "[v1@CU]:v1={}", 6),
        // Terms of collection kind: the whole collection, also where they have fewer words.
        ("OE(AO(CR))={}", "[v1@CR][v2@(CR-{v1})]:v2={}", 16),
        ("OE((CP&AO(CP)))={}", "[v1@CP][v2@(CP&(CP-{v1}))]:v2={}", 64),
        ("OE((CU+CU))={}", "[v1@(CU+CU)]:v1={}", 6),
        // An element of a collection's element has its sort; a set may be empty under every choice.
        ("OE(OE(CR))@R", "[v1@CR][v2@v1]:v2@R", 8),
        ("OE(AO(OE(CU)))@U", "[v1@CU][v2@v1][v3@(v1-{v2})]:v3@U", 54),
        ("OE(roles(OE(U)))@R", "[v1@U][v2@roles(v1)]:v2@R", 6),
        ("OE((U&OE(U)))@U", "[v1@U][v2@(U&v1)]:v2@U", 9),
        ("OE(done(U,OE(OBJ)))@OP", "[v1@OBJ][v2@done(U,v1)]:v2@OP", 7),
        // Choices with one text are one variable.
        ("AO(U)=AO(U)^OE(U)@U", "[v1@U]:(U-{v1})=(U-{v1})^v1@U", 3),
    ];
    for (rule, formula, ceiling) in cases {
        let told = format!("{} {ceiling}", formula.len());
        assert_eq!(forecast(&counted(), rule), told, "{rule}");
    }
}

#[test]
fn forecasts_of_document_01s_rules() {
    let cases = [
        ("|(roles(OE(U))&OE(CR))|<=1", "33 2"),
        (std::str::from_utf8(B).unwrap(), "59 4"),
        ("AO(U)={}", "18 2"),
        ("|CR|=1", "7 1"),
        // No sessions: nothing can be full, whatever stands beside it.
        ("OE(S)@S^OE(U)@U", "22 0"),
    ];
    for (rule, told) in cases {
        assert_eq!(forecast(T, rule), told, "{rule}");
    }
}

#[test]
fn forecasts_are_refused_for_the_tables_first() {
    let deep = format!("{}U", "(".repeat(33));
    for (rule, number) in [("", 11), (&deep, 12), ("U", 13), ("OE(U)=U", 14)] {
        assert_eq!(forecast(T, rule), format!("refused {number}"));
        assert_eq!(forecast(&T[1..], rule), "refused 5");
    }
    assert_eq!(forecast(&[], "U=U"), "refused 1");
}

/// Two roles apart; users 0 and 2 with a role each and user 1 with this row; a session of the first of
/// `named` and a CU word of both; a byte more where there is one.
fn left(row: [u8; 2], named: [u8; 2], more: &[u8]) -> Vec<u8> {
    let word = |low: u8| [low, 0, 0, 0, 0, 0, 0, 0];
    let marked = |mark: u8, low: u8| [&[mark][..], &word(low)].concat();
    let users = [marked(1, 1), marked(row[0], row[1]), marked(1, 2)].concat();
    let cu = word(1 << named[0] | 1 << named[1]);
    let parts: [&[u8]; 11] = [
        &[2],
        &word(1),
        &word(2),
        &[3],
        &users,
        &[1],
        &marked(named[0], 0),
        &[0, 0, 0, 0, 1],
        &cu,
        &[0, 0],
        more,
    ];
    parts.concat()
}

/// What the plain and the fast modules both answer.
fn both(command: &str) -> String {
    let plain = answer(command.as_bytes(), Command::plain);
    assert_eq!(
        answer(command.as_bytes(), Command::fast),
        plain,
        "{command}"
    );
    plain
}

#[test]
fn what_is_still_there_of_a_leaver() {
    let cases = [
        (left([2, 0], [0, 2], &[]), 0),
        (left([2, 1], [0, 2], &[]), 20),
        (left([2, 0], [1, 2], &[]), 20),
        (left([2, 0], [0, 1], &[]), 20),
        // 10 before it; while reading 5 and the marks.
        (left([2, 1], [0, 2], &[0]), 10),
        (left([2, 4], [0, 2], &[]), 5),
        (left([2, 0], [3, 2], &[]), 5),
        (left([0, 4], [1, 1], &[]), 3),
        (left([3, 4], [1, 1], &[]), 4),
        // Whoever is entered is named.
        (left([1, 3], [1, 1], &[]), 0),
    ];
    for (tables, number) in cases {
        let command = format!("tables {}", hex(&tables));
        assert_eq!(both(&command), number.to_string(), "{command}");
    }
    // 20 before 7, and no step then.
    for (row, number, step) in [([2, 1], "20", "0"), ([2, 0], "7", "1")] {
        let mut tables = left(row, [0, 2], &[]);
        tables[1] = 0;
        assert_eq!(both(&format!("tables {}", hex(&tables))), number);
        assert_eq!(both(&format!("rankstep {}", hex(&tables))), step);
    }
}

#[test]
fn users_are_those_who_have_not_left() {
    let tables = left([2, 0], [2, 0], &[]);
    let sheet = "1 held 2 0 0\n2 held 1 0 0\n3 broken 2 1 50 v1=2\n4 held 2 0 0\n5 held 1 0 0\n\
                 total 5 held 4 idle 0 broken 1 refused 0\n";
    let rules = b"OE(U)=OE(U)\n|U|=2\nsessions(OE(U))={}\n|AO(U)|=1\nOE(CU)=U";
    assert_eq!(sheet::sheet(&tables, rules), sheet);
    assert_eq!(forecast(&tables, "OE(U)=OE(U)"), "12 2");
    assert_eq!(forecast(&tables, "OE(OE(CU))@U"), "19 2");
    let nobody = [&[0, 1, 2][..], &[0; 8], &[0; 8]].concat();
    assert_eq!(forecast(&nobody, "OE(U)=OE(U)"), "12 0");
    let rules = b"OE(U)=OE(U)\nU={}";
    let idle = "1 idle 0 0 -\n2 held 1 0 0\ntotal 2 held 1 idle 1 broken 0 refused 0\n";
    assert_eq!(sheet::sheet(&nobody, rules), idle);
}

/// No roles; three users, of whom the second left; two operations on four objects; these rows of Done, and
/// what stands behind them.
fn doing(rows: &[[u8; 3]], more: &[u8]) -> Vec<u8> {
    let marked = |mark: u8| [mark, 0, 0, 0, 0, 0, 0, 0, 0];
    let count = [0, 0, 0, rows.len() as u8];
    let parts: [&[u8]; 7] = [
        &[0, 3],
        &[1, 2, 1].map(marked).concat(),
        &[0, 2, 4, 8],
        &marked(1).repeat(8),
        &count,
        &rows.concat(),
        more,
    ];
    parts.concat()
}

#[test]
fn rows_of_done() {
    let short = |rows: &[[u8; 3]], missing: usize| {
        let tables = doing(rows, &[]);
        tables[..tables.len() - missing].to_vec()
    };
    let cases = [
        (vec![0; 10], 0),
        (vec![0; 9], 1),
        (doing(&[], &[]), 0),
        (short(&[], 1), 1),
        (doing(&[], &[0]), 10),
        // The last of each, a leaver among the users; each number at its count.
        (doing(&[[2, 1, 3], [1, 0, 0]], &[]), 0),
        (doing(&[[3, 0, 0]], &[]), 5),
        (doing(&[[0, 2, 0]], &[]), 5),
        (doing(&[[0, 0, 4]], &[]), 5),
        // A row is whole before it is looked at, and looked at before the next.
        (short(&[[3, 2, 4]], 1), 1),
        (short(&[[3, 2, 4]], 2), 1),
        (short(&[[3, 2, 4]], 3), 1),
        (short(&[[0, 0, 4], [0, 0, 0]], 1), 5),
        (doing(&[[0, 0, 4]], &[0]), 5),
        // Repeats fill the rows.
        (doing(&[[0, 1, 2]; 64], &[]), 0),
        (doing(&[[9, 9, 9]; 65], &[]), 2),
        (short(&[[0, 0, 0]; 65], 3 * 65), 2),
    ];
    for (tables, number) in cases {
        let command = format!("tables {}", hex(&tables));
        assert_eq!(both(&command), number.to_string(), "{command}");
    }
}

/// 5 in Done comes before 20 and before 7.
#[test]
fn done_is_read_before_the_whole_is_looked_at() {
    for row in [[2, 1], [2, 0]] {
        let mut tables = left(row, [0, 2], &[0; 3]);
        let count = tables.len() - 4;
        (tables[1], tables[count]) = (0, 1);
        assert_eq!(both(&format!("tables {}", hex(&tables))), "5");
        assert_eq!(both(&format!("rankstep {}", hex(&tables))), "0");
    }
}

#[test]
fn terms_of_done() {
    let accepted = [
        "U,OE(OBJ)",
        "OE(U),OE(OBJ)",
        "AO(OE(CU)),OE(OBJ)",
        "user(OE(S)),OE(OBJ)",
        "(U&OE(U)),OE(object(P))",
    ];
    let kind = [
        "R,OE(OBJ)",
        "CU,OE(OBJ)",
        "U,OBJ",
        "U,AO(OBJ)",
        "U,object(OE(P))",
        "U,(OE(OBJ)&OE(OBJ))",
        "U,OE(OP)",
        "OE(OBJ),OE(U)",
    ];
    let grammar = ["U", "", "U,", "U,OE(OBJ),OE(OBJ)", "U OE(OBJ)"];
    let asked = |name: &str, terms: &str| {
        let rule = format!("{name}({terms})={{}}");
        both(&format!("rule {}", hex(rule.as_bytes())))
    };
    for (all, number) in [(&accepted[..], "0"), (&kind, "14"), (&grammar, "13")] {
        for terms in all {
            assert_eq!(asked("done", terms), number, "{terms}");
        }
    }
    for name in ["done*", "Done", "don", "operations*"] {
        assert_eq!(asked(name, accepted[0]), "13", "{name}");
    }
    assert_eq!(asked("operations", accepted[0]), "14");
}

/// User 0 did both operations on object 2, user 2 one twice on object 0, and who left both on object 3.
#[test]
fn who_did_what() {
    let rows = [
        [0, 0, 2],
        [0, 1, 2],
        [2, 1, 0],
        [2, 1, 0],
        [1, 0, 3],
        [1, 1, 3],
    ];
    let rules = b"|done(OE(U),OE(OBJ))|<=1\ndone(U,OE(OBJ))={}\n|done(U,OE(OBJ))|<=1\n\
        done(OE(U),OE(OBJ))=operations(R,OE(OBJ))\nOE(done(OE(U),OE(OBJ)))@OP";
    let lines = "1 broken 8 1 12 v1=0 v2=2\n2 broken 4 2 50 v1=0\n3 broken 4 1 25 v1=2\n\
        4 broken 8 2 25 v1=0 v2=2\n5 held 3 0 0\n";
    let total = "total 5 held 1 idle 0 broken 4 refused 0\n";
    let turned: Vec<[u8; 3]> = rows.into_iter().rev().collect();
    for rows in [
        &rows[..],
        &turned,
        &rows[..4],
        &[&rows[..3], &rows].concat(),
    ] {
        let tables = doing(rows, &[]);
        assert_eq!(sheet::sheet(&tables, rules), [lines, total].concat());
        let page = format!("page {} {}", hex(&tables), hex(rules));
        assert!(both(&page).starts_with("broken 27 6 3 broken:8:1:12:0002ff"));
    }
}

/// Document 02's shares, others that are halves, and the largest counts with a choice more and less.
#[test]
fn a_half_goes_to_the_even_number() {
    let eighth = 64u64.pow(8) / 8;
    let cases = [
        (1, 8, 12),
        (3, 8, 38),
        (1, 2, 50),
        (1, 200, 0),
        (3, 200, 2),
        (199, 200, 100),
        (2, 3, 67),
        (eighth, 8 * eighth, 12),
        (eighth - 1, 8 * eighth, 12),
        (eighth + 1, 8 * eighth, 13),
        (3 * eighth - 1, 8 * eighth, 37),
        (3 * eighth, 8 * eighth, 38),
        (3 * eighth + 1, 8 * eighth, 38),
        (8 * eighth, 8 * eighth, 100),
        (0, 8 * eighth, 0),
        (0, 0, 255),
    ];
    for (breaking, full, share) in cases {
        let first = verdict::NO_CHOICE;
        let verdict = verdict::Verdict {
            full,
            breaking,
            first,
        };
        assert_eq!(verdict.share(), share, "{breaking} of {full}");
    }
}
