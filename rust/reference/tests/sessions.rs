//! Document 02, N9: sessions that come and go, by the plain and by the fast modules, and the command that asks for them.

use reference::protocol::{answer, hex, Command};
use reference::sessions::Change;
use reference::{fast, sessions, tables, verdict, Answer};

/// What one half of the reference makes of a state.
type Next = fn(&[u8], Change) -> Answer<Vec<u8>>;

const BOTH: [Next; 2] = [sessions::next, fast::sessions::next];

/// Roles 0 above 1, and 2 beside them; users 0 with role 0, 1 with role 1, 2 who left and 3 without a role; these
/// sessions of a user with the low byte of a word; one CR word of all roles; user 2 did the operation on the object.
fn mill(sessions: &[[u8; 2]]) -> Vec<u8> {
    let word = |low: u8| [low, 0, 0, 0, 0, 0, 0, 0];
    let row = |[first, low]: [u8; 2]| [&[first][..], &word(low)].concat();
    let users = [[1, 1], [1, 2], [2, 0], [1, 0]].map(row).concat();
    let open: Vec<u8> = sessions.iter().flat_map(|&session| row(session)).collect();
    let parts: [&[u8]; 14] = [
        &[3],
        &word(0b011),
        &word(0b010),
        &word(0b100),
        &[4],
        &users,
        &[sessions.len() as u8],
        &open,
        &[1, 1, 1],
        &row([1, 4]),
        &[1],
        &word(0b111),
        &[0, 0],
        &[1, 2, 0, 0],
    ];
    parts.concat()
}

/// What the plain and the fast modules both answer to a start and these calls.
fn followed(tables: &[u8], rule: &str, calls: &str) -> String {
    let command = format!("sessions {} {}{calls}", hex(tables), hex(rule.as_bytes()));
    let [plain, fast] =
        [Command::plain, Command::fast].map(|half| answer(command.as_bytes(), half));
    assert_eq!(plain, fast, "{command}");
    plain
}

#[test]
fn the_counts_follow_the_sessions() {
    let (start, hand, leader) = (mill(&[[1, 2]]), "0200000000000000", "0100000000000000");
    let calls = format!(" o:0:{leader} o:0:{hand} c:0 c:2 c:1 c:0 c:0");
    for (rule, expected) in [
        (
            "roles(OE(S))=roles(user(OE(S)))",
            "1:0 2:0 3:1 2:1 r22 1:0 0:0 r22",
        ),
        ("|sessions(OE(U))|<=1", "3:0 3:0 3:1 3:1 r22 3:0 3:0 r22"),
        ("|roles(OE(U))|>0", "3:1 3:1 3:1 3:1 r22 3:1 3:1 r22"),
        ("|S|<2", "1:0 1:1 1:1 1:1 r22 1:0 1:0 r22"),
    ] {
        assert_eq!(followed(&start, rule, &calls), expected, "{rule}");
    }
}

/// 21, then 5 for the user and for the word, then 20, then 8.
#[test]
fn what_an_opening_is_refused_for() {
    let opened = |sessions: usize, user: &str, word: &str| {
        let tables = mill(&vec![[3, 0]; sessions]);
        let answer = followed(&tables, "U=U", &format!(" o:{user}:{word}"));
        answer.strip_prefix("1:0 ").map(String::from)
    };
    let words = ["0000000000000000", "0200000000000000", "0800000000000000"];
    let expected = [
        ("0", ["1:0", "1:0", "r5"]),
        ("3", ["1:0", "r8", "r5"]),
        ("2", ["r20", "r20", "r5"]),
        ("4", ["r5", "r5", "r5"]),
        ("256", ["r5", "r5", "r5"]),
        ("4294967295", ["r5", "r5", "r5"]),
    ];
    for (user, answers) in expected {
        for (word, answer) in words.iter().zip(answers) {
            assert_eq!(opened(63, user, word).as_deref(), Some(answer), "{user}");
            assert_eq!(opened(64, user, word).as_deref(), Some("r21"), "{user}");
        }
    }
}

/// Of every kind of byte in every place of a state both halves make the same.
#[test]
fn both_halves_make_the_same_of_damaged_states() {
    let state = sessions::start(&mill(&[[1, 2], [0, 3]]), b"OE(S)@S").unwrap();
    let changes = [
        Change::Open { user: 0, roles: 2 },
        Change::Close { number: 1 },
    ];
    for place in 0..state.len() {
        for value in [0, 1, 2, 3, 4, 64, 65, 255] {
            let mut damaged = state.clone();
            damaged[place] = value;
            for change in changes {
                let [plain, fast] = BOTH.map(|next| next(&damaged, change));
                assert_eq!(plain, fast, "{value} at {place}");
            }
        }
        for change in changes {
            assert_eq!(
                BOTH.map(|next| next(&state[..place], change)),
                [Err(1), Err(1)]
            );
        }
    }
}

/// Tables are written as they were read, and a state has them and the verdict on them.
#[test]
fn tables_are_written_as_they_are_read() {
    let (tables, rule) = (mill(&[[0, 3], [1, 2], [3, 0]]), b"|roles(OE(S))|>0");
    assert_eq!(tables::read(&tables).unwrap().bytes(), tables);
    let mut state = verdict::judge(&tables, rule, &[1]).unwrap().bytes();
    state.extend([rule.len() as u8, 0]);
    state.extend([&rule[..], &tables].concat());
    assert_eq!(sessions::start(&tables, rule).unwrap(), state);
    assert_eq!(fast::sessions::start(&tables, rule).unwrap(), state);
}

/// The tables' own refusal, then the rule's.
#[test]
fn a_refused_start() {
    let tables = mill(&[]);
    for (tables, rule, number) in [
        (&tables[1..], "", 5),
        (&tables[..tables.len() - 1], "S=S", 1),
        (&tables, "", 11),
        (&tables, "S", 13),
        (&tables, "S=U", 14),
    ] {
        assert_eq!(followed(tables, rule, " c:0"), format!("refused {number}"));
    }
}

/// A number is digits that 32 bits hold, with zeros in front or not; a word is eight bytes. Anything else is no command,
/// also where the start would be refused.
#[test]
fn commands_that_are_none() {
    let word = "0000000000000000";
    for (calls, expected) in [
        ("", "1:0"),
        (" c:0", "1:0 r22"),
        (" c:000000000000000000000000000000", "1:0 r22"),
        (" c:4294967295", "1:0 r22"),
        (&format!(" o:003:{word}"), "1:0 1:0"),
        (&format!(" o:4294967295:{word}"), "1:0 r5"),
    ] {
        assert_eq!(followed(&mill(&[]), "U=U", calls), expected, "{calls}");
    }
    let malformed = format!(
        "/ /  c:0/ c:0 / c/ c:/ c:-1/ c:+1/ c:0x1/ c:1a/ c:4294967296/ c:18446744073709551616/ c:0:0/ C:0/ :0/ x:0\
         / o/ o:/ o:0/ o:0:/ o:0:-/ o::{word}/ o:-:{word}/ o:4294967296:{word}/ o:0:{word}:/ o:0:{word}00/ O:0:{word}\
         / o:0:00000000000000/ o:0:000000000000000/ o:0:000000000000000g/ o:0:000000000000000A/ o 0 {word}/ c:0,c:0"
    );
    for calls in malformed.split('/').skip(1) {
        for tables in [&mill(&[])[..], &[]] {
            assert_eq!(followed(tables, "U=U", calls), "?", "{calls:?}");
        }
    }
    for line in [
        "sessions",
        "sessions -",
        "sessions 00 0",
        "session - -",
        "Sessions - -",
    ] {
        assert_eq!(answer(line.as_bytes(), Command::plain), "?", "{line}");
    }
}
