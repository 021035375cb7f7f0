//! Document 02, N10: the sheet that a reader sees, by the plain and by the fast modules, and the command that asks for a
//! line of it.

use reference::protocol::{answer, hex, Command};
use reference::set::Set;
use reference::{fast, readers, sheet, tables, Answer};

/// Roles 0 and 1 apart. Users 0 with both roles, 1 with role 0, 2 who left, 3 with role 1 and 4 without a role. Sessions of
/// users 0, 3, 1 and 3. One operation on one object, which users 0, 2 and 3 did. A CR word of both roles; CU words of users
/// 0 and 1, 3 and 4, 1 alone, 0 and 3.
fn mill() -> Vec<u8> {
    let word = |low: u8| [low, 0, 0, 0, 0, 0, 0, 0];
    let row = |[first, low]: [u8; 2]| [&[first][..], &word(low)].concat();
    let users = [[1, 0b11], [1, 0b01], [2, 0], [1, 0b10], [1, 0]];
    let sessions = [[0, 0b01], [3, 0b10], [1, 0b01], [3, 0]];
    let parts: [&[u8]; 13] = [
        &[2],
        &word(0b01),
        &word(0b10),
        &[5],
        &users.map(row).concat(),
        &[4],
        &sessions.map(row).concat(),
        &[1, 1, 1],
        &row([1, 0]),
        &[1, 0b11, 0, 0, 0, 0, 0, 0, 0, 4],
        &[0b00011, 0b11000, 0b00010, 0b01001].map(word).concat(),
        &[0, 3],
        &[0, 0, 0, 2, 0, 0, 3, 0, 0],
    ];
    parts.concat()
}

/// The words of a list of sets.
fn words(sets: &[Set]) -> Vec<u8> {
    sets.iter().map(|set| set.word()[0]).collect()
}

#[test]
fn what_is_left_of_tables() {
    let tables = tables::read(&mill()).unwrap();
    let seen = |reader: u8| tables.cut(&Set::of(|user| user < 8 && reader >> user & 1 == 1));
    // Users 1, 2 and 3: of the CU words the third becomes as the first.
    let cut = seen(0b01110);
    assert_eq!(words(&cut.assigned), [0, 0b01, 0, 0b10, 0]);
    assert_eq!(cut.present.word()[0], 0b01010);
    let sessions = cut.sessions.iter().map(|session| session.user);
    assert!(sessions.eq([3, 1, 3]));
    assert_eq!(words(&cut.cu), [0b00010, 0b01000]);
    assert!(cut.done.iter().map(|row| row.user).eq([2, 3]));
    // User 4 alone, whom one word names; nobody, whom none does.
    assert_eq!(words(&seen(0b10000).cu), [0, 0b10000]);
    assert_eq!(words(&seen(0).cu), [0]);
    // A cut is cut no further, and is accepted; all users are cut of nothing.
    for reader in 0..32 {
        let cut = seen(reader);
        assert_eq!(
            cut.cut(&Set::of(|user| user < 8 && reader >> user & 1 == 1)),
            cut
        );
        assert_eq!(tables::read(&cut.bytes()).as_ref(), Ok(&cut));
    }
    assert_eq!(seen(0b11111), tables);
}

/// Each line of a sheet by both halves, up to the place behind the last one.
fn sheet_of(tables: &[u8], reader: u64, rules: &str) -> Answer<Vec<String>> {
    let mut lines = Vec::new();
    loop {
        let halves = [readers::line, fast::readers::line];
        let [plain, fast] =
            halves.map(|line| line(tables, reader, rules.as_bytes(), lines.len() + 1));
        assert_eq!(plain, fast);
        match String::from_utf8(plain?).unwrap() {
            line if line.is_empty() => return Ok(lines),
            line => lines.push(line),
        }
    }
}

#[test]
fn sheets_of_readers() {
    let rules = "|(roles(OE(U))&OE(CR))|<=1\nuser(OE(S))@U\nOE(CU)={}\nroles(OE(U))!={}\ndone(OE(U),OE(OBJ))={}\n\n";
    let cases = [
        (
            0b11111,
            "1 broken 4 1 25 v1=0 v2=0|2 held 4 0 0|3 broken 4 4 100 v1=0|4 broken 4 1 25 v1=4|5 broken 4 2 50 v1=0 v2=0\
             |6 refused 11|total 6 held 1 idle 0 broken 4 refused 1",
        ),
        // Without user 0 nobody has both roles, and the words of CU are two.
        (
            0b01110,
            "1 held 2 0 0|2 held 3 0 0|3 broken 2 2 100 v1=0|4 held 2 0 0|5 broken 2 1 50 v1=3 v2=0\
             |6 refused 11|total 6 held 3 idle 0 broken 2 refused 1",
        ),
        // A leaver alone: the one word of CU is empty.
        (
            0b00100,
            "1 idle 0 0 -|2 idle 0 0 -|3 held 1 0 0|4 idle 0 0 -|5 idle 0 0 -|6 refused 11\
             |total 6 held 1 idle 4 broken 0 refused 1",
        ),
    ];
    for (reader, lines) in cases {
        let lines: Vec<String> = lines.split('|').map(String::from).collect();
        assert_eq!(sheet_of(&mill(), reader, rules), Ok(lines));
    }
    let nobody = sheet_of(&mill(), 0, rules);
    assert_eq!(nobody, sheet_of(&mill(), 0b00100, rules));
    let all = sheet_of(&mill(), 0b11111, rules).unwrap().join("\n") + "\n";
    assert_eq!(all, sheet::sheet(&mill(), rules.as_bytes()));
}

/// The tables' number, then 23 by the count of users, then the length of the rules.
#[test]
fn what_a_line_is_refused_for() {
    let (tables, long) = (mill(), "\n".repeat(32_769));
    for (bytes, number) in [(&tables[1..], 5), (&tables[..tables.len() - 1], 1)] {
        assert_eq!(sheet_of(bytes, u64::MAX, &long), Err(number));
    }
    for reader in [1 << 5, 1 << 63, u64::MAX, 0b111111] {
        assert_eq!(sheet_of(&tables, reader, &long), Err(23));
        assert_eq!(sheet_of(&tables, reader, ""), Err(23));
    }
    for reader in [0, 0b11111] {
        assert_eq!(
            sheet_of(&tables, reader, &long),
            Ok(vec!["rules too long".to_string()])
        );
        let none = "total 0 held 0 idle 0 broken 0 refused 0".to_string();
        assert_eq!(sheet_of(&tables, reader, ""), Ok(vec![none]));
    }
    let user = [1, 0, 0, 0, 0, 0, 0, 0, 0];
    let crowd = [&[0, 64][..], &user.repeat(64), &[0; 8]].concat();
    let line = sheet_of(&crowd, u64::MAX, "|U|=64").unwrap().swap_remove(0);
    assert_eq!(line, "1 held 1 0 0");
}

/// What both halves answer to a command.
fn asked(fields: &str) -> String {
    let command = format!("line {} {fields}", hex(&mill()));
    let [plain, fast] =
        [Command::plain, Command::fast].map(|half| answer(command.as_bytes(), half));
    assert_eq!(plain, fast, "{command}");
    plain
}

#[test]
fn lines_into_lent_bytes() {
    let (rules, held) = (hex(b"U=U\n"), hex(b"1 held 1 0 0"));
    let reader = "0300000000000000";
    let cases = [
        (format!("{reader} {rules} 1 12"), format!("12 {held}")),
        (format!("{reader} {rules} 1 13"), format!("12 {held}a5")),
        (
            format!("{reader} {rules} 1 11"),
            format!("1114112 {}", "a5".repeat(11)),
        ),
        // Where there is no line, no output is too short.
        (format!("{reader} {rules} 0 1"), "0 a5".to_string()),
        (format!("{reader} {rules} 3 0"), "0 -".to_string()),
        (
            format!("{reader} {rules} 004294967295 0"),
            "0 -".to_string(),
        ),
        (
            format!("2000000000000000 {rules} 0 0"),
            "1507328 -".to_string(),
        ),
    ];
    for (fields, expected) in cases {
        assert_eq!(asked(&fields), expected, "{fields}");
    }
}

#[test]
fn commands_that_are_none() {
    for fields in [
        "- - 1 9",
        "00000000000000 - 1 9",
        "000000000000000000 - 1 9",
        "000000000000000G - 1 9",
        "0000000000000000 - 1",
        "0000000000000000 - 1 9 9",
        "0000000000000000  1 9",
        "0000000000000000 - 4294967296 9",
        "0000000000000000 - -1 9",
        "0000000000000000 -  9",
        "0000000000000000 - 1 65537",
        "0000000000000000 - 1 ",
    ] {
        assert_eq!(asked(fields), "?", "{fields:?}");
    }
}
