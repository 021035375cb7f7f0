//! Compiled by `build.rs` with the archive and run: asks it what this version of the crate says
//! that it answers, and fails where an answer is another.

#[path = "src/library.rs"]
mod library;

use std::process::exit;

/// Document 01's tables T: two roles, two users, the first with both roles, and one CR word.
const T: &[u8] = b"\x02\x01\0\0\0\0\0\0\0\x02\0\0\0\0\0\0\0\
    \x02\x01\x03\0\0\0\0\0\0\0\x01\x01\0\0\0\0\0\0\0\0\0\0\0\x01\x03\0\0\0\0\0\0\0\0\0\0";

/// Role 0 above role 1, a user with role 0, a session of the user with role 1.
const JUNIOR: &[u8] = b"\x02\x03\0\0\0\0\0\0\0\x02\0\0\0\0\0\0\0\
    \x01\x01\x01\0\0\0\0\0\0\0\x01\0\x02\0\0\0\0\0\0\0\0\0\0\0\0\0\0";

/// The same, but the user has role 1 and the session role 0.
const SENIOR: &[u8] = b"\x02\x03\0\0\0\0\0\0\0\x02\0\0\0\0\0\0\0\
    \x01\x01\x02\0\0\0\0\0\0\0\x01\0\x01\0\0\0\0\0\0\0\0\0\0\0\0\0\0";

/// Three roles: the first misses a junior's junior, the last one itself.
const MISSING: &[u8] = b"\x03\x03\0\0\0\0\0\0\0\x06\0\0\0\0\0\0\0\0\0\0\0\0\0\0\0\
    \0\0\0\0\0\0\0\0\0";

/// One role and three users: without a role, left, with the role.
const LEAVER: &[u8] = b"\x01\x01\0\0\0\0\0\0\0\x03\x01\0\0\0\0\0\0\0\0\
    \x02\0\0\0\0\0\0\0\0\x01\x01\0\0\0\0\0\0\0\0\0\0\0\0\0\0\0";

/// A user who left, and a session.
const BACK: &[u8] = b"\0\x01\x02\0\0\0\0\0\0\0\0\x01\0\0\0\0\0\0\0\0\0\0\0\0\0\0\0\0";

/// One role and eight users, the first with the role.
const EIGHT: &[u8] = b"\x01\x01\0\0\0\0\0\0\0\x08\x01\x01\0\0\0\0\0\0\0\
    \x01\0\0\0\0\0\0\0\0\x01\0\0\0\0\0\0\0\0\x01\0\0\0\0\0\0\0\0\x01\0\0\0\0\0\0\0\0\
    \x01\0\0\0\0\0\0\0\0\x01\0\0\0\0\0\0\0\0\x01\0\0\0\0\0\0\0\0\0\0\0\0\0\0\0\0";

/// Two users, one operation on two objects, which the second user did on the second object.
const DONE: &[u8] = b"\0\x02\x01\0\0\0\0\0\0\0\0\x01\0\0\0\0\0\0\0\0\0\x01\x02\x02\
    \x01\0\0\0\0\0\0\0\0\x01\0\0\0\0\0\0\0\0\0\0\0\x01\x01\0\x01";

/// Three users, two sessions of the first and then one of the last, and CU words of the first two, of the second, and of
/// the first and the last.
const FAMILIES: &[u8] = b"\0\x03\x01\0\0\0\0\0\0\0\0\x01\0\0\0\0\0\0\0\0\x01\0\0\0\0\0\0\0\0\
    \x03\0\0\0\0\0\0\0\0\0\0\0\0\0\0\0\0\0\0\x02\0\0\0\0\0\0\0\0\0\0\0\0\
    \x03\x03\0\0\0\0\0\0\0\x02\0\0\0\0\0\0\0\x05\0\0\0\0\0\0\0\0\0";

/// The beginning of tables with one user, who has 64 sessions without a role.
const FULL: &[u8] = b"\0\x01\x01\0\0\0\0\0\0\0\0\x40";

const A: &[u8] = b"|(roles(OE(U))&OE(CR))|<=1";
const B: &[u8] = b"OE(OE(CR))@roles(OE(U))=>(AO(OE(CR))&roles(OE(U)))={}";

/// What the sessions that come and go are judged by: each has all roles active.
const ALL: &[u8] = b"roles(OE(S))=R";

/// One full choice, without variables, that breaks nothing.
const HELD: [u8; 26] = *b"\0\x01\0\0\0\0\0\0\0\0\0\0\0\0\0\0\0\xff\xff\xff\xff\xff\xff\xff\xff\0";

/// What A gives on T: broken, 2 full, 1 breaking.
const BROKEN: &[u8] = b"\x02\x02\0\0\0\0\0\0\0\x01\0\0\0\0\0\0\0\0\0\xff\xff\xff\xff\xff\xff\x32";

/// A page of which two lines choose alike, and what it gives on T: broken, 5 full, 1 breaking, 2 walks.
const PAGE: &[u8] = b"|(roles(OE(U))&OE(CR))|<=1\n|CR|=1\n|(roles(OE(U))&OE(CR))|>0";
const PAGE_HEAD: &[u8] = b"\x02\x05\0\0\0\0\0\0\0\x01\0\0\0\0\0\0\0\x02";

/// The byte that fills a lent output before the call.
const FILL: u8 = b'.';

/// The length of a lent output: the longest answer below and some bytes more.
const LENT: usize = 128;

// By what the requests after document 01 change, their archives are told apart.
fn main() {
    document_01();
    hierarchies_pages_and_forecasts();
    leavers_shares_and_done();
    sessions_that_come_and_go();
    what_a_reader_sees();
}

/// The calls of document 01: arguments, numbers, lengths, the bytes of a verdict.
fn document_01() {
    let formula = b"[v1@U][v2@CR]:|(roles(v1)&v2)|<=1";
    holds("reduce A", (33, formula), |out| library::reduce(A, out));
    holds("rebuild A", (26, A), |out| library::rebuild(formula, out));
    holds("K", refused(16), |out| library::rebuild(b"[v1@U]:U=U", out));
    holds("E", (26, BROKEN), |out| library::judge(T, A, &[1, 2], out));
    holds("J", refused(18), |out| {
        library::judge(T, B, &[2, 1, 3], out)
    });
    holds("17", refused(17), |out| library::reduce(A, &mut out[..32]));
}

/// A junior role is accepted (N2), a senior one is 8; a page (N3) has its counts and the position of a refused
/// line; the rank test goes step by step over all roles (N4), behind what is left over; a forecast (N5) counts
/// the roles of the tables for a variable whose set has one of them, and looks at the tables first.
fn hierarchies_pages_and_forecasts() {
    holds("N2", (26, &HELD), |out| {
        library::judge(JUNIOR, b"U=U", &[], out)
    });
    holds("8", refused(8), |out| {
        library::judge(SENIOR, b"U=U", &[], out)
    });
    let alike = b"\0\x02\0\0\0\0\0\0\0\0\0\0\0\0\0\0\0\xff\xff\xff\xff\xff\xff\xff\xff\0";
    let page = [PAGE_HEAD, BROKEN, &HELD, alike].concat();
    holds("N3", (96, &page), |out| library::judge_page(T, PAGE, out));
    holds("19", refused(19), |out| library::judge_page(T, b"", out));
    holds("a page's second line", (65_536 * 11 + 2, b""), |out| {
        library::judge_page(T, b"U=U\n\nU=U\n", out)
    });
    holds("N4", (1, b""), |_| library::rank_step(MISSING));
    let longer = [MISSING, b"\0"].concat();
    holds("10 before 7", (0, b""), |_| library::rank_step(&longer));
    // `[v1@U][v2@roles(v1)]:v2@R`: 25 bytes, a user times two roles.
    let told = b"\x19\0\0\0\0\0\0\0\x02\0\0\0\0\0\0\0";
    holds("N5", (16, told), |out| {
        library::forecast(JUNIOR, b"OE(roles(OE(U)))@R", out)
    });
    holds("8 before 11", refused(8), |out| {
        library::forecast(SENIOR, b"", out)
    });
}

/// Whoever left is not among the users (N6), keeps the number and has no session, or that is 20; a half in a
/// hundred goes to the even number (N7); the tenth section (N8) is read, and due.
fn leavers_shares_and_done() {
    let rule = b"roles(OE(U))={}";
    holds("N6", (26, &broken_by(2, 2, 50)), |out| {
        library::judge(LEAVER, rule, &[1], out)
    });
    holds("20", refused(20), |out| {
        library::judge(BACK, rule, &[1], out)
    });
    // One choice of eight: 12.5 in a hundred are 12.
    holds("N7", (26, &broken_by(8, 0, 12)), |out| {
        library::judge(EIGHT, rule, &[1], out)
    });
    holds("N8", (26, &broken_by(2, 1, 50)), |out| {
        library::judge(DONE, b"done(U,OE(OBJ))={}", &[1], out)
    });
    let nine = &DONE[..DONE.len() - 4];
    holds("nine sections", refused(1), |out| {
        library::judge(nine, b"U=U", &[], out)
    });
}

/// A session is opened behind the last (N9), those behind one that is closed move down, and the verdict follows;
/// 21 comes before 5, and the number of sessions is the first that is 22.
fn sessions_that_come_and_go() {
    let state = |verdict: [u8; 26], sessions: &[u8]| {
        let (before, behind) = (&JUNIOR[..27], &JUNIOR[37..]);
        [&verdict[..], b"\x0e\0", ALL, before, sessions, behind].concat()
    };
    let start = state(broken_by(1, 0, 100), b"\x01\0\x02\0\0\0\0\0\0\0");
    holds("N9", (start.len() as u32, &start), |out| {
        library::sessions_start(JUNIOR, ALL, out)
    });
    let two = state(
        broken_by(2, 0, 50),
        b"\x02\0\x02\0\0\0\0\0\0\0\0\x03\0\0\0\0\0\0\0",
    );
    holds("a session opened", (two.len() as u32, &two), |out| {
        library::session_open(&start, 0, 3, out)
    });
    let one = state(HELD, b"\x01\0\x03\0\0\0\0\0\0\0");
    holds("a session closed", (one.len() as u32, &one), |out| {
        library::session_close(&two, 0, out)
    });
    holds("22", refused(22), |out| {
        library::session_close(&one, 1, out)
    });
    let full = [&HELD[..], b"\x03\0", b"U=U", FULL, &[0; 64 * 9 + 7]].concat();
    holds("21 before 5", refused(21), |out| {
        library::session_open(&full, 1, 0, out)
    });
}

/// A reader of the last two users (N10) sees the last session as number 0 and two words of CU, a reader of the first
/// none of what the second did, one of all the day sheet, whose total stands behind the last line; 20 comes before 23,
/// 23 before the length of the rules, and a place without a line needs no room.
fn what_a_reader_sees() {
    let rule = b"OE(S)@S^(user(S)&OE(CU))={}";
    holds("N10", (25, b"1 broken 2 1 50 v1=0 v2=1"), |out| {
        library::sheet_line(FAMILIES, 0b110, rule, 1, out)
    });
    let rules = b"done(U,OE(OBJ))={}\n";
    let asked = |tables: &'static [u8], reader: u64, place: usize| {
        move |out: &mut [u8]| library::sheet_line(tables, reader, rules, place, out)
    };
    holds("Done of a reader", (12, b"1 held 2 0 0"), asked(DONE, 1, 1));
    holds(
        "all users",
        (20, b"1 broken 2 1 50 v1=1"),
        asked(DONE, 3, 1),
    );
    holds(
        "a reader's total",
        (40, b"total 1 held 1 idle 0 broken 0 refused 0"),
        asked(DONE, 1, 2),
    );
    holds("23", refused(23), asked(DONE, 4, 1));
    holds("20 before 23", refused(20), asked(BACK, 2, 1));
    let long = [b'\n'; 32_769];
    holds("23 before the rules", refused(23), |out| {
        library::sheet_line(DONE, 4, &long, 1, out)
    });
    holds("rules too long", (14, b"rules too long"), |out| {
        library::sheet_line(DONE, 1, &long, 1, out)
    });
    holds("no line", (0, b""), |_| {
        library::sheet_line(DONE, 1, rules, 3, &mut [])
    });
}

fn refused(number: u32) -> (u32, &'static [u8]) {
    (65_536 * number, b"")
}

/// The verdict with one of so many choices broken, that of the item.
fn broken_by(full: u8, item: u8, share: u8) -> [u8; 26] {
    let mut verdict = [0xff; 26];
    verdict[..17].copy_from_slice(b"\x02\0\0\0\0\0\0\0\0\x01\0\0\0\0\0\0\0");
    (verdict[1], verdict[17], verdict[25]) = (full, item, share);
    verdict
}

/// The call returns this number, and leaves these bytes and then what was there.
fn holds(name: &str, expected: (u32, &[u8]), call: impl FnOnce(&mut [u8]) -> u32) {
    let (number, bytes) = expected;
    let (mut out, mut after) = ([FILL; LENT], [FILL; LENT]);
    after[..bytes.len()].copy_from_slice(bytes);
    let reply = call(&mut out);
    if reply == number && out == after {
        return;
    }
    match reply == number {
        true => println!("example {name} gives other bytes"),
        false => println!("example {name} gives {reply} and not {number}"),
    }
    exit(1);
}
