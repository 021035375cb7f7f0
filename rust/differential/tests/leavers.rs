//! Members who leave: what is still there of one is 20, behind 10 and before 7, 8 and 9; nobody else's number
//! moves, and no leaver is counted.

use differential::leavers::{Still, STILL};
use differential::random::Random;
use differential::tables::{self, Plain};
use differential::{leavers, scaled};
use rcl2000::{check_tables, forecast, judge_in_turn, rank_step, Refusal};

/// A thing that the checks behind the sections look for, with its number.
type Late = (u32, fn(&mut Plain));

/// Each but 20, in the order in which they are looked for. What is left over is a byte and no row.
const LATE: [Late; 4] = [
    (10, |_| {}),
    (7, |plain| plain.roles[0] = 0),
    (8, |plain| {
        let user = plain.present()[0];
        plain.users[user] = 0;
        plain
            .sessions
            .push((user as u8, 1 << (plain.roles.len() - 1)));
    }),
    (9, |plain| plain.cr.push(plain.cr[0])),
];

/// Small tables of everything, with a leaver and somebody present.
fn with_a_leaver(random: &mut Random) -> Plain {
    loop {
        let mut plain = tables::filled(random, 7);
        plain.leave_some(random, 1);
        if plain.left != 0 {
            return plain;
        }
    }
}

/// The number that the library gives to tables with some of the late faults.
fn number(mut plain: Plain, faults: &[Late]) -> u32 {
    faults.iter().for_each(|(_, spoil)| spoil(&mut plain));
    let mut bytes = plain.bytes();
    bytes.extend(faults.iter().filter(|(number, _)| *number == 10).map(|_| 0));
    let number = check_tables(&bytes).map_or_else(Refusal::number, |()| 0);
    assert_eq!(rank_step(&bytes).is_some(), number == 7);
    number
}

#[test]
fn late_checks_run_10_20_7_8_9() {
    let random = &mut Random::new(31);
    for _ in 0..scaled(100) {
        let plain = with_a_leaver(random);
        for chosen in 0..1 << LATE.len() {
            let faults = (0..LATE.len()).filter(|place| chosen >> place & 1 == 1);
            let faults: Vec<Late> = faults.map(|place| LATE[place]).collect();
            let first = faults.first().map_or(0, |(number, _)| *number);
            assert_eq!(number(plain.clone(), &faults), first);
            for still in STILL {
                let mut plain = plain.clone();
                plain.keep(random, still);
                let expected = if first == 10 { 10 } else { 20 };
                assert_eq!(number(plain, &faults), expected, "{still:?} {chosen:b}");
            }
        }
    }
}

/// What is met while reading comes before 20, and a leaver's row is read as any other.
#[test]
fn reading_comes_before_20() {
    let random = &mut Random::new(32);
    for _ in 0..scaled(200) {
        let mut plain = with_a_leaver(random);
        let leaver = plain.left.trailing_zeros() as usize;
        plain.keep(random, Still::Session);
        assert_eq!(number(plain.clone(), &[]), 20);
        plain.users[leaver] = 1 << plain.roles.len();
        assert_eq!(number(plain.clone(), &[]), 5);
        plain.users[leaver] = 0;
        plain.cp.push(1 << plain.permissions.len());
        assert_eq!(number(plain, &[]), 5);
    }
}

/// Each mark in each row that has one: 3 for 0, 4 above 2 in a user's row and above 1 in a permission's.
#[test]
fn every_mark_of_every_row() {
    let random = &mut Random::new(33);
    for _ in 0..scaled(10) {
        let mut plain = tables::filled(random, 5);
        plain.users.fill(0);
        plain.sessions.clear();
        plain.cu.clear();
        let (bytes, users) = (plain.bytes(), plain.users.len());
        for (row, at) in plain.marks().into_iter().enumerate() {
            let highest = if row < users { 2 } else { 1 };
            for mark in 0..=255 {
                let mut bytes = bytes.clone();
                bytes[at] = mark;
                let expected = match mark {
                    0 => Err(Refusal::NotEntered),
                    mark if mark > highest => Err(Refusal::BadMark),
                    _ => Ok(()),
                };
                assert_eq!(check_tables(&bytes), expected, "mark {mark} of row {row}");
            }
        }
    }
}

/// U is who is present, by number: counted by verdicts and forecasts, and each of them found by a rule that
/// the others keep.
#[test]
fn who_is_present_is_counted_and_keeps_the_number() {
    let random = &mut Random::new(34);
    for _ in 0..scaled(300) {
        let mut plain = with_a_leaver(random);
        let present = plain.present();
        let count = present.len() as u64;
        let bytes = plain.bytes();
        let verdict = judge_in_turn(&bytes, b"OE(U)=OE(U)").unwrap();
        assert_eq!((verdict.full, verdict.breaking), (count, 0));
        assert_eq!(
            forecast(&bytes, b"OE(AO(U))@U").unwrap().ceiling,
            count * count
        );
        let size = format!("|U|={count}");
        assert_eq!(judge_in_turn(&bytes, size.as_bytes()).unwrap().breaking, 0);
        plain.users.fill(0);
        plain.sessions.clear();
        for user in present {
            let mut alone = plain.clone();
            alone.users[user] = 1;
            let verdict = judge_in_turn(&alone.bytes(), b"roles(OE(U))={}").unwrap();
            assert_eq!((verdict.full, verdict.breaking), (count, 1));
            assert_eq!(verdict.first[0], Some(user as u8));
        }
    }
}

/// No function yields a leaver: of everything, and of each item.
#[test]
fn users_are_present_users() {
    let random = &mut Random::new(35);
    for _ in 0..scaled(300) {
        let bytes = with_a_leaver(random).bytes();
        for rule in [
            "(user(R)&U)=user(R)",
            "(user(S)&U)=user(S)",
            "user(OE(S))@U",
            "(user(OE(R))&U)=user(OE(R))",
            "OE(OE(CU))@U",
        ] {
            assert_eq!(judge_in_turn(&bytes, rule.as_bytes()).unwrap().breaking, 0);
        }
    }
}

/// Of the accepted tables many have leavers, in many of these below somebody present, and in some all left;
/// the tables of the leavers' stream are refused 20 often.
#[test]
fn leavers_are_met_often() {
    let random = &mut Random::new(36);
    let (mut some, mut between, mut all, mut refused) = (0, 0, 0, 0);
    for _ in 0..2_000 {
        let plain = tables::accepted(random, 9);
        let present = plain.present();
        let below = present
            .iter()
            .any(|&user| plain.left & ((1 << user) - 1) != 0);
        some += u32::from(plain.left != 0);
        between += u32::from(below);
        all += u32::from(plain.left != 0 && present.is_empty());
        refused += u32::from(check_tables(&leavers::any(random)) == Err(Refusal::Left));
    }
    assert!(
        some >= 300 && between >= 200 && all >= 50,
        "{some} {between} {all}"
    );
    assert!(refused >= 300, "{refused}");
}
