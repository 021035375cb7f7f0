//! Shares: of all counts of few choices, of counts with many halves among them, and of the largest counts, which
//! no walk from choice to choice reaches.

use differential::hold::Question;
use differential::tables::Plain;
use rcl2000::{judge_in_turn, Verdict};

/// Document 02, N7, as it is read: twice the distance of s × full from 100 × breaking is at most full, and where
/// it is exactly full, s is even.
fn is_share(full: u64, breaking: u64, share: u8) -> bool {
    let twice = 2 * (u64::from(share) * full).abs_diff(100 * breaking);
    twice < full || twice == full && share % 2 == 0
}

/// The verdict has these counts, and of all numbers its share alone is theirs.
fn has_the_share(verdict: &Verdict, full: u64, breaking: u64) {
    assert_eq!((verdict.full, verdict.breaking), (full, breaking));
    let all = (0..=u8::MAX).filter(|&share| is_share(full, breaking, share));
    let share = verdict.share.expect("a rule that met a choice has one");
    assert_eq!(all.collect::<Vec<_>>(), [share], "{breaking} of {full}");
}

/// Tables with so many roles, each apart, and users with these words of them.
fn assigned(roles: usize, users: impl Iterator<Item = u64>) -> Vec<u8> {
    let plain = Plain {
        roles: (0..roles).map(|role| 1 << role).collect(),
        users: users.collect(),
        ..Plain::default()
    };
    plain.bytes()
}

/// The lowest roles, so many of them.
fn lowest(roles: usize) -> u64 {
    u64::MAX.checked_shr(64 - roles as u32).unwrap_or(0)
}

/// Of the pairs of a role and a user so many are assigned, and these break the rule.
fn pairs(roles: usize, users: usize, breaking: usize) -> Verdict {
    let held = |user: usize| breaking.saturating_sub(user * roles).min(roles);
    let tables = assigned(roles, (0..users).map(|user| lowest(held(user))));
    let question = Question::judge_in_turn(tables.clone(), "OE(R)@roles(OE(U))=>U={}");
    question.hold(&question.fast(), Verdict::BYTES, 16);
    let verdict = judge_in_turn(&tables, b"OE(R)@roles(OE(U))=>U={}").unwrap();
    has_the_share(&verdict, (roles * users) as u64, breaking as u64);
    verdict
}

#[test]
fn shares_that_are_named() {
    let eighths = [(1, 12), (3, 38), (5, 62), (7, 88)];
    for (breaking, share) in eighths {
        assert_eq!(pairs(2, 4, breaking).share, Some(share));
    }
    assert_eq!(pairs(1, 2, 1).share, Some(50));
    for (breaking, share) in [(1, 0), (3, 2), (5, 2), (197, 98), (199, 100)] {
        assert_eq!(pairs(10, 20, breaking).share, Some(share));
    }
}

#[test]
fn every_share_of_at_most_64_choices() {
    for full in 1..=64 {
        for breaking in 0..=full {
            pairs(1, full, breaking);
        }
    }
}

/// Every odd count of 200, every sixteenth of 3,200 and four of 4,096 are halves.
#[test]
fn every_share_of_more_choices() {
    for (roles, users, halves) in [(10, 20, 100), (50, 64, 100), (64, 64, 4)] {
        let full = roles * users;
        for breaking in 0..=full {
            pairs(roles, users, breaking);
        }
        let exact = |breaking: &usize| 200 * breaking % full == 0 && 200 * breaking / full % 2 == 1;
        assert_eq!((0..=full).filter(exact).count(), halves);
    }
}

/// Eight variables over 64 users, each of whom has another number of roles. A variable has its clause by itself,
/// so that the choices which hold are the product of those that each clause lets through.
#[test]
fn shares_of_the_largest_counts() {
    let tables = assigned(64, (0..64).map(lowest));
    let sets = "U (U&U) (U+U) ((U&U)&U) ((U+U)+U) (U&(U&U)) (U+(U+U)) ((U&U)+U)";
    let judged = |through: [u64; 8]| {
        let sets = sets.split(' ').zip(through);
        let clauses = sets.map(|(set, few)| match few {
            64 => format!("OE({set})@U"),
            _ => format!("|roles(OE({set}))|<{few}"),
        });
        let rule = clauses.collect::<Vec<_>>().join("^");
        let verdict = judge_in_turn(&tables, rule.as_bytes()).unwrap();
        let full = 64u64.pow(8);
        has_the_share(&verdict, full, full - through.iter().product::<u64>());
        verdict.share.unwrap()
    };
    for (few, share) in [(56, 12), (40, 38), (24, 62), (8, 88), (64, 0), (0, 100)] {
        for place in 0..8 {
            let mut through = [64; 8];
            through[place] = few;
            assert_eq!(judged(through), share);
        }
    }
    // Near 37.5 and 62.5, on either side; one choice that holds; ends of the range.
    assert_eq!(judged([58, 58, 60, 60, 60, 61, 63, 63]), 37);
    assert_eq!(judged([57, 60, 60, 60, 60, 61, 61, 64]), 38);
    assert_eq!(judged([50, 50, 52, 56, 58, 62, 63, 64]), 62);
    assert_eq!(judged([45, 45, 57, 60, 61, 61, 64, 64]), 63);
    assert_eq!((judged([1; 8]), judged([63; 8])), (100, 12));
}
