//! What readers see: sheets of tables that are alike for a reader, the day sheet of what is cut, all users' sheet, and the
//! edges of readers, words of CU, places and rules.

use differential::hold::{reply, Question};
use differential::random::Random;
use differential::readers::{self, OF_OTHERS};
use differential::scaled;
use differential::tables::{self, Plain};
use rcl2000::{check_tables, sheet, Reader, Refusal, MAX_LINE, MAX_RULES, MIN_TABLES};
use reference::protocol::{Command, FILL};
use reference::set::Set;
use reference::sheet::lines;

/// The most steps of a sheet's walks.
const STEPS: u64 = 3_000;

/// Rules in which sessions and rows of Done show.
const OF_ROWS: [&str; 3] = ["roles(OE(S))!={}", "user(OE(S))@U", "done(U,OE(OBJ))={}"];

/// The most bytes of a line that the vectors' protocol takes.
const LONGEST_COMMAND: usize = 80_000;

/// The sheet of a reader's word.
fn seen(tables: &[u8], reader: u64, rules: &[u8]) -> Result<Vec<String>, u32> {
    sheet(tables, Reader::from_word(reader), rules).map_err(Refusal::number)
}

/// Whether tables are alike for a reader, in document 02's words.
fn alike(one: &Plain, other: &Plain, reader: u64) -> bool {
    let own = |user: usize| reader >> user & 1 == 1;
    let row = |plain: &Plain, user: usize| (plain.has_left(user), plain.users[user]);
    let sessions = |plain: &Plain| {
        let sessions = plain.sessions.iter().copied();
        sessions
            .filter(|(user, _)| own((*user).into()))
            .collect::<Vec<_>>()
    };
    let done = |plain: &Plain| {
        let done = plain.done.iter().copied();
        done.filter(|row| own(row[0].into())).collect::<Vec<_>>()
    };
    let mut users = 0..one.users.len();
    one.users.len() == other.users.len()
        && (&one.roles, one.operations, one.objects)
            == (&other.roles, other.operations, other.objects)
        && (&one.permissions, &one.cr, &one.cp) == (&other.permissions, &other.cr, &other.cp)
        && users.all(|user| !own(user) || row(one, user) == row(other, user))
        && (sessions(one), done(one)) == (sessions(other), done(other))
        && one.seen_words(reader) == other.seen_words(reader)
}

/// Of tables that are alike for a reader every line is the same, and every refusal: at every place and with every length of
/// output that is tried. All users' sheets of the same tables often differ.
#[test]
fn others_do_not_show() {
    let (random, mut differ, mut come, mut shorter) = (&mut Random::new(81), 0, 0, 0);
    let count = scaled(4_000);
    for _ in 0..count {
        let (plain, rules) = readers::judged(random, STEPS);
        let reader = plain.reader(random);
        let other = plain.others_changed(random, reader);
        assert!(alike(&plain, &other, reader));
        let [one, two] = [&plain, &other].map(Plain::bytes);
        assert_eq!(check_tables(&two), Ok(()), "made to be accepted");
        assert_eq!(seen(&one, reader, &rules), seen(&two, reader, &rules));
        let beyond = 1u64.checked_shl(plain.users.len() as u32).unwrap_or(0);
        for place in 0..lines(&rules).len() + 3 {
            for word in [reader, reader | beyond] {
                let ask = |tables: &[u8]| {
                    Question::sheet_line(tables.to_vec(), word, rules.clone(), place)
                };
                same_answers(random, [&one, &two].map(|tables| ask(tables)));
            }
        }
        differ += u64::from(all_see(&one, &plain, &rules) != all_see(&two, &other, &rules));
        come += u64::from(plain.left != other.left);
        shorter += u64::from(plain.cu.len() != other.cu.len());
    }
    assert!(differ >= count / 3, "{differ} of {count}");
    assert!(
        come >= count / 5 && shorter >= count / 5,
        "{come} {shorter}"
    );
}

/// Two questions have the same number and leave the same bytes, in all of a line's room and in less.
fn same_answers(random: &mut Random, questions: [Question; 2]) {
    for length in [0, random.below(MAX_LINE), MAX_LINE] {
        let [one, two] = questions.each_ref().map(|question| {
            let mut out = vec![FILL; length];
            (reply(question.ask(&mut out)), out)
        });
        assert_eq!(one, two, "{}", questions[0].command(length));
    }
}

fn all_see(tables: &[u8], plain: &Plain, rules: &[u8]) -> Result<Vec<String>, u32> {
    seen(tables, plain.everyone(), rules)
}

/// The others' changes one at a time, so that none is hidden by another: each shows on all users' sheet, and never on the
/// reader's.
#[test]
fn each_change_of_others_shows_to_all_and_not_to_the_reader() {
    let (random, mut shown) = (&mut Random::new(82), [0; 5]);
    let rules = [&OF_OTHERS[..], &OF_ROWS].concat().join("\n");
    let count = scaled(1_000);
    for _ in 0..count {
        let (plain, _) = readers::judged(random, STEPS);
        let reader = plain.reader(random);
        if !readers::few(&plain.bytes(), rules.as_bytes(), 50_000) {
            continue;
        }
        let other = plain.others_changed(random, reader);
        let parts: [fn(&mut Plain, &Plain); 5] = [
            |plain, other| (plain.users, plain.left) = (other.users.clone(), other.left),
            |plain, other| plain.left = other.left,
            |plain, other| plain.sessions = other.sessions.clone(),
            |plain, other| plain.done = other.done.clone(),
            |plain, other| plain.cu = other.cu.clone(),
        ];
        for (change, shown) in parts.iter().zip(&mut shown) {
            let mut changed = plain.clone();
            change(&mut changed, &other);
            let [before, after] = [&plain, &changed].map(Plain::bytes);
            // Whoever leaves alone may still have a role or a session.
            if check_tables(&after).is_err() {
                continue;
            }
            assert!(alike(&plain, &changed, reader));
            let both = [&before, &after].map(|tables| seen(tables, reader, rules.as_bytes()));
            assert_eq!(both[0], both[1]);
            let all = [&before, &after].map(|tables| all_see(tables, &plain, rules.as_bytes()));
            *shown += u64::from(all[0] != all[1]);
        }
    }
    assert!(shown.iter().all(|&shown| shown >= count / 50), "{shown:?}");
}

/// All users' reader sees what the listing program prints, which the second implementation lists by itself.
#[test]
fn all_users_see_the_day_sheet() {
    let random = &mut Random::new(83);
    for _ in 0..scaled(2_000) {
        let (plain, rules) = readers::judged(random, STEPS);
        let listed = all_see(&plain.bytes(), &plain, &rules).expect("made to be accepted");
        let listed: String = listed.iter().map(|line| line.to_string() + "\n").collect();
        assert_eq!(listed, reference::sheet::sheet(&plain.bytes(), &rules));
    }
}

/// A reader's sheet is the day sheet of the tables that are left for the reader, which are accepted.
#[test]
fn a_readers_sheet_is_the_day_sheet_of_the_cut() {
    let random = &mut Random::new(84);
    for _ in 0..scaled(2_000) {
        let (plain, rules) = readers::judged(random, STEPS);
        let reader = plain.reader(random);
        let read = reference::tables::read(&plain.bytes()).expect("made to be accepted");
        let cut = read.cut(&Set::of(|user| reader >> user & 1 == 1)).bytes();
        assert_eq!(check_tables(&cut), Ok(()));
        let (own, all) = (
            seen(&plain.bytes(), reader, &rules),
            seen(&cut, plain.everyone(), &rules),
        );
        assert_eq!(own, all);
        assert_eq!(
            own,
            reference::readers::sheet(&plain.bytes(), reader, &rules)
        );
    }
}

/// Holds a line to the answer of both halves of the reference, with all lengths of output.
fn agreed(random: &mut Random, question: Question) -> Result<Vec<u8>, u32> {
    let (plain, fast) = (question.plain(), question.fast());
    assert_eq!(plain, fast, "{}", question.command(MAX_LINE));
    question.hold_all(&plain, random);
    plain.map_err(|refused| refused.number)
}

/// Each line of a sheet, and the places beside it.
fn every_place(random: &mut Random, tables: &[u8], reader: u64, rules: &str) {
    for place in (0..rules.lines().count() + 4).chain([usize::MAX]) {
        let question = Question::sheet_line(tables.to_vec(), reader, rules.into(), place);
        agreed(random, question).expect("made to be accepted");
    }
}

/// The largest tables, some users left, for nobody, everybody, everybody but one, leavers and a few.
#[test]
fn readers_of_the_largest_tables() {
    let random = &mut Random::new(85);
    let rules = [
        "|(roles*(OE(U))&OE(CR))|<=1",
        "OE(CU)={}",
        "roles(OE(S))!={}",
        "|CU|<=1",
        "|done(OE(U),OE(OBJ))|<=1",
    ];
    let rules = rules.join("\n");
    for left in [0, 1, 1 << 63, random.items(64)] {
        let mut plain = tables::full_of_juniors(random);
        plain.leave(random, left);
        let tables = plain.bytes();
        let one_less = [0, 31, 62, 63].map(|user| !(1 << user));
        let few = [0, u64::MAX, left, !left, 1, 1 << 63, random.items(64)];
        for reader in one_less.into_iter().chain(few) {
            for place in 0..8 {
                let question =
                    Question::sheet_line(tables.clone(), reader, rules.clone().into(), place);
                let expected = question.fast();
                question.hold_all(&expected, random);
            }
        }
    }
}

/// Every bit of a reader beside every count of users: 23 from the count on, and never with 64.
#[test]
fn every_bit_of_a_reader() {
    let random = &mut Random::new(86);
    for users in 0..=64 {
        let plain = Plain {
            users: vec![0; users],
            ..Plain::default()
        };
        for bit in 0..64 {
            for word in [1 << bit, plain.everyone() | 1 << bit] {
                let question = Question::sheet_line(plain.bytes(), word, b"|U|=1".to_vec(), 1);
                let refused = agreed(random, question).err();
                assert_eq!(
                    refused,
                    (bit >= users).then_some(23),
                    "bit {bit} of {users}"
                );
            }
        }
    }
    // What is wrong with the tables comes first, and the length of the rules behind 23.
    for (tables, number) in [
        (vec![0; MIN_TABLES + 1], 10),
        (vec![], 1),
        (vec![0; MIN_TABLES], 23),
    ] {
        for rules in [vec![], vec![b'\n'; MAX_RULES + 1]] {
            for place in 0..3 {
                let question = Question::sheet_line(tables.clone(), 1, rules.clone(), place);
                assert_eq!(agreed(random, question), Err(number));
            }
        }
    }
}

/// The lists of at most three different words of three users.
fn small_collections() -> Vec<Vec<u64>> {
    let mut lists: Vec<Vec<u64>> = vec![vec![]];
    for first in 0..8 {
        lists.push(vec![first]);
        for second in (0..8).filter(|&word| word != first) {
            lists.push(vec![first, second]);
            let others = (0..8).filter(|word| ![first, second].contains(word));
            lists.extend(others.map(|third| vec![first, second, third]));
        }
    }
    assert_eq!(lists.len(), 1 + 8 + 56 + 336);
    lists
}

/// Every list of at most three words of CU on three users, for every reader: words that become equal, and empty.
#[test]
fn every_small_collection_of_users() {
    let random = &mut Random::new(87);
    let rules = [
        "|CU|=1",
        "|CU|=2",
        "OE(CU)={}",
        "OE(CU)!=U",
        "OE(U)@OE(CU)",
        "OE(CU)=OE(AO(CU))",
    ]
    .join("\n");
    let lists = small_collections();
    for cu in lists
        .into_iter()
        .step_by(if scaled(100) < 100 { 20 } else { 1 })
    {
        let plain = Plain {
            users: vec![0; 3],
            cu,
            ..Plain::default()
        };
        for reader in 0..8 {
            let sheet = seen(&plain.bytes(), reader, rules.as_bytes());
            assert_eq!(
                sheet,
                reference::readers::sheet(&plain.bytes(), reader, rules.as_bytes())
            );
            if random.once_in(100) {
                every_place(random, &plain.bytes(), reader, &rules);
            }
        }
    }
}

/// Every user of small tables is a leaver or not, is the reader's or not, and did something or not.
#[test]
fn every_leaver_of_a_reader() {
    let random = &mut Random::new(88);
    let rules = [
        "|U|=1",
        "OE(U)=OE(U)",
        "done(U,OE(OBJ))={}",
        "done(OE(U),OE(OBJ))!={}",
        "roles(OE(U))=R",
    ]
    .join("\n");
    for left in 0..8 {
        for did in 0..8 {
            let own = |word: u64| (0..3).filter(move |user| word >> user & 1 == 1);
            let users = (0..3).map(|user| u64::from(left >> user & 1 == 0));
            let plain = Plain {
                roles: vec![1],
                users: users.collect(),
                left,
                operations: 1,
                objects: 1,
                permissions: vec![1],
                done: own(did).map(|user| [user as u8, 0, 0]).collect(),
                ..Plain::default()
            };
            for reader in 0..8 {
                every_place(random, &plain.bytes(), reader, &rules);
            }
        }
    }
}

/// As many lines as there may be, and rules of a byte more, whatever they are.
#[test]
fn the_longest_rules() {
    let random = &mut Random::new(89);
    let plain = tables::filled(random, 5);
    let (tables, reader) = (plain.bytes(), plain.reader(random));
    let ask =
        |rules: &[u8], place| Question::sheet_line(tables.clone(), reader, rules.to_vec(), place);
    let most = vec![b'\n'; MAX_RULES];
    let total = format!("total {MAX_RULES} held 0 idle 0 broken 0 refused {MAX_RULES}");
    for (place, line) in [
        (0, String::new()),
        (1, "1 refused 11".to_string()),
        (MAX_RULES, format!("{MAX_RULES} refused 11")),
        (MAX_RULES + 1, total),
        (MAX_RULES + 2, String::new()),
        (usize::MAX, String::new()),
    ] {
        assert_eq!(agreed(random, ask(&most, place)), Ok(line.into_bytes()));
    }
    for byte in [b'\n', b'U', 0] {
        let long = vec![byte; MAX_RULES + 1];
        assert_eq!(
            agreed(random, ask(&long, 1)),
            Ok(b"rules too long".to_vec())
        );
        for place in [0, 2, MAX_RULES + 1, MAX_RULES + 2, usize::MAX] {
            assert_eq!(agreed(random, ask(&long, place)), Ok(vec![]));
        }
        // One line, which is too long for a rule.
        let line = agreed(random, ask(&long[1..], 1)).expect("made to be accepted");
        assert_eq!(line, b"1 refused 11");
    }
}

/// Outputs of every length up to more than the line's: 17 below it, and no byte behind it changes.
#[test]
fn lines_into_every_length() {
    let random = &mut Random::new(90);
    for _ in 0..scaled(20) {
        let (plain, rules) = readers::judged(random, STEPS);
        let reader = plain.reader(random);
        for place in 0..lines(&rules).len() + 3 {
            let question = Question::sheet_line(plain.bytes(), reader, rules.clone(), place);
            let expected = question.plain();
            for length in 0..MAX_LINE + 2 {
                for guard in [16, 0] {
                    question.hold(&expected, length, guard);
                }
            }
        }
    }
}

/// Tables that are cut anywhere, or have another byte anywhere, give the number that judging gives, or the line of what they
/// are then.
#[test]
fn every_damaged_byte_of_the_tables() {
    let random = &mut Random::new(91);
    for _ in 0..scaled(4) {
        let plain = tables::of_size(random, 2);
        let (tables, reader) = (plain.bytes(), plain.reader(random));
        let rules = b"OE(CU)={}\nuser(OE(S))@U\ndone(U,OE(OBJ))={}".to_vec();
        for place in 0..tables.len() {
            let cut = Question::sheet_line(tables[..place].to_vec(), reader, rules.clone(), 1);
            assert_eq!(agreed(random, cut), Err(1));
            for value in [
                0,
                1,
                2,
                3,
                64,
                65,
                255,
                tables[place] ^ 1 << random.below(8),
            ] {
                let mut tables = tables.clone();
                tables[place] = value;
                let checked = check_tables(&tables).err().map(Refusal::number);
                let question =
                    Question::sheet_line(tables, reader, rules.clone(), random.between(1, 4));
                let refused = agreed(random, question).err();
                assert!(refused == checked || (checked.is_none() && refused == Some(23)));
            }
        }
    }
}

/// What is printed where a line goes wrong is read as the command that asks it.
#[test]
fn questions_are_written_as_commands() {
    let random = &mut Random::new(92);
    for _ in 0..scaled(300) {
        let question = readers::asked(random, STEPS);
        let Question::SheetLine(tables, reader, rules, place) = &question else {
            panic!("a line is asked for");
        };
        let command = question.command(MAX_LINE);
        if command.len() > LONGEST_COMMAND || u32::try_from(*place).is_err() {
            continue;
        }
        let Some(Command::Line(line, length)) = Command::read(command.as_bytes()) else {
            panic!("{command}");
        };
        assert_eq!(
            (&line.tables[..], &line.rules[..]),
            (&tables[..], &rules[..])
        );
        assert_eq!(
            (line.reader, line.place, length),
            (*reader, *place, MAX_LINE)
        );
    }
}
