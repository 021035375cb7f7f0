//! What the builder says of tables that the library would refuse, row by row.

use rcl2000::{BuildError, Fault, Object, Operation, Permission, Refusal, Role, Row, Section};
use rcl2000::{TablesBuilder, Unencodable, User};

/// The refusal and the faults of tables that can be encoded.
fn refused(tables: &TablesBuilder) -> (Refusal, Vec<Fault>) {
    match tables.build() {
        Err(BuildError::Refused { refusal, faults }) => (refusal, faults),
        other => panic!("{other:?}"),
    }
}

#[test]
fn what_was_never_entered_is_named_user_by_user_and_pair_by_pair() {
    let mut tables = TablesBuilder::new();
    let role = tables.role([]);
    tables.user([]);
    let late = tables.user_not_entered();
    let [fill, draw] = tables.operations();
    let [north, south] = tables.objects();
    tables.held_by(tables.permission(fill, north), [role]);
    tables.held_by(tables.permission(draw, south), []);
    let rows = [
        Row::User(late),
        Row::Permission(tables.permission(fill, south)),
        Row::Permission(tables.permission(draw, north)),
    ];
    let faults = rows.map(|row| Fault::NotEntered { row }).to_vec();
    assert_eq!(refused(&tables), (Refusal::NotEntered, faults));
    // The marks are 0 in the bytes, which are to be had all the same.
    let bytes = tables.encode().unwrap();
    assert_eq!((bytes[1 + 8 + 1], bytes[1 + 8 + 1 + 9]), (1, 0));
}

#[test]
fn roles_that_are_juniors_of_each_other() {
    let mut tables = TablesBuilder::new();
    let [a, b, c] = [0, 1, 2].map(Role::numbered);
    tables.role([b]);
    tables.role([c]);
    tables.role([a]);
    let pairs = [(a, b), (a, c), (b, c)];
    let faults = pairs.map(|(first, second)| Fault::EachOther { first, second });
    assert_eq!(refused(&tables), (Refusal::Rank, faults.to_vec()));
}

#[test]
fn rows_of_roles_that_miss_something() {
    let mut tables = TablesBuilder::new();
    let [a, b, c] = [0, 1, 2].map(Role::numbered);
    tables.role_row([a, b]);
    tables.role_row([b, c]);
    tables.role_row([]);
    let faults = vec![
        Fault::MissesJunior {
            role: a,
            junior: b,
            missing: c,
        },
        Fault::MissesItself { role: c },
    ];
    assert_eq!(refused(&tables), (Refusal::Rank, faults));
}

#[test]
fn juniors_of_a_whole_row_count_as_the_row_says() {
    let mut tables = TablesBuilder::new();
    let [low, middle] = [0, 1].map(Role::numbered);
    tables.role_row([low]);
    tables.role_row([low, middle]);
    let high = tables.role([middle]);
    tables.user([high]);
    let bytes = tables.build().unwrap();
    assert_eq!(bytes[1 + 16], 0b111);
}

#[test]
fn sessions_that_reach_too_far_and_equal_words() {
    let mut tables = TablesBuilder::new();
    let hand = tables.role([]);
    let leader = tables.role([hand]);
    let owner = tables.role([leader]);
    let apart = tables.role([]);
    let (anna, bruno) = (tables.user([leader]), tables.user([]));
    let carla = tables.user([owner, apart]);
    tables.session(anna, [hand]);
    tables.session(carla, [hand, leader, owner, apart]);
    let third = tables.session(anna, [hand, leader, owner, apart]);
    let fourth = tables.session(bruno, [hand]);
    let overreach = |session, user, role| Fault::Overreach {
        session,
        user,
        role,
    };
    let faults = vec![
        overreach(third, anna, owner),
        overreach(third, anna, apart),
        overreach(fourth, bruno, hand),
    ];
    assert_eq!(refused(&tables), (Refusal::Overreach, faults));

    let mut tables = TablesBuilder::new();
    let users = [tables.user([]), tables.user([])];
    tables.conflicting_users(users);
    tables.conflicting_users([]);
    tables.conflicting_users([users[1], users[0], users[1]]);
    tables.conflicting_users([]);
    let twins = |first, second| Fault::Twins {
        first: Row::ConflictingUsers(first),
        second: Row::ConflictingUsers(second),
    };
    let faults = vec![twins(0, 2), twins(1, 3)];
    assert_eq!(refused(&tables), (Refusal::Twin, faults));
}

#[test]
fn who_left_keeps_the_row_and_the_number() {
    let mut tables = TablesBuilder::new();
    let role = tables.role([]);
    let users = [tables.user([role]), tables.user_left(), tables.user([role])];
    assert_eq!(users.map(User::number), [0, 1, 2]);
    tables.session(users[2], [role]);
    tables.conflicting_users([users[0], users[2]]);
    let bytes = tables.build().unwrap();
    // The marks, each before its word.
    let rows = &bytes[1 + 8 + 1..];
    assert_eq!([rows[0], rows[9], rows[18]], [1, 2, 1]);
    assert_eq!(rows[9 + 1..18], [0; 8]);
    // Tables of leavers alone are accepted.
    let mut tables = TablesBuilder::new();
    tables.user_left();
    assert!(tables.build().is_ok());
}

#[test]
fn rows_that_name_a_leaver() {
    let mut tables = TablesBuilder::new();
    let role = tables.role([]);
    let (anna, bruno) = (tables.user([role]), tables.user_left());
    let (carla, dora) = (tables.user([]), tables.user_left());
    tables.session(anna, [role]);
    let second = tables.session(dora, []);
    let third = tables.session(bruno, [role]);
    tables.conflicting_users([anna, carla]);
    tables.conflicting_users([dora, anna, bruno]);
    tables.conflicting_users([dora]);
    let left = |row, user| Fault::Left { row, user };
    let faults = vec![
        left(Row::Session(second), dora),
        left(Row::Session(third), bruno),
        left(Row::ConflictingUsers(1), bruno),
        left(Row::ConflictingUsers(1), dora),
        left(Row::ConflictingUsers(2), dora),
    ];
    assert_eq!(refused(&tables), (Refusal::Left, faults));
}

/// 3, then 20, then 7: each hides those behind it.
#[test]
fn a_leaver_is_named_before_roles_that_do_not_fit() {
    let mut tables = TablesBuilder::new();
    let role = tables.role_row([]);
    let leaver = tables.user_left();
    let ranked = vec![Fault::MissesItself { role }];
    assert_eq!(refused(&tables), (Refusal::Rank, ranked));
    let session = tables.session(leaver, [role]);
    tables.conflicting_roles([]);
    tables.conflicting_roles([]);
    let named = Fault::Left {
        row: Row::Session(session),
        user: leaver,
    };
    assert_eq!(refused(&tables), (Refusal::Left, vec![named]));
    tables.user_not_entered();
    assert_eq!(refused(&tables).0, Refusal::NotEntered);
}

#[test]
fn a_permission_may_be_named_first_and_is_looked_for_in_the_end() {
    let permission = Permission {
        operation: Operation::numbered(1),
        object: Object::numbered(0),
    };
    let mut tables = TablesBuilder::new();
    tables.held_by(permission, []);
    tables.conflicting_permissions([permission]);
    let missing = |of| Unencodable::NoSuchItem {
        row: Row::Permission(permission),
        of,
        item: if of == Section::Operations { 1 } else { 0 },
    };
    tables.operation();
    assert_eq!(tables.encode(), Err(missing(Section::Operations)));
    tables.operation();
    assert_eq!(tables.encode(), Err(missing(Section::Objects)));
    tables.object();
    let bytes = tables.encode().unwrap();
    // Two operations, one object, two rows: the first never entered; CP has bit 1.
    assert_eq!(bytes[3..6], [2, 1, 2]);
    assert_eq!((bytes[6], bytes[15]), (0, 1));
    // The count of Done follows the word.
    assert_eq!(bytes[bytes.len() - 1 - 8], 0b10);
}

/// Two users, of whom the second left, two operations and three objects.
fn with_tanks() -> TablesBuilder {
    let mut tables = TablesBuilder::new();
    tables.user([]);
    tables.user_left();
    let operations: [_; 2] = tables.operations();
    let objects: [_; 3] = tables.objects();
    for operation in operations {
        for object in objects {
            tables.held_by(tables.permission(operation, object), []);
        }
    }
    tables
}

/// Adds a row to Done by its three numbers, and gives its position.
fn done(tables: &mut TablesBuilder, row: [usize; 3]) -> usize {
    let [user, operation, object] = row;
    tables.done(
        User::numbered(user),
        Operation::numbered(operation),
        Object::numbered(object),
    )
}

#[test]
fn what_was_done_stands_in_order_with_repeats_and_leavers() {
    let mut tables = with_tanks();
    let before = tables.build().unwrap();
    let rows = [[0, 1, 2], [1, 0, 1], [0, 1, 2], [1, 0, 0]];
    let places = rows.map(|row| done(&mut tables, row));
    assert_eq!(places, [0, 1, 2, 3]);
    let bytes = tables.build().unwrap();
    // All other sections are as they were; then the count and the rows.
    let (others, section) = bytes.split_at(before.len() - 1);
    assert_eq!(others, &before[..before.len() - 1]);
    assert_eq!(section, [4, 0, 1, 2, 1, 0, 1, 0, 1, 2, 1, 0, 0]);
}

#[test]
fn what_was_done_names_items_that_are_there() {
    let missing = |row: [usize; 3]| {
        let mut tables = with_tanks();
        done(&mut tables, [1, 1, 2]);
        done(&mut tables, row);
        tables.encode().unwrap_err()
    };
    let named = |of, item| Unencodable::NoSuchItem {
        row: Row::Done(1),
        of,
        item,
    };
    assert_eq!(missing([2, 2, 3]), named(Section::Users, 2));
    assert_eq!(missing([0, 2, 3]), named(Section::Operations, 2));
    assert_eq!(missing([0, 1, 3]), named(Section::Objects, 3));
    assert_eq!(
        missing([usize::MAX, 0, 0]).to_string(),
        format!(
            "Done row 1 names user {}, which the tables do not have",
            usize::MAX
        )
    );
}

#[test]
fn sixty_four_rows_of_what_was_done_and_one_more() {
    let mut tables = with_tanks();
    for _ in 0..Section::Done.limit() {
        done(&mut tables, [0, 1, 2]);
    }
    assert!(tables.build().is_ok());
    done(&mut tables, [0, 1, 2]);
    let text = "tables hold at most 64 rows in Done, not 65";
    assert_eq!(tables.build().unwrap_err().to_string(), text);
}

/// A row of Done is no reason for 20, and hides none.
#[test]
fn a_leaver_in_done_is_no_fault_beside_one_in_a_session() {
    let mut tables = with_tanks();
    done(&mut tables, [1, 0, 0]);
    assert!(tables.build().is_ok());
    let user = User::numbered(1);
    let row = Row::Session(tables.session(user, []));
    let faults = vec![Fault::Left { row, user }];
    assert_eq!(refused(&tables), (Refusal::Left, faults));
}

#[test]
fn numbers_of_any_size_are_looked_for_and_nothing_else() {
    let mut tables = TablesBuilder::new();
    tables.user([Role::numbered(usize::MAX)]);
    let error = tables.encode().unwrap_err();
    let text = format!(
        "user 0 names role {}, which the tables do not have",
        usize::MAX
    );
    assert_eq!(error.to_string(), text);
    let mut tables = TablesBuilder::new();
    tables.session(User::numbered(64), []);
    let text = "session 0 names user 64, which the tables do not have";
    assert_eq!(tables.encode().unwrap_err().to_string(), text);
    for _ in 0..9 {
        tables.operation();
    }
    let text = "tables hold at most 8 operations, not 9";
    assert_eq!(tables.build().unwrap_err().to_string(), text);
}
