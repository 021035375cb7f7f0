//! The sample evening: its tables made of plain values, the verdict on each of its rules, and what
//! they come to.
//!
//! It prints what `bin/day-sheet samples/closing` prints.

use std::error::Error;
use std::path::Path;
use std::{env, fs};

use rcl2000::{judge_in_turn, BuildError, Object, Operation, Role, TablesBuilder, User};

fn main() -> Result<(), Box<dyn Error>> {
    let here = Path::new(env!("CARGO_MANIFEST_DIR"));
    let folder = match env::args_os().nth(1) {
        Some(folder) => folder.into(),
        None => here.join("../../samples/closing"),
    };
    let tables = evening()?;
    if fs::read(folder.join("tables.bin"))? != tables {
        return Err("tables.bin has other tables than this evening's".into());
    }
    let rules = fs::read_to_string(folder.join("rules.txt"))?;
    let mut words = Vec::new();
    for (place, rule) in rules.split_terminator('\n').enumerate() {
        match judge_in_turn(&tables, rule.as_bytes()) {
            Ok(verdict) => {
                println!("{} {verdict}", place + 1);
                words.push(verdict.word.to_string());
            }
            Err(refusal) => {
                println!("{} refused {}", place + 1, refusal.number());
                eprintln!("{rule}: {refusal}");
                words.push("refused".to_string());
            }
        }
    }
    println!("{}", total(&words));
    Ok(())
}

/// The foot of the sheet: how many lines there are, and how many carry each word.
fn total(words: &[String]) -> String {
    let mut total = format!("total {}", words.len());
    for word in ["held", "idle", "broken", "refused"] {
        let carrying = words.iter().filter(|carried| *carried == word).count();
        total += &format!(" {word} {carrying}");
    }
    total
}

/// Who works at the mill, in what, what is to be kept apart, and who already did what.
fn evening() -> Result<Vec<u8>, BuildError> {
    let mut tables = TablesBuilder::new();
    // The leader is senior to both press hands, who come after him.
    let leader = tables.role([1, 2].map(Role::numbered));
    let [north_hand, south_hand] = [(); 2].map(|()| tables.role([]));
    let [grader, tester, weigher, blender] = [(); 4].map(|()| tables.role([]));
    let ana = tables.user([leader]);
    let berto = tables.user([north_hand]);
    let clara = tables.user([grader]);
    let dino = tables.user([tester]);
    let elsa = tables.user([weigher, blender]);
    let fabio = tables.user([south_hand]);
    // Gino left in spring. His number is handed on to nobody.
    let gino = tables.user_left();
    // Ana is assigned the leader's role alone, and works under a press hand's, which is junior to it.
    tables.session(ana, [north_hand]);
    tables.session(clara, [grader]);
    tables.session(dino, [tester]);
    tables.session(elsa, [weigher]);
    let operations @ [fill, draw, test, grade] = tables.operations();
    let tanks @ [north, south] = tables.objects();
    for (tank, hand) in [(north, north_hand), (south, south_hand)] {
        tables.held_by(tables.permission(fill, tank), [hand]);
        tables.held_by(tables.permission(draw, tank), [blender]);
        tables.held_by(tables.permission(test, tank), [tester]);
        tables.held_by(tables.permission(grade, tank), [grader]);
    }
    tables.conflicting_roles([grader, tester]);
    tables.conflicting_roles([weigher, blender]);
    tables.conflicting_users([berto, fabio]);
    for tank in tanks {
        let kept_apart = [test, grade].map(|operation| tables.permission(operation, tank));
        tables.conflicting_permissions(kept_apart);
    }
    let users = [ana, berto, clara, dino, elsa, fabio, gino];
    already_done(&mut tables, users, operations, tanks);
    tables.build()
}

/// What was done at the tanks, the earliest first.
fn already_done(
    tables: &mut TablesBuilder,
    [ana, berto, clara, dino, _, fabio, gino]: [User; 7],
    [fill, draw, test, grade]: [Operation; 4],
    [north, south]: [Object; 2],
) {
    let rows = [
        (gino, fill, north),
        (gino, draw, north),
        (fabio, fill, south),
        // Clara was the tester then. Today she is the grader, and Dino the tester.
        (clara, test, south),
        (berto, fill, north),
        // One test, which was written down twice.
        (dino, test, north),
        (dino, test, north),
        (clara, grade, south),
        (ana, fill, north),
    ];
    for (user, operation, tank) in rows {
        tables.done(user, operation, tank);
    }
}
