//! Prints how much stack each call takes on the inputs that are meant to hurt: the numbers that the crate's
//! documentation and `include/rcl2000.h` round up.
//!
//! A stack that is too small ends the process, so each size is tried in a process of its own:
//! `stack CALL BYTES` calls where that many bytes are left.

use std::collections::BTreeSet;
use std::env;
use std::process::{exit, Command, Stdio};
use std::thread;

use differential::hold::Question;
use differential::hurtful;
use differential::small_stack::Stack;
use rcl2000::MAX_STATE;

/// More than any call needs, in bytes.
const ENOUGH: usize = 512 * 1024;

/// The thread's stack, in bytes.
const STACK: usize = 2 * ENOUGH;

/// The exactness of a measurement.
const STEP: usize = 256;

fn main() {
    let words: Vec<String> = env::args().skip(1).collect();
    match &words[..] {
        [] => {
            let calls: BTreeSet<&str> = hurtful::questions().map(|asked| asked.call()).collect();
            for call in calls {
                println!("{call}: {} bytes", least(call));
            }
        }
        [call, left] => answer(call, left.parse().unwrap_or(0)),
        _ => {
            eprintln!("stack, or stack CALL BYTES");
            exit(2);
        }
    }
}

/// How many bytes must be left: halves the distance between too few and enough.
fn least(call: &str) -> usize {
    let (mut few, mut enough) = (0, ENOUGH / STEP);
    while few + 1 < enough {
        let steps = (few + enough) / 2;
        match suffices(call, steps * STEP) {
            true => enough = steps,
            false => few = steps,
        }
    }
    enough * STEP
}

fn suffices(call: &str, left: usize) -> bool {
    let program = env::current_exe().expect("this program has a path");
    let mut child = Command::new(program);
    child.arg(call).arg(left.to_string());
    let status = child.stderr(Stdio::null()).status();
    status.expect("this program can be run").success()
}

/// Asks the call's questions where that much of a thread's stack is left.
fn answer(call: &str, left: usize) {
    let questions = hurtful::questions().filter(|question| question.call() == call);
    let questions: Vec<Question> = questions.collect();
    let mut out = vec![0; MAX_STATE];
    let large = thread::Builder::new().stack_size(STACK);
    let thread = large.spawn(move || {
        Stack::here().with_left(left, || {
            for question in &questions {
                let _ = question.ask(&mut out);
            }
        });
    });
    let joined = thread.map(|thread| thread.join());
    exit(i32::from(!matches!(joined, Ok(Ok(())))));
}
