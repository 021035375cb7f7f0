//! Inputs that are meant to hurt cost little: on the stack that the crate states, and in little
//! time. `cargo run --release -p differential --bin stack` says how much stack each takes.

use std::sync::Mutex;
use std::thread;
use std::time::{Duration, Instant};

use differential::hold::Question;
use differential::hurtful;
use differential::random::Random;
use differential::small_stack::Stack;
use rcl2000::{Page, STACK_FORECAST, STACK_JUDGE, STACK_JUDGE_PAGE};
use rcl2000::{STACK_RANK_STEP, STACK_REBUILD, STACK_REDUCE};
use rcl2000::{STACK_SESSIONS_START, STACK_SESSION_CLOSE, STACK_SESSION_OPEN, STACK_SHEET_LINE};

/// Held while a small stack is tried: a frame that reaches beyond the page that guards the stack may
/// else land in another test's, and not end the process.
static ALONE: Mutex<()> = Mutex::new(());

/// For the thread itself and for comparing. It is used up before each call, so that none has it.
const BESIDES: usize = 64 * 1024;

/// No call on such an input takes longer, also on a busy machine.
const LONGEST: Duration = Duration::from_secs(5);

#[test]
fn reducing_on_a_small_stack() {
    on_stack(STACK_REDUCE, "reduce");
}

#[test]
fn rebuilding_on_a_small_stack() {
    on_stack(STACK_REBUILD, "rebuild");
}

#[test]
fn judging_on_a_small_stack() {
    on_stack(STACK_JUDGE, "judge");
}

#[test]
fn judging_pages_on_a_small_stack() {
    on_stack(STACK_JUDGE_PAGE, "judge_page");
}

#[test]
fn steps_of_the_rank_test_on_a_small_stack() {
    on_stack(STACK_RANK_STEP, "rank_step");
}

#[test]
fn forecasting_on_a_small_stack() {
    on_stack(STACK_FORECAST, "forecast");
}

#[test]
fn starting_sessions_on_a_small_stack() {
    on_stack(STACK_SESSIONS_START, "sessions_start");
}

#[test]
fn opening_sessions_on_a_small_stack() {
    on_stack(STACK_SESSION_OPEN, "session_open");
}

#[test]
fn closing_sessions_on_a_small_stack() {
    on_stack(STACK_SESSION_CLOSE, "session_close");
}

#[test]
fn lines_of_sheets_on_a_small_stack() {
    on_stack(STACK_SHEET_LINE, "sheet_line");
}

/// What a page takes and what the thread needs for itself, 5,632 bytes on one machine.
#[test]
fn a_thread_of_256_kib_judges_pages() {
    let questions = asked_by("judge_page");
    let mut out = vec![0; Page::MAX_BYTES];
    let _alone = ALONE.lock();
    let thread = thread::Builder::new()
        .stack_size(256 * 1024)
        .spawn(move || {
            for question in &questions {
                let _ = question.ask(&mut out);
            }
        });
    thread.unwrap().join().unwrap();
}

/// The questions that one call is asked.
fn asked_by(call: &str) -> Vec<Question> {
    let questions = hurtful::questions().filter(|question| question.call() == call);
    let questions: Vec<Question> = questions.collect();
    assert!(!questions.is_empty(), "{call} is asked nothing");
    questions
}

/// A call's questions are answered rightly where no more of the stack is left.
fn on_stack(left: usize, call: &str) {
    let questions = asked_by(call);
    let _alone = ALONE.lock();
    let large = thread::Builder::new().stack_size(left + BESIDES);
    let thread = large.spawn(move || {
        let (stack, random) = (Stack::here(), &mut Random::new(8));
        for question in questions {
            let expected = question.fast();
            let start = Instant::now();
            question.hold_all_asked(&expected, random, |question, out| {
                stack.with_left(left, || question.ask(out))
            });
            let taken = start.elapsed();
            assert!(taken < LONGEST, "{taken:?} for eight calls");
        }
    });
    thread.unwrap().join().unwrap();
}
