//! `differential --long MINUTES [SEED]`: holds the library against the reference on ever new inputs
//! for so many minutes, and prints how far it is. It stops with the command that was answered
//! otherwise, as the vectors write it, as soon as there is one.

use std::env;
use std::process::exit;
use std::time::{Duration, Instant};

use differential::random::Random;
use differential::subjects::{large, SUBJECTS};
use rcl2000::Verdict;

/// The first round's seed, unless one is given.
const SEED: u64 = 1_000;

/// A round asks this part of what the gate asks.
const PART: u64 = 40;

/// How often it is said how far it is.
const EVERY: Duration = Duration::from_secs(10);

fn main() {
    let words: Vec<String> = env::args().skip(1).collect();
    let Some((minutes, seed)) = wanted(&words) else {
        eprintln!("differential --long MINUTES [SEED]");
        exit(2);
    };
    let (start, long) = (Instant::now(), Duration::from_secs_f64(minutes * 60.0));
    let (mut asked, mut large, mut said) = (0, 0, start);
    let mut round = seed;
    while start.elapsed() < long {
        for subject in &SUBJECTS {
            let count = subject.count / PART;
            subject.agree(round.wrapping_mul(100).wrapping_add(subject.seed), count);
            asked += count;
        }
        large += large_verdict(round);
        round = round.wrapping_add(1);
        if said.elapsed() >= EVERY || start.elapsed() >= long {
            said = Instant::now();
            let minute = start.elapsed().as_secs_f64() / 60.0;
            println!(
                "{minute:.1} of {minutes} minutes, seeds {seed} to {}: {asked} questions and {large} \
                 large verdicts agree",
                round - 1
            );
        }
    }
}

/// The minutes, and the seed of the first round.
fn wanted(words: &[String]) -> Option<(f64, u64)> {
    let (minutes, seed) = match words {
        [long, minutes] if long == "--long" => (minutes, SEED),
        [long, minutes, seed] if long == "--long" => (minutes, seed.parse().ok()?),
        _ => return None,
    };
    let minutes = minutes.parse().ok()?;
    (0.0..=1e6).contains(&minutes).then_some((minutes, seed))
}

/// One verdict with more than a million full choices.
fn large_verdict(seed: u64) -> u64 {
    let (question, expected) = large(&mut Random::new(seed));
    question.hold(&expected, Verdict::BYTES, 16);
    1
}
