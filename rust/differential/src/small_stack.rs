//! Calls where few bytes of a thread's stack are left.

use std::fs;
use std::hint::black_box;

/// How much of the stack is used at a time, and a little more.
const STEP: usize = 256;

/// The stack of a thread, by the address that it ends at.
pub struct Stack(usize);

impl Stack {
    /// That of the thread that asks: it ends where the memory begins that it lies in.
    pub fn here() -> Stack {
        let maps = fs::read_to_string("/proc/self/maps").expect("Linux tells a program's memory");
        let pad = [0; STEP];
        let here = address(&pad);
        let start = maps.lines().find_map(|line| {
            let (start, rest) = line.split_once('-')?;
            let (end, _) = rest.split_once(' ')?;
            let [start, end] = [start, end].map(|number| usize::from_str_radix(number, 16).ok());
            (start? <= here && here < end?).then_some(start?)
        });
        Stack(start.expect("a stack lies in memory"))
    }

    /// Does it where that many bytes are left, or up to two steps fewer.
    pub fn with_left<T>(&self, left: usize, what: impl FnOnce() -> T) -> T {
        let (mut what, mut done) = (Some(what), None);
        let (lowest, pad) = (self.0 + left, [0; STEP]);
        assert!(address(&pad) >= lowest, "the stack is too small");
        below(lowest, &mut || done = what.take().map(|what| what()));
        done.expect("it was done")
    }
}

/// Does it where the stack is used down to an address.
fn below(lowest: usize, what: &mut dyn FnMut()) {
    let pad = [0; STEP];
    match address(&pad) > lowest {
        true => below(lowest, what),
        false => what(),
    }
    // Behind the call, so that each has its own.
    black_box(&pad);
}

fn address(pad: &[u8; STEP]) -> usize {
    black_box(pad).as_ptr() as usize
}
