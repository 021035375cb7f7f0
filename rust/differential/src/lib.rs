//! Generated inputs, and the calls that hold the proved library against the reference on them.
//!
//! Everything comes from fixed seeds, so a difference that is found is found again.

pub mod damage;
pub mod done;
pub mod formulas;
pub mod hold;
pub mod hurtful;
pub mod leavers;
pub mod orders;
pub mod pages;
pub mod random;
pub mod readers;
pub mod rules;
pub mod sessions;
pub mod small_stack;
pub mod subjects;
pub mod tables;
pub mod vectors;

/// How many inputs to try where the gate tries `count`: `RCL2000_PERCENT` scales it, 100 being
/// the gate's.
pub fn scaled(count: u64) -> u64 {
    let percent = std::env::var("RCL2000_PERCENT").ok();
    let percent = percent.map_or(100, |text| {
        text.parse().expect("RCL2000_PERCENT is a number")
    });
    (count * percent).div_ceil(100)
}
