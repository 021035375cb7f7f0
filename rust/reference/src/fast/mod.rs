//! The same answers as a program in use would compute them: sets as words of 64 bits, texts in
//! one pass, and of the choices only those whose variables lie in their sets.
//!
//! It reads rules with [`crate::rule`] and is held against the plain modules by the tests; the
//! benchmark compares the proved library with it.

mod forecast;
mod formula;
mod judge;
pub mod readers;
pub mod sessions;
mod tables;

pub use forecast::forecast;
pub use formula::{rebuild, reduce};
pub use judge::judge;
pub use tables::{rank_step, read, Tables};
