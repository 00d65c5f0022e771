//! The calls of the library once more, in plain Rust and written for speed: what the library's times are held to.
//!
//! Answers, refusals and what is left in the lent areas are those of docs/FORMAT.md, to the last number. Nothing here
//! is unsafe, lives on the heap, or asks for more than any 64-bit processor has; what the compiler makes of it are
//! vectors all the same. The calls have the forms that the package `jufferdeeg` gives them, and its answers.
//!
//! - [`audit`] walks through the volume and tests each block where it meets it; [`audit_sums_first`] answers the same,
//!   and adds up blocks before it walks, in the order in which they lie.
//! - [`find`] and [`read`] look for a path and copy a file's bytes.
//! - [`check`], [`load`] and [`move_program`] take a program file apart, load it and move it.
//! - [`block_sum`] is what the audits add blocks up with.

#![no_std]
#![forbid(unsafe_code)]

mod audit;
mod block;
mod disk;
mod file;
mod lookup;
mod name;
mod program;

pub use audit::{audit, audit_sums_first};
pub use block::sum as block_sum;
pub use lookup::{find, read};
pub use program::{check, load, move_program};
