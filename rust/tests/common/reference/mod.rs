//! The specification once more, for tests only: written from its words and not from the library's code, plainly rather than
//! fast. Every call takes any words, record and bytes. Answers are the numbers of `include/pannuqreik.h`.
mod acts;
pub mod layout;
pub mod record;
mod steps;
pub mod table;

pub use steps::{start, step, withdraw};
pub use table::{check, first, fresh, list, sweep};

pub const GOING: u64 = 0;
pub const DONE: u64 = 0;
pub const FULL: u64 = 5;
pub const YES: u64 = 16;
pub const NO: u64 = 17;

pub const LOOKUP: u64 = 1;
pub const INSERT: u64 = 2;
pub const REMOVE: u64 = 3;

pub const FREE: u64 = 0;
pub const DATA: u64 = 1;
pub const ROUTING: u64 = 2;
pub const DELETED: u64 = 3;
