//! Rust code written for speed alone, by the same definitions: what the library's times are held against.

// Rows and columns are numbers.
#![allow(clippy::needless_range_loop)]

pub mod cells;
pub mod frames;
pub mod interleaver;
pub mod pairs;
