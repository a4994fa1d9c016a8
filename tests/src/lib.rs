//! An implementation written apart from the library under test, and what compares the two. They share
//! no code, table or index formula: the code written apart never uses `capi`, through which
//! `chain::calls`, `library`, the programs and the comparisons in `tests/` reach the library.

pub mod bits;
#[path = "../../rust/ofec/src/capi.rs"]
pub mod capi;
pub mod cells;
pub mod chain;
pub mod compare;
pub mod frames;
pub mod interleaver;
pub mod library;
pub mod line_file;
pub mod outcome;
pub mod pair_calls;
pub mod profile;
pub mod programs;
pub mod random;
pub mod rows;
pub mod stand_ins;
pub mod word;
