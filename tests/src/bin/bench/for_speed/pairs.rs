//! Encoding and receiving a pair by whole bit rows: a bit row is eight numbers of 16 bits, one of each block, and the compiler makes one
//! vector of them.
//!
//! Numbers are read least significant byte first, so that column c of a block is bit c ^ 7 of its number.

mod encode;
mod receive;
mod repair;
mod sums;

use ofec_tests::outcome::{Outcome, COUNT_SPENT, STRAY_HISTORY};

pub use encode::encode_pair;
pub use receive::receive_pair;

#[inline(always)]
fn number(bytes: &[u8], at: usize) -> u16 {
    u16::from_le_bytes([bytes[at], bytes[at + 1]])
}

/// Columns that differ by d change places; `m` has those without d.
#[inline(always)]
fn exchanged(number: u16, d: usize, m: u16) -> u16 {
    number >> d & m | (number & m) << d
}

/// One of the first half and one of the second in turn: the highest bit of each index becomes the lowest.
#[inline(always)]
fn riffle<T: Copy + Default, const N: usize>(x: &[T; N]) -> [T; N] {
    let mut y = [T::default(); N];
    for n in 0..N / 2 {
        y[2 * n] = x[n];
        y[2 * n + 1] = x[n + N / 2];
    }
    y
}

/// Refuses the call, or does its work on the ten pairs of the history, of which front halves count where it is full.
#[inline(always)]
fn judged(
    history: &mut [u8; 5128],
    encoder: u32,
    pair: u32,
    work: impl FnOnce(&mut [u8; 5120], bool),
) -> Outcome {
    let (shown, pairs) = history.split_first_chunk_mut().expect("two numbers");
    let named = u64::from(encoder) << 32 | u64::from(pair);
    if u64::from_be_bytes(*shown) != named || encoder > 1 {
        return Outcome::refused_pair(STRAY_HISTORY, pair);
    }
    if pair == u32::MAX {
        return Outcome::refused_pair(COUNT_SPENT, pair);
    }
    work(pairs.try_into().expect("ten pairs"), pair >= 10);
    *shown = (named + 1).to_be_bytes();
    Outcome::accepted(pair + 1)
}
