//! The interleaver: each output bit is taken from the place that its number names.

use crate::bits;
use crate::outcome::{Outcome, MISFIT};

/// 21 pairs of one encoder.
pub const PAIRS_BYTES: usize = 10_752;
pub const BUFFER_BYTES: usize = 21_504;
pub const BUFFER_BITS: usize = 172_032;

/// The first block row of each subset, which takes every second one.
const FIRST_BLOCK_ROW: [usize; 4] = [0, 1, 42, 43];

/// A bit of an encoder's row R, counted within the buffer.
#[derive(Debug, PartialEq, Eq, Clone, Copy)]
pub struct Source {
    pub encoder: usize,
    pub row: usize,
    pub block: usize,
    pub bit_row: usize,
    pub column: usize,
}

impl Source {
    /// The bit's index in the 21 pairs of its encoder.
    pub fn index(&self) -> usize {
        256 * 8 * self.row + 128 * self.bit_row + 16 * self.block + self.column
    }
}

/// Where output bit n = 1344×column + 32×t + 8×subset + b is taken from.
pub fn source(n: usize) -> Source {
    let column = n / 1344;
    let t = n % 1344 / 32;
    let subset = n % 32 / 8;
    let bit_row = 8 * t + n % 8;
    let block_row = FIRST_BLOCK_ROW[subset] + 2 * (bit_row / 16);
    let (from_row, from_column) = reordered((bit_row % 16) as i32, (column % 16) as i32);
    Source {
        encoder: block_row % 2,
        row: block_row / 2,
        block: column / 16,
        bit_row: from_row,
        column: from_column,
    }
}

/// The place of a block from which place (i, j) takes its bit.
fn reordered(i: i32, j: i32) -> (usize, usize) {
    let d = if i < 8 { 0 } else { 1 };
    let row = (j - 2 * i - d).rem_euclid(16);
    let column = (j - i - d).rem_euclid(16);
    (row as usize, column as usize)
}

/// As `ofec_interleave`.
pub fn interleave(pairs0: &[u8], pairs1: &[u8], bits: &mut [u8]) -> Outcome {
    if [pairs0.len(), pairs1.len(), bits.len()] != [PAIRS_BYTES, PAIRS_BYTES, BUFFER_BYTES] {
        return Outcome::refused(MISFIT);
    }
    for n in 0..BUFFER_BITS {
        let from = source(n);
        bits::set(
            bits,
            n,
            bits::get([pairs0, pairs1][from.encoder], from.index()),
        );
    }
    Outcome::accepted(0)
}

/// As `ofec_deinterleave`.
pub fn deinterleave(bits: &[u8], pairs0: &mut [u8], pairs1: &mut [u8]) -> Outcome {
    if [bits.len(), pairs0.len(), pairs1.len()] != [BUFFER_BYTES, PAIRS_BYTES, PAIRS_BYTES] {
        return Outcome::refused(MISFIT);
    }
    for n in 0..BUFFER_BITS {
        let to = source(n);
        let pairs = if to.encoder == 0 {
            &mut *pairs0
        } else {
            &mut *pairs1
        };
        bits::set(pairs, to.index(), bits::get(bits, n));
    }
    Outcome::accepted(0)
}
