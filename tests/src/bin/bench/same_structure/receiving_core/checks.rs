//! What is gathered of the 32 words: S1, S3 and parities, side by side; which are no code words.

use crate::same_structure::gathering_core as lanes;
use crate::same_structure::syndromes_core::gather_row;

/// Number i of the sums has digit i of S1, number 8+i digit i of S3; bit w of each, and of the parities, is that of word w.
pub struct Checks {
    pub sums: [u32; 16],
    pub odd: u32,
}

/// Those of both rows.
pub fn gather(history: &[u8; 5120], halves: &[u16; 256], pair: u32) -> Checks {
    let a = gather_row(history, halves, pair, 0);
    let b = gather_row(history, halves, pair, 1);
    let sums = lanes::levels(&a.sums, &b.sums);
    let odd = lanes::join(a.odd, b.odd);
    Checks { sums, odd }
}

/// The words that are no code words, a bit each.
pub fn dirty(sums: &[u32; 16], odd: u32) -> u32 {
    let mut d = odd;
    for i in 0..16 {
        d = d | sums[i];
    }
    d
}
