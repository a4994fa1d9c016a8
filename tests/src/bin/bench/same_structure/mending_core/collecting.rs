//! S1 and S3 of the words of a pair, gathered side by side, word by word; the syndromes of one.

use crate::same_structure::locating_core::Syndromes;
use crate::same_structure::numbers::pair_up;
use crate::same_structure::permutation_core::transpose_eight;

/// The sums in falling order, those of S1 in the upper halves and those of S3 in the lower.
fn paired(sums: &[u32; 16]) -> [u64; 8] {
    let mut b = [0; 8];
    for i in 0..8 {
        b[i] = pair_up(sums[7 - i], sums[15 - i]);
    }
    b
}

/// S1 and S3 word by word: those of word w are bytes w / 8 and w / 8 + 4 of number w % 8.
pub fn by_words(sums: &[u32; 16]) -> [u64; 8] {
    transpose_eight(paired(sums))
}

/// The syndromes of word w.
pub fn syndromes(numbers: &[u64; 8], odd: u32, w: usize) -> Syndromes {
    let v = numbers[w % 8];
    Syndromes {
        s1: ((v >> (56 - 8 * (w / 8))) % 256) as u8,
        s3: ((v >> (24 - 8 * (w / 8))) % 256) as u8,
        parity: ((odd >> (31 - w)) % 2) as u8,
    }
}
