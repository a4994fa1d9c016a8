//! crates/completing_core: the check bits of the words of a pair, from what was gathered of them, put into the words.

use super::check_sums_core::check_bits;
use super::permutation_core::transpose_two;
use super::riffle_core::by_words;

/// The upper half of number r has block 7 of word r, its lower half that of word 16+r; bit w of `own` is bit 239 of word w.
pub struct CheckBits {
    pub last: [u32; 16],
    pub own: u32,
}

/// The sum of sixteen numbers.
fn total(b: &[u32; 16]) -> u32 {
    let mut p = 0;
    for i in 0..16 {
        p = p ^ b[i];
    }
    p
}

/// From S1 and S3 of the words and their parities.
pub fn from_sums(sums: &[u32; 16], odd: u32) -> CheckBits {
    let mut b = check_bits(sums);
    let own = b[7];
    b[7] = odd ^ total(&b);
    let last = transpose_two(b);
    CheckBits { last, own }
}

/// The half of a number that is of row s.
fn half(x: u32, s: usize) -> u16 {
    ((x >> (16 - 16 * s)) % 65536) as u16
}

/// Block 6 of the row's words, of which bit 239 alone is set where it is.
fn put_own(own: u16, out: &mut [u16]) {
    for r in 0..16 {
        out[r] = (own >> (15 - r)) % 2 * 256;
    }
}

/// Block 7 of them.
fn put_last(last: &[u32; 16], s: usize, out: &mut [u16]) {
    for r in 0..16 {
        out[r] = half(last[r], s);
    }
}

/// Both in a row by blocks that has zeros in the others: number 16C+r is of block C of word r.
fn put_checks(last: &[u32; 16], own: u32, s: usize, out: &mut [u16; 128]) {
    put_own(half(own, s), &mut out[96..112]);
    put_last(last, s, &mut out[112..128]);
}

/// The same as a row.
fn check_row(last: &[u32; 16], own: u32, s: usize) -> [u16; 128] {
    let mut x = [0; 128];
    put_checks(last, own, s, &mut x);
    x
}

/// The same by words: number 8r+C is of block C of word r.
pub fn row_checks(last: &[u32; 16], own: u32, s: usize) -> [u16; 128] {
    by_words(check_row(last, own, s))
}
