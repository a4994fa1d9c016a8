//! crates/payload_rows_core: from the payload of a pair to the back halves of its words before their completion.

use super::blocks::{read_word, turn};
use super::riffle_core::by_words;

/// Block C of row s: sixteen words, two bytes each, as they lie in memory.
fn put_block(payload: &[u8; 444], s: usize, block: usize, out: &mut [u16]) {
    for r in 0..16 {
        out[r] = read_word(payload, 64 * block + 32 * s + 2 * r);
    }
}

/// Six blocks of row s, one after the other.
fn put_blocks(payload: &[u8; 444], s: usize, out: &mut [u16]) {
    for c in 0..6 {
        put_block(payload, s, c, &mut out[c * 16..c * 16 + 16]);
    }
}

/// The last sixteen bytes of the payload, and two more that `fifteen` reads without using a bit of them.
fn end_of(payload: &[u8; 444]) -> [u8; 18] {
    let mut end = [0; 18];
    for i in 0..16 {
        end[i] = payload[428 + i];
    }
    end
}

/// Word n of eight whose fifteen bytes begin behind byte `at`: fifteen bits and a zero, as they lie in memory.
fn fifteen(bytes: &[u8], at: usize, n: usize) -> u16 {
    let x = turn(read_word(bytes, at + 2 * n), 8);
    let y = turn(read_word(bytes, at + 2 * n + 2), 8);
    let z = (x << (8 - n)) | (y >> (8 + n));
    turn((z >> 1) << 1, 8)
}

/// Block 6 of all words, eight words a group: a turn makes word n of each of the four groups.
fn lasts(payload: &[u8; 444]) -> [u16; 32] {
    let end = end_of(payload);
    let mut out = [0; 32];
    for n in 0..8 {
        out[n] = fifteen(payload, 383, n);
        out[8 + n] = fifteen(payload, 398, n);
        out[16 + n] = fifteen(payload, 413, n);
        out[24 + n] = fifteen(&end, 0, n);
    }
    out
}

/// Block 6 of row s.
fn put_lasts(last: &[u16; 32], s: usize, out: &mut [u16]) {
    for i in 0..16 {
        out[i] = last[16 * s + i];
    }
}

/// Row s by blocks: number 16C+r is of block C of the row's word r. Block 7 has zeros.
fn payload_row(payload: &[u8; 444], last: &[u16; 32], s: usize) -> [u16; 128] {
    let mut x = [0; 128];
    put_blocks(payload, s, &mut x[0..96]);
    put_lasts(last, s, &mut x[96..112]);
    x
}

/// Row s by words.
fn put_row(payload: &[u8; 444], last: &[u16; 32], s: usize, out: &mut [u16]) {
    let from = by_words(payload_row(payload, last, s));
    for i in 0..128 {
        out[i] = from[i];
    }
}

/// The back halves of the 32 words: number 8w+C is of block C of word w.
pub fn put_rows(payload: &[u8; 444], halves: &mut [u16; 256]) {
    let last = lasts(payload);
    for s in 0..2 {
        put_row(payload, &last, s, &mut halves[s * 128..s * 128 + 128]);
    }
}
