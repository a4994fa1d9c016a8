//! crates/payload_core: the payload of words received, from their back halves in numbers of sixteen bits.

use super::blocks::turn;
use super::riffle_core::by_blocks;

fn number(halves: &[u16; 256], n: usize) -> u16 {
    halves[n]
}

/// The numbers of a row's sixteen words.
fn row_of_halves(halves: &[u16; 256], s: usize) -> [u16; 128] {
    let mut x = [0; 128];
    for n in 0..128 {
        x[n] = halves[128 * s + n];
    }
    x
}

/// These in order by blocks: number 16C+r is of block C of the row's word r.
fn row_by_blocks(halves: &[u16; 256], s: usize) -> [u16; 128] {
    by_blocks(row_of_halves(halves, s))
}

fn in_row(row: &[u16; 128], n: usize) -> u16 {
    row[n]
}

/// Block C of a row by blocks, two bytes a number, the lower byte first.
fn put_half(row: &[u16; 128], block: usize, out: &mut [u8]) {
    for r in 0..16 {
        let x = in_row(row, 16 * block + r);
        out[2 * r] = (x % 256) as u8;
        out[2 * r + 1] = (x / 256) as u8;
    }
}

/// Block C of both rows.
fn put_block(first: &[u16; 128], second: &[u16; 128], block: usize, out: &mut [u8]) {
    put_half(first, block, &mut out[0..32]);
    put_half(second, block, &mut out[32..64]);
}

/// Six blocks, one after the other.
fn put_blocks(first: &[u16; 128], second: &[u16; 128], out: &mut [u8]) {
    for c in 0..6 {
        put_block(first, second, c, &mut out[c * 64..c * 64 + 64]);
    }
}

fn upper_fifteen(x: u16) -> u64 {
    u64::from(x / 2)
}

/// The last fifteen payload bits of a word.
fn last_fifteen(halves: &[u16; 256], w: usize) -> u64 {
    upper_fifteen(turn(number(halves, 8 * w + 6), 8))
}

/// Those of four words, from word w on.
fn last_sixty(halves: &[u16; 256], w: usize) -> u64 {
    let mut v = 0;
    for i in 0..4 {
        v = v * 32768 + last_fifteen(halves, w + i);
    }
    v
}

fn put_number(v: u64, out: &mut [u8]) {
    for j in 0..8 {
        out[j] = ((v >> (56 - 8 * j)) % 256) as u8;
    }
}

/// The last payload bits of eight words, as two numbers that share the byte in the middle.
fn put_fifteen(halves: &[u16; 256], group: usize, out: &mut [u8]) {
    let first = last_sixty(halves, group * 8);
    let second = last_sixty(halves, group * 8 + 4);
    put_number(first * 16 + second / (1 << 56), &mut out[0..8]);
    put_number(first % 16 * (1 << 60) + second, &mut out[7..15]);
}

fn put_last(halves: &[u16; 256], out: &mut [u8]) {
    for g in 0..4 {
        put_fifteen(halves, g, &mut out[g * 15..g * 15 + 15]);
    }
}

/// The payload: six blocks of each word, then what is left of block 6. Number 8w+C of the halves is of block C of word w.
pub fn put_payload(halves: &[u16; 256], payload: &mut [u8; 444]) {
    let first = row_by_blocks(halves, 0);
    let second = row_by_blocks(halves, 1);
    put_blocks(&first, &second, &mut payload[0..384]);
    put_last(halves, &mut payload[384..444]);
}
