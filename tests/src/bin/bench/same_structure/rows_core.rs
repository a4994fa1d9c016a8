//! crates/rows_core: rows as words of sixteen bits, eight blocks side by side: read in byte order, and with the words of a pair put in order.

use super::blocks::{block_in, block_of, lay, read_word, Block, BlockRow};
use super::permutation_core::{exchange_columns, exchange_rows, transpose};

/// The eight words of bit row i of the row that starts at a byte.
fn put_words<const N: usize>(s: &[u8; N], from: usize, i: usize, out: &mut [u16]) {
    for c in 0..8 {
        out[c] = read_word(s, from + 2 * (i * 8 + c));
    }
}

/// The words of the row that starts at a byte.
fn row_words<const N: usize>(s: &[u8; N], from: usize) -> BlockRow {
    let mut words = [0; 128];
    for i in 0..16 {
        put_words(s, from, i, &mut words[i * 8..i * 8 + 8]);
    }
    words
}

/// Block C of the front halves, from the pair whose number is the block's.
fn front_block(history: &[u8; 5120], from: usize, block: usize) -> Block {
    let mut b = [0; 16];
    for i in 0..16 {
        b[i] = read_word(history, 514 * block + 16 * i + from);
    }
    b
}

/// The words of the front halves: those of the oldest pair, of which block 0 stays.
fn front_words(history: &[u8; 5120], from: usize) -> BlockRow {
    let mut words = row_words(history, from);
    for block in 1..8 {
        lay(&mut words, block, front_block(history, from, block));
    }
    words
}

/// The bit rows of each block exchanged: bit r of number 8j+C is bit 16C+j of the front half of word r.
fn fronts_in(words: &BlockRow) -> BlockRow {
    let mut row = [0; 128];
    for block in 0..8 {
        lay(&mut row, block, exchange_rows(block_in(words, block)));
    }
    row
}

/// The columns of each block exchanged: number 8r+C holds bits 16C to 16C+15 of the back half of word r, as two bytes lie in memory.
fn backs_in(words: &BlockRow) -> BlockRow {
    let mut row = [0; 128];
    for block in 0..8 {
        lay(&mut row, block, exchange_columns(block_of(words, block)));
    }
    row
}

/// The same of row s of a coded pair.
fn coded_row(coded: &[u8; 512], s: usize) -> BlockRow {
    let words = row_words(coded, 256 * s);
    backs_in(&words)
}

fn put_row(coded: &[u8; 512], s: usize, row: &mut [u16]) {
    let from = coded_row(coded, s);
    for i in 0..128 {
        row[i] = from[i];
    }
}

/// The back halves of the 32 words of a coded pair.
pub fn put_halves(coded: &[u8; 512], halves: &mut [u16; 256]) {
    for s in 0..2 {
        put_row(coded, s, &mut halves[s * 128..s * 128 + 128]);
    }
}

/// Block C of row s of the halves.
fn half_block(halves: &[u16; 256], s: usize, block: usize) -> Block {
    let mut b = [0; 16];
    for r in 0..16 {
        b[r] = halves[128 * s + 8 * r + block];
    }
    b
}

/// The rows of a block turned by eight.
fn turned_rows(b: Block) -> Block {
    let mut y = [0; 16];
    for i in 0..16 {
        y[i] = b[(i + 8) % 16];
    }
    y
}

/// The columns of row s of the halves, which turns them back: bit r of number 8j+C is bit 16C+j of the back half of word 16s+r.
fn columns_of(halves: &[u16; 256], s: usize) -> BlockRow {
    let mut row = [0; 128];
    for block in 0..8 {
        let columns = transpose(half_block(halves, s, block));
        lay(&mut row, block, turned_rows(columns));
    }
    row
}

/// The front halves of the words of row s of a pair, side by side; zeros before pair 10.
pub fn fronts(history: &[u8; 5120], pair: u32, s: usize) -> BlockRow {
    if pair < 10 {
        return [0; 128];
    }
    let words = front_words(history, 256 - 256 * s);
    fronts_in(&words)
}

/// Their back halves, side by side.
pub fn backs(halves: &[u16; 256], s: usize) -> BlockRow {
    columns_of(halves, s)
}
