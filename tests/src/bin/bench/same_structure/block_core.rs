//! crates/block_core and interleaver_core: the 84 block rows of a buffer, each block reordered by itself.

use super::blocks::{block_in, choose, lay, turn, write_row, Block, BlockRow};

const BY_8: u16 = 0x0F0F;
const BY_4: u16 = 0x3333;
const BY_2: u16 = 0x5555;
const BY_1: u16 = 0x00FF;

fn turn_rows(b: Block, n: usize) -> Block {
    let mut out = [0; 16];
    for i in 0..16 {
        out[i] = turn(b[i], n * i % 16);
    }
    out
}

fn move_columns(b: Block, n: usize, m: u16) -> Block {
    let mut out = [0; 16];
    for i in 0..16 {
        out[i] = choose(m, b[(i + n) % 16], b[i]);
    }
    out
}

fn reorder(b: Block) -> Block {
    let t = turn_rows(b, 1);
    let u = move_columns(t, 8, BY_8);
    let v = move_columns(u, 12, BY_4);
    let w = move_columns(v, 14, BY_2);
    move_columns(w, 15, BY_1)
}

fn restore(b: Block) -> Block {
    let t = move_columns(b, 8, BY_8);
    let u = move_columns(t, 4, BY_4);
    let v = move_columns(u, 2, BY_2);
    let w = move_columns(v, 1, BY_1);
    turn_rows(w, 15)
}

fn pairs_words(pairs: &[u8; 10752], block_row: usize) -> BlockRow {
    let mut words = [0; 128];
    for x in 0..128 {
        let at = 256 * (block_row / 2) + 2 * x;
        words[x] = (usize::from(pairs[at + 1]) * 256 + usize::from(pairs[at])) as u16;
    }
    words
}

fn sent_words(pairs0: &[u8; 10752], pairs1: &[u8; 10752], block_row: usize) -> BlockRow {
    if block_row.is_multiple_of(2) {
        return pairs_words(pairs0, block_row);
    }
    pairs_words(pairs1, block_row)
}

fn reordered_row(words: &BlockRow) -> BlockRow {
    let mut row = [0; 128];
    for block in 0..8 {
        lay(&mut row, block, reorder(block_in(words, block)));
    }
    row
}

fn subset_rows(pairs0: &[u8; 10752], pairs1: &[u8; 10752], x: usize) -> [BlockRow; 4] {
    let mut rows = [[0; 128]; 4];
    for subset in 0..4 {
        let words = sent_words(pairs0, pairs1, subset / 2 * 42 + subset % 2 + 2 * x);
        rows[subset] = reordered_row(&words);
    }
    rows
}

/// Four block rows side by side: word x of row s is number 4x+s.
pub type FourRows = [u16; 512];

fn side_by_side(rows: &[BlockRow; 4]) -> FourRows {
    let mut words = [0; 512];
    for x in 0..128 {
        for subset in 0..4 {
            words[4 * x + subset] = rows[subset][x];
        }
    }
    words
}

pub fn reordered_rows(pairs0: &[u8; 10752], pairs1: &[u8; 10752]) -> [FourRows; 21] {
    let mut rows = [[0; 512]; 21];
    for x in 0..21 {
        let four = subset_rows(pairs0, pairs1, x);
        rows[x] = side_by_side(&four);
    }
    rows
}

fn write_eight(rows: &[FourRows; 21], column: usize, x: usize, out: &mut [u8]) {
    for y in 0..8 {
        let w = rows[x][4 * (8 * (column % 16) + column / 16) + y % 4];
        out[y] = ((w >> (8 - 8 * (y / 4))) % 256) as u8;
    }
}

fn write_column(rows: &[FourRows; 21], column: usize, out: &mut [u8]) {
    for x in 0..21 {
        write_eight(rows, column, x, &mut out[x * 8..x * 8 + 8]);
    }
}

pub fn write_bits(rows: &[FourRows; 21], bits: &mut [u8; 21504]) {
    for column in 0..128 {
        write_column(rows, column, &mut bits[column * 168..column * 168 + 168]);
    }
}

fn line_block(bits: &[u8; 21504], block_row: usize, block: usize) -> Block {
    let subset = block_row / 42 * 2 + block_row % 2;
    let q = block_row % 42 / 2 * 16;
    let mut b = [0; 16];
    for j in 0..16 {
        let at = 168 * (16 * block + j) + 4 * (q / 8) + subset;
        b[j] = (usize::from(bits[at]) * 256 + usize::from(bits[at + 4])) as u16;
    }
    b
}

fn restored_row(bits: &[u8; 21504], block_row: usize) -> BlockRow {
    let mut row = [0; 128];
    for block in 0..8 {
        lay(&mut row, block, restore(line_block(bits, block_row, block)));
    }
    row
}

/// With the bound of the encoder at hand the compiler leaves out the tests of the indices.
pub fn write_pairs(bits: &[u8; 21504], encoder: usize, pairs: &mut [u8; 10752]) {
    assert!(encoder < 2, "an encoder");
    for r in 0..42 {
        let row = restored_row(bits, 2 * r + encoder);
        write_row(&row, &mut pairs[r * 256..r * 256 + 256]);
    }
}
