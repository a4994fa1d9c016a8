//! crates/encoding_core: a pair encoded by rows: payload into rows, syndromes gathered side by side, check bits from them, coded bytes.

use super::blocks::{lay, write_words, Block, BlockRow};
use super::completing_core::{from_sums, row_checks, CheckBits};
use super::gathering_core as lanes;
use super::pair_words_core::{copy, move_part};
use super::payload_rows_core::put_rows;
use super::permutation_core::exchange_columns;
use super::syndromes_core::gather_row;

/// What is gathered of the words before their completion, and from it their check bits. The history moves down meanwhile, in parts.
fn check_words(history: &mut [u8; 5120], halves: &[u16; 256], pair: u32) -> CheckBits {
    let a = gather_row(history, halves, pair, 0);
    let b = gather_row(history, halves, pair, 1);
    move_part(history, 0, 1536);
    let sums = lanes::levels(&a.sums, &b.sums);
    move_part(history, 1536, 3072);
    let c = from_sums(&sums, lanes::join(a.odd, b.odd));
    move_part(history, 3072, 4608);
    c
}

/// Block C of row s of the halves, with its check bits.
fn completed_block(halves: &[u16; 256], checks: &BlockRow, s: usize, block: usize) -> Block {
    let mut b = [0; 16];
    for r in 0..16 {
        b[r] = halves[128 * s + 8 * r + block] ^ checks[8 * r + block];
    }
    b
}

/// The words of row s of the coded pair: those of the halves with their check bits, their columns exchanged.
fn coded_words(halves: &[u16; 256], checks: &BlockRow, s: usize) -> BlockRow {
    let mut row = [0; 128];
    for block in 0..8 {
        let completed = completed_block(halves, checks, s, block);
        lay(&mut row, block, exchange_columns(completed));
    }
    row
}

/// Its bytes.
fn put_row(last: &[u32; 16], own: u32, halves: &[u16; 256], s: usize, out: &mut [u8]) {
    let checks = row_checks(last, own, s);
    let row = coded_words(halves, &checks, s);
    write_words(&row, out);
}

/// Both rows.
fn put_coded(last: &[u32; 16], own: u32, halves: &[u16; 256], coded: &mut [u8; 512]) {
    for s in 0..2 {
        put_row(last, own, halves, s, &mut coded[s * 256..s * 256 + 256]);
    }
}

/// The coded pair, and its history.
pub fn encode_into(
    payload: &[u8; 444],
    coded: &mut [u8; 512],
    history: &mut [u8; 5120],
    pair: u32,
) {
    let mut halves = [0; 256];
    put_rows(payload, &mut halves);
    let b = check_words(history, &halves, pair);
    put_coded(&b.last, b.own, &halves, coded);
    copy(coded, &mut history[4608..5120]);
}
