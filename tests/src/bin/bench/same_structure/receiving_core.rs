//! crates/receiving_core: a pair received by rows: syndromes gathered side by side, then the repairs.

use super::mending_core::{no_marks, repair_words};
use super::pair_words_core::shift_in;
use super::payload_core::put_payload;
use super::rows_core::put_halves;

mod checks;

/// A pair in which no word needs a repair.
fn receive_clean(
    coded: &[u8; 512],
    halves: &[u16; 256],
    payload: &mut [u8; 444],
    marks: &mut [u8; 32],
    history: &mut [u8; 5120],
) {
    no_marks(marks);
    put_payload(halves, payload);
    shift_in(history, coded);
}

/// A pair with the repairs that its words need, in the history too.
fn receive_repaired(
    coded: &[u8; 512],
    halves: &mut [u16; 256],
    sums: &[u32; 16],
    odd: u32,
    dirty: u32,
    payload: &mut [u8; 444],
    marks: &mut [u8; 32],
    history: &mut [u8; 5120],
    pair: u32,
) {
    shift_in(history, coded);
    let newest = (&mut history[4608..5120]).try_into().expect("a pair");
    repair_words(halves, newest, sums, odd, dirty, 10 <= pair, marks);
    put_payload(halves, payload);
}

/// Payload and marks of a pair received, and its history.
pub fn receive_into(
    coded: &[u8; 512],
    payload: &mut [u8; 444],
    marks: &mut [u8; 32],
    history: &mut [u8; 5120],
    pair: u32,
) {
    let mut halves = [0; 256];
    put_halves(coded, &mut halves);
    let c = checks::gather(history, &halves, pair);
    let dirty = checks::dirty(&c.sums, c.odd);
    if dirty == 0 {
        receive_clean(coded, &halves, payload, marks, history);
        return;
    }
    receive_repaired(
        coded,
        &mut halves,
        &c.sums,
        c.odd,
        dirty,
        payload,
        marks,
        history,
        pair,
    );
}
