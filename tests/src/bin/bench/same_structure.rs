//! The library's functions once more, in plain Rust with the same loops: what is left between the two
//! when the structure is the same. It follows crates/bits, encoder, receiver, history_core, pair_words_core, encoding_core,
//! payload_rows_core, completing_core, check_sums_core, payload_core, receiving_core, mending_core, syndromes_core, gathering_core,
//! rows_core, riffle_core, block_sums_core, moved_sums_core, permutation_core, blocks, word, locating_core, gf256, interleaver,
//! interleaver_core, block_core, cells, levels_core, mapping_core, mapping_qpsk_core, cells_core, frame, frame_core and
//! frame_legal_core function by function, and changes with them.
//!
//! Lengths of buffers that contracts of the library require are in the types here, and no call is inlined
//! into the code that times it.

// The loops and the parameters are those of the library.
#![allow(
    clippy::needless_range_loop,
    clippy::manual_memcpy,
    clippy::assign_op_pattern,
    clippy::manual_div_ceil,
    clippy::manual_is_multiple_of,
    clippy::too_many_arguments
)]

use ofec_tests::outcome::{Outcome, COUNT_SPENT, MISFIT, NO_SUCH_FRAME, STRAY_HISTORY};
use ofec_tests::profile::Profile;

mod block_core;
mod block_sums_core;
mod blocks;
mod cells_core;
mod check_sums_core;
mod completing_core;
mod encoding_core;
mod frame_core;
mod frame_legal_core;
mod gathering_core;
mod gf256;
mod history_core;
mod locating_core;
mod mapping_core;
mod mapping_qpsk_core;
mod mending_core;
mod moved_sums_core;
mod numbers;
mod pair_words_core;
mod payload_core;
mod payload_rows_core;
mod permutation_core;
mod receiving_core;
mod riffle_core;
mod rows_core;
mod syndromes_core;
mod word;

#[inline(never)]
pub fn encode_pair(
    payload: &[u8],
    coded: &mut [u8],
    history: &mut [u8],
    encoder: u32,
    pair: u32,
) -> Outcome {
    let history: Result<&mut [u8; 5128], _> = history.try_into();
    let (Ok(payload), Ok(coded), Ok(history)) = (payload.try_into(), coded.try_into(), history)
    else {
        return Outcome::refused_pair(MISFIT, pair);
    };
    if history_core::stray(history, encoder, pair) {
        return Outcome::refused_pair(STRAY_HISTORY, pair);
    }
    if pair == u32::MAX {
        return Outcome::refused_pair(COUNT_SPENT, pair);
    }
    let (shown, pairs) = split_front(history);
    encoding_core::encode_into(payload, coded, pairs, pair);
    history_core::put(encoder, pair + 1, shown);
    Outcome::accepted(pair + 1)
}

/// The two numbers of a history, and the ten pairs behind them.
fn split_front(history: &mut [u8; 5128]) -> (&mut [u8], &mut [u8; 5120]) {
    let (shown, pairs) = history.split_at_mut(8);
    (shown, pairs.try_into().expect("ten pairs"))
}

#[inline(never)]
pub fn receive_pair(
    coded: &[u8],
    payload: &mut [u8],
    marks: &mut [u8],
    history: &mut [u8],
    encoder: u32,
    pair: u32,
) -> Outcome {
    let history: Result<&mut [u8; 5128], _> = history.try_into();
    let (Ok(coded), Ok(payload), Ok(marks), Ok(history)) = (
        coded.try_into(),
        payload.try_into(),
        marks.try_into(),
        history,
    ) else {
        return Outcome::refused_pair(MISFIT, pair);
    };
    if history_core::stray(history, encoder, pair) {
        return Outcome::refused_pair(STRAY_HISTORY, pair);
    }
    if pair == u32::MAX {
        return Outcome::refused_pair(COUNT_SPENT, pair);
    }
    let (shown, pairs) = split_front(history);
    receiving_core::receive_into(coded, payload, marks, pairs, pair);
    history_core::put(encoder, pair + 1, shown);
    Outcome::accepted(pair + 1)
}

#[inline(never)]
pub fn interleave(pairs0: &[u8], pairs1: &[u8], bits: &mut [u8]) -> Outcome {
    let (Ok(pairs0), Ok(pairs1), Ok(bits)) =
        (pairs0.try_into(), pairs1.try_into(), bits.try_into())
    else {
        return Outcome::refused(MISFIT);
    };
    let rows = block_core::reordered_rows(pairs0, pairs1);
    block_core::write_bits(&rows, bits);
    Outcome::accepted(0)
}

#[inline(never)]
pub fn deinterleave(bits: &[u8], pairs0: &mut [u8], pairs1: &mut [u8]) -> Outcome {
    let (Ok(bits), Ok(pairs0), Ok(pairs1)) =
        (bits.try_into(), pairs0.try_into(), pairs1.try_into())
    else {
        return Outcome::refused(MISFIT);
    };
    block_core::write_pairs(bits, 0, pairs0);
    block_core::write_pairs(bits, 1, pairs1);
    Outcome::accepted(0)
}

#[inline(never)]
pub fn bits_to_cells(profile: Profile, bits: &[u8], cells: &mut [u8]) -> Outcome {
    let Ok(bits) = bits.try_into() else {
        return Outcome::refused(MISFIT);
    };
    if cells.len() != profile.cells_bytes() {
        return Outcome::refused(MISFIT);
    }
    match profile {
        Profile::Qam16 => mapping_core::qam16::map(bits, cells.try_into().expect("measured")),
        Profile::Qpsk => mapping_qpsk_core::map(bits, cells.try_into().expect("measured")),
    }
    Outcome::accepted(0)
}

#[inline(never)]
pub fn cells_to_bits(profile: Profile, cells: &[u8], bits: &mut [u8]) -> Outcome {
    let Ok(bits) = bits.try_into() else {
        return Outcome::refused(MISFIT);
    };
    if cells.len() != profile.cells_bytes() {
        return Outcome::refused(MISFIT);
    }
    let at = cells_core::first_illegal_payload(profile, cells);
    if at < cells.len() {
        return Outcome::off_grid(at);
    }
    match profile {
        Profile::Qam16 => mapping_core::qam16::demap(cells.try_into().expect("measured"), bits),
        Profile::Qpsk => mapping_qpsk_core::demap(cells.try_into().expect("measured"), bits),
    }
    Outcome::accepted(0)
}

/// What framing and unframing test first.
fn judge(number: u32, overhead: &[u8], frame: &[u8], payload: &[u8]) -> Outcome {
    if overhead.len() != 12288 {
        return Outcome::refused(MISFIT);
    }
    if frame.len() != 7424 {
        return Outcome::refused(MISFIT);
    }
    if 47 < number {
        return Outcome::refused(NO_SUCH_FRAME);
    }
    if payload.len() != frame_core::payload_cells(number) * 2 {
        return Outcome::refused(MISFIT);
    }
    let own = frame_core::own_overhead(number, overhead);
    let at = cells_core::first_illegal(own);
    if at < own.len() {
        return Outcome::off_grid(frame_core::overhead_start(number) * 2 + at);
    }
    Outcome::accepted(0)
}

#[inline(never)]
pub fn frame(
    profile: Profile,
    number: u32,
    payload: &[u8],
    overhead: &[u8],
    frame: &mut [u8],
) -> Outcome {
    let judged = judge(number, overhead, frame, payload);
    if judged.refusal != 0 {
        return judged;
    }
    let to = cells_core::first_illegal_payload(profile, payload);
    if to < payload.len() {
        return Outcome::off_grid(to);
    }
    let own = frame_core::own_overhead(number, overhead);
    frame_core::place(number, payload, own, frame);
    Outcome::accepted(0)
}

#[inline(never)]
pub fn unframe(
    profile: Profile,
    number: u32,
    frame: &[u8],
    overhead: &[u8],
    payload: &mut [u8],
) -> Outcome {
    let judged = judge(number, overhead, frame, payload);
    if judged.refusal != 0 {
        return judged;
    }
    let to = frame_legal_core::first_illegal(profile, number, frame);
    if to < frame.len() {
        return Outcome::off_grid(to);
    }
    frame_core::extract(number, frame, payload);
    let own = frame_core::own_overhead(number, overhead);
    Outcome::accepted(frame_core::differing(number, frame, own))
}
