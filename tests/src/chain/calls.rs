//! The eight calls of the chain; four of them are given the profile.

use crate::capi;

use crate::outcome::Outcome;
use crate::profile::Profile;
use crate::{cells, frames, interleaver, library, rows};

/// The last two are the numbers of encoder and pair.
pub type Encode = fn(&[u8], &mut [u8], &mut [u8], u32, u32) -> Outcome;
pub type Receive = fn(&[u8], &mut [u8], &mut [u8], &mut [u8], u32, u32) -> Outcome;
/// Bits to cells or cells to bits: what is read, what is written.
pub type Mapping = fn(Profile, &[u8], &mut [u8]) -> Outcome;
/// Framing or unframing: number, what is read, overhead list, what is written.
pub type Framing = fn(Profile, u32, &[u8], &[u8], &mut [u8]) -> Outcome;

#[derive(Clone, Copy)]
pub struct Calls {
    pub encode_pair: Encode,
    pub interleave: fn(&[u8], &[u8], &mut [u8]) -> Outcome,
    pub bits_to_cells: Mapping,
    pub frame: Framing,
    pub unframe: Framing,
    pub cells_to_bits: Mapping,
    pub deinterleave: fn(&[u8], &mut [u8], &mut [u8]) -> Outcome,
    pub receive_pair: Receive,
}

pub const LIBRARY: Calls = Calls {
    encode_pair: |payload, coded, history, encoder, pair| {
        capi::encode_pair(payload, coded, history, encoder, pair).into()
    },
    interleave: |pairs0, pairs1, bits| capi::interleave(pairs0, pairs1, bits).into(),
    bits_to_cells: library::bits_to_cells,
    frame: library::frame,
    unframe: library::unframe,
    cells_to_bits: library::cells_to_bits,
    deinterleave: |bits, pairs0, pairs1| capi::deinterleave(bits, pairs0, pairs1).into(),
    receive_pair: |coded, payload, marks, history, encoder, pair| {
        capi::receive_pair(coded, payload, marks, history, encoder, pair).into()
    },
};

pub const REFERENCE: Calls = Calls {
    encode_pair: rows::encode_pair,
    interleave: interleaver::interleave,
    bits_to_cells: cells::bits_to_cells,
    frame: frames::frame,
    unframe: frames::unframe,
    cells_to_bits: cells::cells_to_bits,
    deinterleave: interleaver::deinterleave,
    receive_pair: rows::receive_pair,
};
