//! The super-frame: 48 sub-frames of 3,712 cells, each overhead or payload by its number.

use std::ops::Range;

use crate::cells::{first_illegal, is_legal};
use crate::outcome::{Outcome, MISFIT, NO_SUCH_FRAME};
use crate::profile::Profile;

pub const SUBFRAMES: u32 = 48;
pub const SUBFRAME_CELLS: usize = 3_712;
pub const FRAME_BYTES: usize = 7_424;
/// The overhead list of a super-frame.
pub const OVERHEAD_BYTES: usize = 12_288;
/// Overhead cells of both profiles may be any that a payload cell of 16-QAM may be.
pub const OVERHEAD: Profile = Profile::Qam16;

/// Whether a cell of sub-frame `number` is overhead: pilot, training, or sub-frame 0's own.
pub fn is_overhead(number: u32, cell: usize) -> bool {
    cell % 32 == 0 || cell <= 10 || number == 0 && (11..=109).contains(&cell)
}

/// The profile by whose rule a cell of sub-frame `number` is legal.
pub fn rule(profile: Profile, number: u32, cell: usize) -> Profile {
    if is_overhead(number, cell) {
        OVERHEAD
    } else {
        profile
    }
}

/// The index of a frame's first byte that is not legal for its cell.
pub fn first_illegal_of_frame(profile: Profile, number: u32, frame: &[u8]) -> Option<usize> {
    (0..frame.len()).find(|&index| !is_legal(rule(profile, number, index / 2), frame[index]))
}

pub fn overhead_cells(number: u32) -> usize {
    if number == 0 {
        222
    } else {
        126
    }
}

pub fn payload_bytes(number: u32) -> usize {
    if number == 0 {
        6_980
    } else {
        7_172
    }
}

/// The bytes of the overhead list that belong to sub-frame `number`.
pub fn own_overhead(number: u32) -> Range<usize> {
    let first: usize = (0..number).map(overhead_cells).sum();
    2 * first..2 * (first + overhead_cells(number))
}

/// As `ofec_frame` or `ofec_frame_qpsk`.
pub fn frame(
    profile: Profile,
    number: u32,
    payload: &[u8],
    overhead: &[u8],
    frame: &mut [u8],
) -> Outcome {
    let first_illegal = || first_illegal(profile, payload);
    if let Some(refused) = refusal(number, frame.len(), payload.len(), overhead, first_illegal) {
        return refused;
    }
    let mut payload = payload.chunks(2);
    let mut overhead = overhead[own_overhead(number)].chunks(2);
    for (cell, place) in frame.chunks_mut(2).enumerate() {
        let next = if is_overhead(number, cell) {
            overhead.next()
        } else {
            payload.next()
        };
        place.copy_from_slice(next.expect("as many cells as the sub-frame has"));
    }
    Outcome::accepted(0)
}

/// As `ofec_unframe` or `ofec_unframe_qpsk`.
pub fn unframe(
    profile: Profile,
    number: u32,
    frame: &[u8],
    overhead: &[u8],
    payload: &mut [u8],
) -> Outcome {
    let first_illegal = || first_illegal_of_frame(profile, number, frame);
    if let Some(refused) = refusal(number, frame.len(), payload.len(), overhead, first_illegal) {
        return refused;
    }
    let mut payload = payload.chunks_mut(2);
    let mut overhead = overhead[own_overhead(number)].chunks(2);
    let mut differing = 0;
    for (cell, bytes) in frame.chunks(2).enumerate() {
        if is_overhead(number, cell) {
            differing += u32::from(overhead.next() != Some(bytes));
        } else {
            let place = payload.next();
            place.expect("a payload cell").copy_from_slice(bytes);
        }
    }
    Outcome::accepted(differing)
}

/// Misfit, no such frame, off grid, in this order. `in_other` finds the first illegal byte of what the
/// call reads beside the list.
fn refusal(
    number: u32,
    frame_length: usize,
    payload_length: usize,
    overhead: &[u8],
    in_other: impl FnOnce() -> Option<usize>,
) -> Option<Outcome> {
    let known = number < SUBFRAMES;
    if frame_length != FRAME_BYTES
        || overhead.len() != OVERHEAD_BYTES
        || known && payload_length != payload_bytes(number)
    {
        return Some(Outcome::refused(MISFIT));
    }
    if !known {
        return Some(Outcome::refused(NO_SUCH_FRAME));
    }
    let own = own_overhead(number);
    let in_list = first_illegal(OVERHEAD, &overhead[own.clone()]).map(|index| own.start + index);
    in_list.or_else(in_other).map(Outcome::off_grid)
}
