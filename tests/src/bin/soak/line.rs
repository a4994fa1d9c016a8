//! Interleaver, cells and super-frame.

use ofec_tests::capi;
use ofec_tests::cells;
use ofec_tests::compare::agreed;
use ofec_tests::frames::{self, payload_bytes, rule, FRAME_BYTES, OVERHEAD_BYTES, SUBFRAMES};
use ofec_tests::interleaver::{self, BUFFER_BYTES, PAIRS_BYTES};
use ofec_tests::library;
use ofec_tests::profile::Profile;
use ofec_tests::random::Random;

use crate::draw::{any_number, lent, overhead, payload, rarely, spoil_rarely, to_write};
use crate::entry_points::Verdict;
use crate::round::Round;

pub fn interleave(Round { random, .. }: &mut Round) -> Verdict {
    let pairs = [0; 2].map(|_| lent(random.bytes(PAIRS_BYTES), random));
    let bits = to_write(BUFFER_BYTES, random);
    let (outcome, _) = agreed(
        [&pairs[0], &pairs[1], &bits],
        |[pairs0, pairs1, bits]| capi::interleave(pairs0, pairs1, bits),
        |[pairs0, pairs1, bits]| interleaver::interleave(pairs0, pairs1, bits),
    )?;
    Ok(outcome.refusal)
}

pub fn deinterleave(Round { random, .. }: &mut Round) -> Verdict {
    let bits = lent(random.bytes(BUFFER_BYTES), random);
    let pairs = [0; 2].map(|_| to_write(PAIRS_BYTES, random));
    let (outcome, _) = agreed(
        [&bits, &pairs[0], &pairs[1]],
        |[bits, pairs0, pairs1]| capi::deinterleave(bits, pairs0, pairs1),
        |[bits, pairs0, pairs1]| interleaver::deinterleave(bits, pairs0, pairs1),
    )?;
    Ok(outcome.refusal)
}

pub fn bits_to_cells(profile: Profile, Round { random, .. }: &mut Round) -> Verdict {
    let bits = lent(random.bytes(BUFFER_BYTES), random);
    let cells = to_write(profile.cells_bytes(), random);
    let (outcome, _) = agreed(
        [&bits, &cells],
        |[bits, cells]| library::bits_to_cells(profile, bits, cells),
        |[bits, cells]| cells::bits_to_cells(profile, bits, cells),
    )?;
    Ok(outcome.refusal)
}

pub fn cells_to_bits(profile: Profile, Round { random, .. }: &mut Round) -> Verdict {
    let cells = payload(profile, profile.cells_bytes(), random);
    let bits = to_write(BUFFER_BYTES, random);
    let (outcome, _) = agreed(
        [&cells, &bits],
        |[cells, bits]| library::cells_to_bits(profile, cells, bits),
        |[cells, bits]| cells::cells_to_bits(profile, cells, bits),
    )?;
    Ok(outcome.refusal)
}

pub fn frame(profile: Profile, Round { random, .. }: &mut Round) -> Verdict {
    let number = any_subframe(random);
    let payload = payload(profile, payload_length(number, random), random);
    let overhead = overhead(OVERHEAD_BYTES, random);
    let frame = to_write(FRAME_BYTES, random);
    let (outcome, _) = agreed(
        [&payload, &overhead, &frame],
        |[payload, overhead, frame]| library::frame(profile, number, payload, overhead, frame),
        |[payload, overhead, frame]| frames::frame(profile, number, payload, overhead, frame),
    )
    .map_err(|difference| format!("number {number}, {difference}"))?;
    Ok(outcome.refusal)
}

pub fn unframe(profile: Profile, Round { random, .. }: &mut Round) -> Verdict {
    let number = any_subframe(random);
    let overhead = overhead(OVERHEAD_BYTES, random);
    let frame = framed_with_errors(profile, number, &overhead, random);
    let payload = to_write(payload_length(number, random), random);
    let (outcome, _) = agreed(
        [&frame, &overhead, &payload],
        |[frame, overhead, payload]| library::unframe(profile, number, frame, overhead, payload),
        |[frame, overhead, payload]| frames::unframe(profile, number, frame, overhead, payload),
    )
    .map_err(|difference| format!("number {number}, {difference}"))?;
    Ok(outcome.refusal)
}

/// Mostly one that there is; sub-frame 0 often.
fn any_subframe(random: &mut Random) -> u32 {
    match random.between(0, 8) {
        0 => SUBFRAMES,
        1 => any_number(random),
        2 => 0,
        _ => random.between(0, SUBFRAMES as usize) as u32,
    }
}

/// The right length for this sub-frame; any for one that there is not.
fn payload_length(number: u32, random: &mut Random) -> usize {
    if number < SUBFRAMES {
        payload_bytes(number)
    } else {
        random.between(0, FRAME_BYTES)
    }
}

/// Any cells, or a frame with this list in which some cells are others, now and then illegal ones.
fn framed_with_errors(
    profile: Profile,
    number: u32,
    overhead: &[u8],
    random: &mut Random,
) -> Vec<u8> {
    let rule = |index| rule(profile, number, index / 2);
    let mut frame = random.frame(profile, number);
    if !rarely(3, random) {
        let length = payload_length(number, random);
        let payload = random.payload(profile, length);
        // Refused where the list has illegal cells: then the frame is any cells.
        frames::frame(profile, number, &payload, overhead, &mut frame);
        for _ in 0..random.between(0, 300) {
            let index = random.between(0, FRAME_BYTES);
            frame[index] = random.legal(rule(index));
        }
    }
    spoil_rarely(&mut frame, rule, random);
    lent(frame, random)
}
