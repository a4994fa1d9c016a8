//! Sub-frames by runs: what stands before the first whole group in two copies, then a pilot and 31 payload cells at a time.

use ofec_tests::frames::OVERHEAD;
use ofec_tests::outcome::{Outcome, MISFIT, NO_SUCH_FRAME};
use ofec_tests::profile::Profile;

use super::cells::{any_flaw, first_illegal, flaw};

/// Bytes of a sub-frame below the edge, and of its payload before the first whole group.
fn edge(number: u32) -> (usize, usize) {
    if number == 0 {
        (220, 36)
    } else {
        (22, 42)
    }
}

/// The sub-frame's own part of the overhead list, where no test fails.
#[inline(always)]
fn own(number: u32, overhead: &[u8], frame: usize, payload: usize) -> Result<&[u8], Outcome> {
    let (start, length) = match number {
        0 => (0, 444),
        _ => (number as usize * 252 + 192, 252),
    };
    if [overhead.len(), frame] != [12288, 7424] {
        return Err(Outcome::refused(MISFIT));
    }
    if number > 47 {
        return Err(Outcome::refused(NO_SUCH_FRAME));
    }
    if payload != 7424 - length {
        return Err(Outcome::refused(MISFIT));
    }
    let own = &overhead[start..][..length];
    match first_illegal(OVERHEAD, own) {
        Some(index) => Err(Outcome::off_grid(start + index)),
        None => Ok(own),
    }
}

/// The index of a frame's first byte that is illegal for its cell, searched only where there is one: overhead and payload apart, if the
/// profile has a rule for each.
#[inline(always)]
fn first_illegal_of_frame(profile: Profile, number: u32, frame: &[u8]) -> Option<usize> {
    if profile == OVERHEAD {
        return first_illegal(OVERHEAD, frame);
    }
    let (low, rest) = edge(number);
    let (head, groups) = frame.split_at(low + rest);
    let (head, payload) = head.split_at(low);
    // The flaws of each place of a group, which is two bytes of a pilot and then payload.
    let (mut pilots, mut flaws) = (0, [0; 62]);
    for group in groups.as_chunks::<64>().0 {
        pilots |= group[0] | group[1];
        for place in 0..62 {
            flaws[place] |= flaw(Profile::Qpsk, group[place + 2]);
        }
    }
    let any = pilots >= 16 || flaws != [0; 62];
    if !any && !any_flaw(OVERHEAD, head) && !any_flaw(profile, payload) {
        return None;
    }
    (0..frame.len()).find(|&index| {
        let in_overhead = index < low || index >= low + rest && index % 64 < 2;
        let rule = if in_overhead { OVERHEAD } else { profile };
        flaw(rule, frame[index]) != 0
    })
}

#[inline(never)]
pub fn frame(
    profile: Profile,
    number: u32,
    payload: &[u8],
    overhead: &[u8],
    frame: &mut [u8],
) -> Outcome {
    let own = match own(number, overhead, frame.len(), payload.len()) {
        Ok(own) => own,
        Err(refused) => return refused,
    };
    if let Some(index) = first_illegal(profile, payload) {
        return Outcome::off_grid(index);
    }
    let (low, rest) = edge(number);
    let (head, groups) = frame.split_at_mut(low + rest);
    head[..low].copy_from_slice(&own[..low]);
    head[low..].copy_from_slice(&payload[..rest]);
    let pilots = own[low..].chunks_exact(2);
    let runs = payload[rest..].chunks_exact(62);
    for ((group, pilot), run) in groups.chunks_exact_mut(64).zip(pilots).zip(runs) {
        group[..2].copy_from_slice(pilot);
        group[2..].copy_from_slice(run);
    }
    Outcome::accepted(0)
}

#[inline(never)]
pub fn unframe(
    profile: Profile,
    number: u32,
    frame: &[u8],
    overhead: &[u8],
    payload: &mut [u8],
) -> Outcome {
    let own = match own(number, overhead, frame.len(), payload.len()) {
        Ok(own) => own,
        Err(refused) => return refused,
    };
    if let Some(index) = first_illegal_of_frame(profile, number, frame) {
        return Outcome::off_grid(index);
    }
    let (low, rest) = edge(number);
    let (head, groups) = frame.split_at(low + rest);
    payload[..rest].copy_from_slice(&head[low..]);
    let head = head[..low].chunks_exact(2);
    let mut differing: u32 = head
        .zip(own.chunks_exact(2))
        .map(|(a, b)| u32::from(a != b))
        .sum();
    let pilots = own[low..].chunks_exact(2);
    let runs = payload[rest..].chunks_exact_mut(62);
    for ((group, pilot), run) in groups.chunks_exact(64).zip(pilots).zip(runs) {
        differing += u32::from(group[..2] != *pilot);
        run.copy_from_slice(&group[2..]);
    }
    Outcome::accepted(differing)
}
