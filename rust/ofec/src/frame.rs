//! The super-frame: 48 sub-frames of 3,712 cells, with overhead cells among the payload cells. The
//! payload of a super-frame is the cells of eight buffers, or in QPSK of four, one after the other.
//! The layout is the same in both profiles. A byte of an overhead cell is below 16 in both; one of a
//! payload cell is legal by the profile ([`cells`](crate::cells)).

use core::ops::Range;

use crate::{Profile, Refusal, capi};

/// Sub-frames of a super-frame, numbered from 0.
pub const SUBFRAMES: u32 = 48;
/// Bytes of a sub-frame.
pub const FRAME_BYTES: usize = 7_424;
/// Bytes of a super-frame.
pub const SUPERFRAME_BYTES: usize = SUBFRAMES as usize * FRAME_BYTES;
/// Bytes of the overhead list of a super-frame.
pub const OVERHEAD_BYTES: usize = 12_288;

/// Bytes of the payload cells of sub-frame `number`, or `None` if there is no such sub-frame.
///
/// ```
/// use ofec::cells::CELLS_BYTES;
/// use ofec::frame::payload_bytes;
///
/// assert_eq!([0, 1, 47, 48].map(payload_bytes), [Some(6_980), Some(7_172), Some(7_172), None]);
/// assert_eq!((0..).map_while(payload_bytes).sum::<usize>(), 8 * CELLS_BYTES);
/// ```
pub fn payload_bytes(number: u32) -> Option<usize> {
    match number {
        0 => Some(6_980),
        1..SUBFRAMES => Some(7_172),
        _ => None,
    }
}

/// The part of the overhead list that belongs to sub-frame `number`, or `None` if there is no such
/// sub-frame.
///
/// ```
/// use ofec::Refusal;
/// use ofec::frame::*;
///
/// assert_eq!([0, 1, 2, 48].map(overhead_part), [Some(0..444), Some(444..696), Some(696..948), None]);
///
/// // Which buffer an illegal byte is in: here the payload, since byte 500 belongs to sub-frame 1.
/// let (mut overhead, mut payload) = ([0; OVERHEAD_BYTES], [0; 7_172]);
/// (overhead[500], payload[500]) = (16, 16);
/// let in_overhead = |number, index: usize| {
///     overhead_part(number).unwrap().contains(&index) && overhead[index] >= 16
/// };
/// let mut to = [0; FRAME_BYTES];
/// for (number, expected) in [(1, true), (2, false)] {
///     let refused = frame(number, &payload, &overhead, &mut to).unwrap_err();
///     assert_eq!(refused, Refusal::OffGrid { index: 500 });
///     assert_eq!(in_overhead(number, 500), expected);
/// }
/// ```
pub fn overhead_part(number: u32) -> Option<Range<usize>> {
    match number {
        0 => Some(0..444),
        1..SUBFRAMES => {
            let start = 444 + 252 * (number as usize - 1);
            Some(start..start + 252)
        }
        _ => None,
    }
}

/// Frames sub-frame `number`: `payload` of [`payload_bytes`] and its part of the `overhead` list of
/// [`OVERHEAD_BYTES`] to `frame` of [`FRAME_BYTES`].
///
/// Refusals: [`Refusal::Misfit`] (if the number is above 47, `payload` is not measured),
/// [`Refusal::NoSuchFrame`], [`Refusal::OffGrid`].
///
/// Only the sub-frame's own part of the list is read ([`overhead_part`]), and before any byte of
/// `payload`. So if the index of [`Refusal::OffGrid`] falls in that part, and `overhead` has 16 or
/// more there, it is an index of `overhead`; otherwise it is an index of `payload`.
///
/// A super-frame of eight buffers' cells:
///
/// ```
/// use ofec::cells::CELLS_BYTES;
/// use ofec::frame::*;
///
/// let overhead = [5; OVERHEAD_BYTES];
/// let cells: Vec<u8> = (0..8 * CELLS_BYTES).map(|i| (i % 16) as u8).collect();
///
/// let mut superframe = vec![0; SUPERFRAME_BYTES];
/// let mut rest = &cells[..];
/// for (number, place) in (0..).zip(superframe.chunks_mut(FRAME_BYTES)) {
///     let (payload, after) = rest.split_at(payload_bytes(number).unwrap());
///     frame(number, payload, &overhead, place)?;
///     rest = after;
/// }
/// assert!(rest.is_empty());
/// // Cells 0 to 109 of sub-frame 0 are overhead, then comes payload, and cell 128 is a pilot.
/// assert_eq!(superframe[2 * 109..2 * 112], [5, 5, 0, 1, 2, 3]);
/// assert_eq!(superframe[2 * 128..2 * 129], [5, 5]);
/// # Ok::<(), ofec::Refusal>(())
/// ```
pub fn frame(
    number: u32,
    payload: &[u8],
    overhead: &[u8],
    frame: &mut [u8],
) -> Result<(), Refusal> {
    place(Profile::Qam16, number, payload, overhead, frame)
}

/// As [`frame`](frame()), with payload cells of QPSK: a byte of `payload` other than 5, 6, 9 and 10 is
/// [`Refusal::OffGrid`].
///
/// ```
/// use ofec::Refusal;
/// use ofec::frame::*;
///
/// let overhead = [15; OVERHEAD_BYTES]; // overhead cells may have levels of 3
/// let mut payload = [10; 7_172];
/// let mut line = [0; FRAME_BYTES];
/// frame_qpsk(1, &payload, &overhead, &mut line)?;
/// assert_eq!(line[2 * 10..2 * 12], [15, 15, 10, 10]);
///
/// payload[700] = 15;
/// let refused = frame_qpsk(1, &payload, &overhead, &mut line);
/// assert_eq!(refused, Err(Refusal::OffGrid { index: 700 }));
/// frame(1, &payload, &overhead, &mut line)?;
/// # Ok::<(), ofec::Refusal>(())
/// ```
pub fn frame_qpsk(
    number: u32,
    payload: &[u8],
    overhead: &[u8],
    frame: &mut [u8],
) -> Result<(), Refusal> {
    place(Profile::Qpsk, number, payload, overhead, frame)
}

/// Frames by a profile.
pub(crate) fn place(
    profile: Profile,
    number: u32,
    payload: &[u8],
    overhead: &[u8],
    frame: &mut [u8],
) -> Result<(), Refusal> {
    let call = match profile {
        Profile::Qam16 => capi::frame,
        Profile::Qpsk => capi::frame_qpsk,
    };
    call(number, payload, overhead, frame).done().map(|_| ())
}

/// Unframes sub-frame `number`: the buffers of [`frame`](frame()), but the payload is written.
/// Returns the number of overhead cells that differ from the list.
///
/// Refusals: as in [`frame`](frame()), with an index of `frame` instead of `payload`.
///
/// ```
/// use ofec::frame::*;
///
/// let overhead = [5; OVERHEAD_BYTES];
/// let payload = [9; 7_172];
/// let mut line = [0; FRAME_BYTES];
/// frame(47, &payload, &overhead, &mut line)?;
///
/// line[2 * 10] = 6; // the last training cell
/// line[2 * 64 + 1] = 4; // a pilot
/// line[2 * 65] = 8; // a payload cell
///
/// let mut received = [0; 7_172];
/// assert_eq!(unframe(47, &line, &overhead, &mut received)?, 2);
/// let wrong: Vec<usize> = (0..received.len()).filter(|&i| received[i] != 9).collect();
/// assert_eq!(wrong, [2 * (65 - 11 - 2)]); // 11 training cells and pilots 32 and 64 before it
/// # Ok::<(), ofec::Refusal>(())
/// ```
pub fn unframe(
    number: u32,
    frame: &[u8],
    overhead: &[u8],
    payload: &mut [u8],
) -> Result<u32, Refusal> {
    extract(Profile::Qam16, number, frame, overhead, payload)
}

/// As [`unframe`], with payload cells of QPSK. Each byte of `frame` is legal by the rule of its own
/// cell: below 16 in an overhead cell, and 5, 6, 9 or 10 in a payload cell.
///
/// ```
/// use ofec::Refusal;
/// use ofec::frame::*;
///
/// let overhead = [5; OVERHEAD_BYTES];
/// let mut line = [5; FRAME_BYTES];
/// line[2 * 10] = 0; // the last training cell
///
/// let mut received = [0; 7_172];
/// assert_eq!(unframe_qpsk(47, &line, &overhead, &mut received)?, 1);
/// assert_eq!(received, [5; 7_172]);
///
/// line[2 * 11] = 0; // the first payload cell
/// let refused = unframe_qpsk(47, &line, &overhead, &mut received);
/// assert_eq!(refused, Err(Refusal::OffGrid { index: 22 }));
/// # Ok::<(), ofec::Refusal>(())
/// ```
pub fn unframe_qpsk(
    number: u32,
    frame: &[u8],
    overhead: &[u8],
    payload: &mut [u8],
) -> Result<u32, Refusal> {
    extract(Profile::Qpsk, number, frame, overhead, payload)
}

/// Unframes by a profile.
pub(crate) fn extract(
    profile: Profile,
    number: u32,
    frame: &[u8],
    overhead: &[u8],
    payload: &mut [u8],
) -> Result<u32, Refusal> {
    let call = match profile {
        Profile::Qam16 => capi::unframe,
        Profile::Qpsk => capi::unframe_qpsk,
    };
    let answer = call(number, frame, overhead, payload).done()?;
    Ok(answer.value)
}
