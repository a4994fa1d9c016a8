//! Whole super-frames, outward and inward: the calls of the other modules for each of its pairs,
//! buffers and sub-frames.
//!
//! ```text
//!  payload 0 -- encode --.                                  .-- receive -- payload 0, marks
//!                         +-- make -- frames -- take_apart --+
//!  payload 1 -- encode --'                                  '-- receive -- payload 1, marks
//! ```
//!
//! Each of the four has a twin for QPSK, as [`make_qpsk`], with the lengths that
//! [`Profile::Qpsk`](Profile) names; the constants here are those of 16-QAM.
//!
//! Everything is tested before the first byte is written, so a refused call leaves every buffer and
//! every history as it was here too. Nothing is allocated; [`take_apart`] has the largest arrays, about
//! 72 kB of stack, and [`take_apart_qpsk`] about 115 kB.
//!
//! ```
//! use ofec::frame::{OVERHEAD_BYTES, SUPERFRAME_BYTES};
//! use ofec::superframe::*;
//! use ofec::{Encoder, Mark, Receiver};
//!
//! let payloads = [vec![0x3c; PAYLOAD_BYTES], vec![0x5a; PAYLOAD_BYTES]];
//! let overhead = [5; OVERHEAD_BYTES];
//!
//! // Outward. An encoder goes on from one super-frame to the next.
//! let mut encoders = [Encoder::new(0), Encoder::new(1)];
//! let mut coded = [vec![0; CODED_BYTES], vec![0; CODED_BYTES]];
//! for i in 0..2 {
//!     encode(&mut encoders[i], &payloads[i], &mut coded[i])?;
//! }
//! let mut frames = vec![0; SUPERFRAME_BYTES];
//! make([&coded[0], &coded[1]], &overhead, &mut frames)?;
//!
//! frames[2] ^= 1; // cell 1 of sub-frame 0 is overhead
//! frames[300_000] ^= 1; // a payload cell, so that one bit is wrong
//!
//! // Inward.
//! let mut receivers = [Receiver::new(0), Receiver::new(1)];
//! let [mut pairs0, mut pairs1] = coded;
//! let differing = take_apart(&frames, &overhead, [&mut pairs0, &mut pairs1])?;
//! assert_eq!(differing, 1);
//! let mut flips = 0;
//! for (i, coded) in [pairs0, pairs1].iter().enumerate() {
//!     let (mut payload, mut marks) = (vec![0; PAYLOAD_BYTES], [Mark::Lost; WORDS]);
//!     receive(&mut receivers[i], coded, &mut payload, &mut marks)?;
//!     assert_eq!(payload, payloads[i]);
//!     flips += marks.iter().filter_map(|mark| mark.flips()).sum::<u32>();
//! }
//! assert_eq!(flips, 1);
//! # Ok::<(), ofec::Refusal>(())
//! ```

use crate::Profile::{self, Qam16, Qpsk};
use crate::cells;
use crate::frame::{self, FRAME_BYTES, OVERHEAD_BYTES, SUPERFRAME_BYTES, payload_bytes};
use crate::interleaver::{self, BITS_BYTES, PAIRS_BYTES};
use crate::{Encoder, History, Mark, Receiver, Refusal, pair};

/// Buffers of a super-frame.
pub const BUFFERS: usize = Qam16.buffers();
/// Pairs of each encoder in a super-frame.
pub const PAIRS: usize = Qam16.pairs();
/// Bytes of the payload of one encoder.
pub const PAYLOAD_BYTES: usize = Qam16.payload_bytes();
/// Bytes of the coded pairs of one encoder.
pub const CODED_BYTES: usize = Qam16.coded_bytes();
/// Words of one encoder, each with its mark.
pub const WORDS: usize = Qam16.words();

/// The most payload that a sub-frame has.
const FRAME_PAYLOAD_BYTES: usize = 7_172;

/// Refuses unless this holds of the lengths.
fn fit(holds: bool) -> Result<(), Refusal> {
    holds.then_some(()).ok_or(Refusal::Misfit)
}

/// Refuses a history that is not the one of this encoder, 0 or 1.
fn own(encoder: u32, history: &History) -> Result<(), Refusal> {
    (encoder <= 1 && history.encoder() == encoder)
        .then_some(())
        .ok_or(Refusal::StrayHistory)
}

/// Refuses if fewer pair numbers are left than a super-frame takes.
fn count_left(profile: Profile, history: &History) -> Result<(), Refusal> {
    let left = u32::MAX - history.next_pair();
    (left as usize >= profile.pairs())
        .then_some(())
        .ok_or(Refusal::CountSpent)
}

/// Refuses the first illegal byte of the overhead list.
fn legal_overhead(overhead: &[u8]) -> Result<(), Refusal> {
    let illegal = overhead.iter().position(|&byte| byte >= 16);
    illegal.map_or(Ok(()), |index| Err(Refusal::OffGrid { index }))
}

/// Refuses the first illegal byte of the frames, given a legal overhead list.
fn legal_frames(profile: Profile, frames: &[u8], overhead: &[u8]) -> Result<(), Refusal> {
    let mut payload = [0; FRAME_PAYLOAD_BYTES];
    for (number, frame) in (0..).zip(frames.chunks_exact(FRAME_BYTES)) {
        let payload = &mut payload[..payload_bytes(number).unwrap_or(0)];
        frame::extract(profile, number, frame, overhead, payload).map_err(|refused| {
            let before = number as usize * FRAME_BYTES;
            match refused {
                Refusal::OffGrid { index } => Refusal::OffGrid {
                    index: before + index,
                },
                other => other,
            }
        })?;
    }
    Ok(())
}

/// Encodes the next [`PAIRS`] pairs of an encoder: `payload` of [`PAYLOAD_BYTES`] to `coded` of
/// [`CODED_BYTES`].
///
/// Refusals: [`Refusal::Misfit`], [`Refusal::StrayHistory`], [`Refusal::CountSpent`] if fewer pair
/// numbers are left.
pub fn encode(encoder: &mut Encoder, payload: &[u8], coded: &mut [u8]) -> Result<(), Refusal> {
    encode_by(Qam16, encoder, payload, coded)
}

/// As [`encode`], of a super-frame of QPSK: 84 pairs, `payload` of 37,296 bytes and `coded` of 43,008.
/// [`receive_qpsk`] has an example.
pub fn encode_qpsk(encoder: &mut Encoder, payload: &[u8], coded: &mut [u8]) -> Result<(), Refusal> {
    encode_by(Qpsk, encoder, payload, coded)
}

fn encode_by(
    profile: Profile,
    encoder: &mut Encoder,
    payload: &[u8],
    coded: &mut [u8],
) -> Result<(), Refusal> {
    fit(payload.len() == profile.payload_bytes() && coded.len() == profile.coded_bytes())?;
    own(encoder.number(), encoder.history())?;
    count_left(profile, encoder.history())?;
    let places = coded.chunks_exact_mut(pair::CODED_BYTES);
    for (payload, place) in payload.chunks_exact(pair::PAYLOAD_BYTES).zip(places) {
        encoder.encode(payload, place)?;
    }
    Ok(())
}

/// Makes the sub-frames of a super-frame, one after the other as in a line file: the `coded` pairs of
/// two encoders, [`CODED_BYTES`] each, and the `overhead` list of [`OVERHEAD_BYTES`] to `frames` of
/// [`SUPERFRAME_BYTES`].
///
/// Refusals: [`Refusal::Misfit`], [`Refusal::OffGrid`] with the index in `overhead`.
///
/// ```
/// use ofec::Refusal;
/// use ofec::frame::{OVERHEAD_BYTES, SUPERFRAME_BYTES};
/// use ofec::superframe::{CODED_BYTES, make};
///
/// let (coded, mut overhead) = (vec![0; CODED_BYTES], [0; OVERHEAD_BYTES]);
/// let mut frames = vec![7; SUPERFRAME_BYTES];
/// overhead[12_000] = 16;
/// let refused = make([&coded, &coded], &overhead, &mut frames);
/// assert_eq!(refused, Err(Refusal::OffGrid { index: 12_000 }));
/// assert!(frames.iter().all(|&byte| byte == 7));
/// ```
pub fn make(coded: [&[u8]; 2], overhead: &[u8], frames: &mut [u8]) -> Result<(), Refusal> {
    make_by(Qam16, coded, overhead, frames)
}

/// As [`make`], of a super-frame of QPSK: the `coded` pairs of each encoder are 43,008 bytes.
///
/// ```
/// use ofec::Profile;
/// use ofec::frame::{OVERHEAD_BYTES, SUPERFRAME_BYTES};
/// use ofec::superframe::{make_qpsk, take_apart_qpsk};
///
/// let coded = vec![0x1b; Profile::Qpsk.coded_bytes()];
/// let (overhead, mut frames) = ([15; OVERHEAD_BYTES], vec![0; SUPERFRAME_BYTES]);
/// make_qpsk([&coded, &coded], &overhead, &mut frames)?;
/// assert!(frames.iter().all(|byte| [5, 6, 9, 10, 15].contains(byte)));
///
/// let (mut back0, mut back1) = (vec![0; coded.len()], vec![0; coded.len()]);
/// assert_eq!(take_apart_qpsk(&frames, &overhead, [&mut back0, &mut back1])?, 0);
/// assert!(back0 == coded && back1 == coded);
/// # Ok::<(), ofec::Refusal>(())
/// ```
pub fn make_qpsk(coded: [&[u8]; 2], overhead: &[u8], frames: &mut [u8]) -> Result<(), Refusal> {
    make_by(Qpsk, coded, overhead, frames)
}

fn make_by(
    profile: Profile,
    coded: [&[u8]; 2],
    overhead: &[u8],
    frames: &mut [u8],
) -> Result<(), Refusal> {
    let mut lengths = coded.iter().map(|pairs| pairs.len());
    fit(lengths.all(|length| length == profile.coded_bytes()))?;
    fit(overhead.len() == OVERHEAD_BYTES && frames.len() == SUPERFRAME_BYTES)?;
    legal_overhead(overhead)?;

    // All payload cells first, at the end of `frames`: they leave as much room before them as there
    // is overhead, so that no sub-frame overtakes the cells that are still to be framed.
    let [pairs0, pairs1] = coded.map(|pairs| pairs.chunks_exact(PAIRS_BYTES));
    let places = frames[OVERHEAD_BYTES..].chunks_exact_mut(profile.cells_bytes());
    let mut bits = [0; BITS_BYTES];
    for ((pairs0, pairs1), place) in pairs0.zip(pairs1).zip(places) {
        interleaver::interleave(pairs0, pairs1, &mut bits)?;
        cells::map(profile, &bits, place)?;
    }

    let (mut from, mut to) = (OVERHEAD_BYTES, 0);
    let mut payload = [0; FRAME_PAYLOAD_BYTES];
    for (number, length) in (0..).map_while(|number| Some((number, payload_bytes(number)?))) {
        payload[..length].copy_from_slice(&frames[from..from + length]);
        let place = &mut frames[to..to + FRAME_BYTES];
        frame::place(profile, number, &payload[..length], overhead, place)?;
        (from, to) = (from + length, to + FRAME_BYTES);
    }
    Ok(())
}

/// Takes the sub-frames of a super-frame apart into the coded pairs of two encoders: the inverse of
/// [`make`], whatever the line did to the cells in between. Returns the number of overhead cells
/// that differ from the list.
///
/// Refusals: [`Refusal::Misfit`], [`Refusal::OffGrid`] with the index in `overhead` if that has 16
/// or more there, otherwise in `frames`.
///
/// ```
/// use ofec::Refusal;
/// use ofec::frame::{OVERHEAD_BYTES, SUPERFRAME_BYTES};
/// use ofec::superframe::{CODED_BYTES, take_apart};
///
/// let (overhead, mut frames) = ([3; OVERHEAD_BYTES], vec![0; SUPERFRAME_BYTES]);
/// let (mut coded0, mut coded1) = (vec![1; CODED_BYTES], vec![1; CODED_BYTES]);
/// let differing = take_apart(&frames, &overhead, [&mut coded0, &mut coded1])?;
/// assert_eq!(differing, 6_144); // all of them
/// assert!(coded0.iter().chain(&coded1).all(|&byte| byte == 0));
///
/// frames[100_000] = 99;
/// let refused = take_apart(&frames, &overhead, [&mut coded0, &mut coded1]);
/// assert_eq!(refused, Err(Refusal::OffGrid { index: 100_000 }));
/// # Ok::<(), ofec::Refusal>(())
/// ```
pub fn take_apart(frames: &[u8], overhead: &[u8], coded: [&mut [u8]; 2]) -> Result<u32, Refusal> {
    let mut buffer = [0; Qam16.cells_bytes()];
    take_apart_by(Qam16, &mut buffer, frames, overhead, coded)
}

/// As [`take_apart`], of a super-frame of QPSK: the inverse of [`make_qpsk`]. A payload cell's byte
/// other than 5, 6, 9 and 10 is [`Refusal::OffGrid`] too.
///
/// ```
/// use ofec::frame::{OVERHEAD_BYTES, SUPERFRAME_BYTES};
/// use ofec::superframe::take_apart_qpsk;
/// use ofec::{Profile, Refusal};
///
/// let (overhead, mut frames) = ([3; OVERHEAD_BYTES], vec![5; SUPERFRAME_BYTES]);
/// let mut coded = [1, 2].map(|left| vec![left; Profile::Qpsk.coded_bytes()]);
/// let [coded0, coded1] = &mut coded;
/// frames[100_000] = 3; // Q of X is 3
/// let refused = take_apart_qpsk(&frames, &overhead, [coded0, coded1]);
/// assert_eq!(refused, Err(Refusal::OffGrid { index: 100_000 }));
/// ```
pub fn take_apart_qpsk(
    frames: &[u8],
    overhead: &[u8],
    coded: [&mut [u8]; 2],
) -> Result<u32, Refusal> {
    let mut buffer = [0; Qpsk.cells_bytes()];
    take_apart_by(Qpsk, &mut buffer, frames, overhead, coded)
}

/// `buffer` is room for the cells of a buffer, [`Profile::cells_bytes`].
fn take_apart_by(
    profile: Profile,
    buffer: &mut [u8],
    frames: &[u8],
    overhead: &[u8],
    coded: [&mut [u8]; 2],
) -> Result<u32, Refusal> {
    fit(frames.len() == SUPERFRAME_BYTES && overhead.len() == OVERHEAD_BYTES)?;
    let mut lengths = coded.iter().map(|pairs| pairs.len());
    fit(lengths.all(|length| length == profile.coded_bytes()))?;
    legal_overhead(overhead)?;
    legal_frames(profile, frames, overhead)?;

    let [pairs0, pairs1] = coded.map(|pairs| pairs.chunks_exact_mut(PAIRS_BYTES));
    let mut places = pairs0.zip(pairs1);
    let mut held = 0;
    let mut payload = [0; FRAME_PAYLOAD_BYTES];
    let mut differing = 0;
    for (number, frame) in (0..).zip(frames.chunks_exact(FRAME_BYTES)) {
        let length = payload_bytes(number).unwrap_or(0);
        differing += frame::extract(profile, number, frame, overhead, &mut payload[..length])?;
        // The last cells of a buffer and the first of the next may be in the same sub-frame.
        let (ends, begins) = payload[..length].split_at(length.min(buffer.len() - held));
        buffer[held..held + ends.len()].copy_from_slice(ends);
        held += ends.len();
        if held == buffer.len() {
            if let Some((place0, place1)) = places.next() {
                take_buffer_apart(profile, buffer, place0, place1)?;
            }
            buffer[..begins.len()].copy_from_slice(begins);
            held = begins.len();
        }
    }
    Ok(differing)
}

fn take_buffer_apart(
    profile: Profile,
    cells: &[u8],
    pairs0: &mut [u8],
    pairs1: &mut [u8],
) -> Result<(), Refusal> {
    let mut bits = [0; BITS_BYTES];
    cells::demap(profile, cells, &mut bits)?;
    interleaver::deinterleave(&bits, pairs0, pairs1)
}

/// Receives the next [`PAIRS`] pairs of a receiver: `coded` of [`CODED_BYTES`] to `payload` of
/// [`PAYLOAD_BYTES`] and the `marks` of [`WORDS`] words, [`pair::WORDS`] for each pair.
///
/// Refusals: [`Refusal::Misfit`], [`Refusal::StrayHistory`], [`Refusal::CountSpent`] if fewer pair
/// numbers are left.
pub fn receive(
    receiver: &mut Receiver,
    coded: &[u8],
    payload: &mut [u8],
    marks: &mut [Mark],
) -> Result<(), Refusal> {
    receive_by(Qam16, receiver, coded, payload, marks)
}

/// As [`receive`], of a super-frame of QPSK: 84 pairs, `coded` of 43,008 bytes, `payload` of 37,296 and
/// the `marks` of 2,688 words.
///
/// ```
/// use ofec::superframe::{encode_qpsk, receive_qpsk};
/// use ofec::{Encoder, Mark, Profile, Receiver};
///
/// let payload = vec![0x3c; Profile::Qpsk.payload_bytes()];
/// let mut coded = vec![0; Profile::Qpsk.coded_bytes()];
/// encode_qpsk(&mut Encoder::new(0), &payload, &mut coded)?;
///
/// coded[0] ^= 0x80; // a bit of word 0
///
/// let mut received = vec![0; Profile::Qpsk.payload_bytes()];
/// let mut marks = [Mark::Lost; Profile::Qpsk.words()];
/// receive_qpsk(&mut Receiver::new(0), &coded, &mut received, &mut marks)?;
/// assert_eq!(received, payload);
/// assert_eq!(marks[0], Mark::OneFlip);
/// assert!(marks[1..].iter().all(|&mark| mark == Mark::Sound));
/// # Ok::<(), ofec::Refusal>(())
/// ```
pub fn receive_qpsk(
    receiver: &mut Receiver,
    coded: &[u8],
    payload: &mut [u8],
    marks: &mut [Mark],
) -> Result<(), Refusal> {
    receive_by(Qpsk, receiver, coded, payload, marks)
}

fn receive_by(
    profile: Profile,
    receiver: &mut Receiver,
    coded: &[u8],
    payload: &mut [u8],
    marks: &mut [Mark],
) -> Result<(), Refusal> {
    fit(coded.len() == profile.coded_bytes())?;
    fit(payload.len() == profile.payload_bytes() && marks.len() == profile.words())?;
    own(receiver.number(), receiver.history())?;
    count_left(profile, receiver.history())?;
    let payloads = payload.chunks_exact_mut(pair::PAYLOAD_BYTES);
    let places = payloads.zip(marks.chunks_exact_mut(pair::WORDS));
    for (coded, (payload, marks)) in coded.chunks_exact(pair::CODED_BYTES).zip(places) {
        marks.copy_from_slice(&receiver.receive(coded, payload)?);
    }
    Ok(())
}
