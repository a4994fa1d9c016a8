//! The C interface (`include/ofec.h`), call by call. Each function makes one call on the slices that
//! it is given, of whatever lengths, and returns the numbers of the answer as they are. The safe
//! types of the crate are built on this module, which has the crate's only unsafe code. What the
//! interface asks of its callers holds for slices: their lengths are true, and a slice that is
//! written overlaps no other.
//!
//! ```
//! use ofec::capi::{Outcome, repair_word};
//!
//! let mut word = [0; 32];
//! word[31] = 1; // bit 255 of the zero word
//! let done = Outcome { refusal: 0, value: 1, index: 0 };
//! assert_eq!(repair_word(&mut word, 0), done); // one flip
//! assert_eq!(word, [0; 32]);
//!
//! let misfit = Outcome { refusal: 1, value: 0, index: 0 };
//! assert_eq!(repair_word(&mut word[1..], 0), misfit);
//! ```
#![allow(unsafe_code)]

/// `ofec_outcome`: what a call answers.
#[repr(C)]
#[derive(Debug, Clone, Copy, PartialEq, Eq)]
pub struct Outcome {
    /// The number of the refusal, 1 to 6, or 0 if the call was done.
    pub refusal: u32,
    /// The call's own number; 0 if it has none, and 0 in a refusal unless the call says otherwise.
    pub value: u32,
    /// In refusal 5, the index of the first illegal byte in its buffer; [`frame`](frame()),
    /// [`unframe`] and their QPSK twins look at the overhead list first. Otherwise 0, except in
    /// [`read_line`].
    pub index: u64,
}

/// `ofec_line`: what opening a line file answers.
#[repr(C)]
#[derive(Debug, Clone, Copy, PartialEq, Eq)]
pub struct Line {
    /// The number of the refusal, 1 or 2, or 0 if the file is open.
    pub refusal: u32,
    /// The number of super-frames; 0 in a refusal, like the other two.
    pub superframes: u32,
    /// Where the overhead list starts.
    pub overhead: u32,
    /// Where the frames start.
    pub frames: u32,
}

unsafe extern "C" {
    fn ofec_repair_word(word: *mut u8, word_length: usize, front: u32) -> Outcome;
    fn ofec_encode_pair(
        payload: *const u8,
        payload_length: usize,
        coded: *mut u8,
        coded_length: usize,
        history: *mut u8,
        history_length: usize,
        encoder: u32,
        pair: u32,
    ) -> Outcome;
    fn ofec_receive_pair(
        coded: *const u8,
        coded_length: usize,
        payload: *mut u8,
        payload_length: usize,
        marks: *mut u8,
        marks_length: usize,
        history: *mut u8,
        history_length: usize,
        encoder: u32,
        pair: u32,
    ) -> Outcome;
    fn ofec_interleave(
        pairs0: *const u8,
        pairs0_length: usize,
        pairs1: *const u8,
        pairs1_length: usize,
        bits: *mut u8,
        bits_length: usize,
    ) -> Outcome;
    fn ofec_deinterleave(
        bits: *const u8,
        bits_length: usize,
        pairs0: *mut u8,
        pairs0_length: usize,
        pairs1: *mut u8,
        pairs1_length: usize,
    ) -> Outcome;
    fn ofec_bits_to_cells(
        bits: *const u8,
        bits_length: usize,
        cells: *mut u8,
        cells_length: usize,
    ) -> Outcome;
    fn ofec_cells_to_bits(
        cells: *const u8,
        cells_length: usize,
        bits: *mut u8,
        bits_length: usize,
    ) -> Outcome;
    fn ofec_frame(
        number: u32,
        payload: *const u8,
        payload_length: usize,
        overhead: *const u8,
        overhead_length: usize,
        frame: *mut u8,
        frame_length: usize,
    ) -> Outcome;
    fn ofec_unframe(
        number: u32,
        frame: *const u8,
        frame_length: usize,
        overhead: *const u8,
        overhead_length: usize,
        payload: *mut u8,
        payload_length: usize,
    ) -> Outcome;
    fn ofec_bits_to_cells_qpsk(
        bits: *const u8,
        bits_length: usize,
        cells: *mut u8,
        cells_length: usize,
    ) -> Outcome;
    fn ofec_cells_to_bits_qpsk(
        cells: *const u8,
        cells_length: usize,
        bits: *mut u8,
        bits_length: usize,
    ) -> Outcome;
    fn ofec_frame_qpsk(
        number: u32,
        payload: *const u8,
        payload_length: usize,
        overhead: *const u8,
        overhead_length: usize,
        frame: *mut u8,
        frame_length: usize,
    ) -> Outcome;
    fn ofec_unframe_qpsk(
        number: u32,
        frame: *const u8,
        frame_length: usize,
        overhead: *const u8,
        overhead_length: usize,
        payload: *mut u8,
        payload_length: usize,
    ) -> Outcome;
    fn ofec_open_line(file: *const u8, file_length: usize) -> Line;
    fn ofec_read_line(
        file: *const u8,
        file_length: usize,
        superframes: u32,
        overhead: u32,
        frames: u32,
        superframe: u32,
        subframe: u32,
    ) -> Outcome;
    fn ofec_write_header(superframes: u32, header: *mut u8, header_length: usize) -> Outcome;
}

// SAFETY, of every call below: each pointer and length are those of one slice, borrowed for the call.

/// Repairs a check word of 32 bytes in place; if `front` is 0, flips may fall in the back half only.
///
/// Value: the number of flips, 0 to 2, or 3 for a lost word.
#[inline]
pub fn repair_word(word: &mut [u8], front: u32) -> Outcome {
    unsafe { ofec_repair_word(word.as_mut_ptr(), word.len(), front) }
}

/// Encodes a pair: `payload` of 444 bytes to `coded` of 512, with a `history` of 5,128, which is
/// moved on. The numbers of encoder and pair must be those in front of the history.
///
/// Value: the next pair number; in a refusal, the number that was passed.
#[inline]
pub fn encode_pair(
    payload: &[u8],
    coded: &mut [u8],
    history: &mut [u8],
    encoder: u32,
    pair: u32,
) -> Outcome {
    unsafe {
        ofec_encode_pair(
            payload.as_ptr(),
            payload.len(),
            coded.as_mut_ptr(),
            coded.len(),
            history.as_mut_ptr(),
            history.len(),
            encoder,
            pair,
        )
    }
}

/// Receives a pair: `coded` of 512 bytes to `payload` of 444 and `marks` of 32, with a `history` of
/// 5,128, which is moved on. The numbers of encoder and pair must be those in front of the history.
///
/// Value: the next pair number; in a refusal, the number that was passed.
#[inline]
pub fn receive_pair(
    coded: &[u8],
    payload: &mut [u8],
    marks: &mut [u8],
    history: &mut [u8],
    encoder: u32,
    pair: u32,
) -> Outcome {
    unsafe {
        ofec_receive_pair(
            coded.as_ptr(),
            coded.len(),
            payload.as_mut_ptr(),
            payload.len(),
            marks.as_mut_ptr(),
            marks.len(),
            history.as_mut_ptr(),
            history.len(),
            encoder,
            pair,
        )
    }
}

/// Interleaves the 21 pairs of two encoders, 10,752 bytes each, to `bits` of 21,504.
#[inline]
pub fn interleave(pairs0: &[u8], pairs1: &[u8], bits: &mut [u8]) -> Outcome {
    unsafe {
        ofec_interleave(
            pairs0.as_ptr(),
            pairs0.len(),
            pairs1.as_ptr(),
            pairs1.len(),
            bits.as_mut_ptr(),
            bits.len(),
        )
    }
}

/// Takes `bits` of 21,504 bytes apart into the pairs of two encoders, 10,752 bytes each.
#[inline]
pub fn deinterleave(bits: &[u8], pairs0: &mut [u8], pairs1: &mut [u8]) -> Outcome {
    unsafe {
        ofec_deinterleave(
            bits.as_ptr(),
            bits.len(),
            pairs0.as_mut_ptr(),
            pairs0.len(),
            pairs1.as_mut_ptr(),
            pairs1.len(),
        )
    }
}

/// Maps `bits` of 21,504 bytes to `cells` of 43,008.
#[inline]
pub fn bits_to_cells(bits: &[u8], cells: &mut [u8]) -> Outcome {
    unsafe { ofec_bits_to_cells(bits.as_ptr(), bits.len(), cells.as_mut_ptr(), cells.len()) }
}

/// Maps `cells` of 43,008 bytes to `bits` of 21,504.
#[inline]
pub fn cells_to_bits(cells: &[u8], bits: &mut [u8]) -> Outcome {
    unsafe { ofec_cells_to_bits(cells.as_ptr(), cells.len(), bits.as_mut_ptr(), bits.len()) }
}

/// Frames sub-frame `number`, 0 to 47: `payload` of 6,980 bytes (number 0) or 7,172, and its part of
/// the `overhead` list of 12,288, to `frame` of 7,424. Above 47 the payload is not measured.
#[inline]
pub fn frame(number: u32, payload: &[u8], overhead: &[u8], frame: &mut [u8]) -> Outcome {
    unsafe {
        ofec_frame(
            number,
            payload.as_ptr(),
            payload.len(),
            overhead.as_ptr(),
            overhead.len(),
            frame.as_mut_ptr(),
            frame.len(),
        )
    }
}

/// Unframes sub-frame `number`: the buffers of [`frame`](frame()), but the payload is written.
///
/// Value: the number of overhead cells that differ from the list.
#[inline]
pub fn unframe(number: u32, frame: &[u8], overhead: &[u8], payload: &mut [u8]) -> Outcome {
    unsafe {
        ofec_unframe(
            number,
            frame.as_ptr(),
            frame.len(),
            overhead.as_ptr(),
            overhead.len(),
            payload.as_mut_ptr(),
            payload.len(),
        )
    }
}

/// Maps `bits` of 21,504 bytes to `cells` of 86,016, by the profile QPSK.
#[inline]
pub fn bits_to_cells_qpsk(bits: &[u8], cells: &mut [u8]) -> Outcome {
    unsafe { ofec_bits_to_cells_qpsk(bits.as_ptr(), bits.len(), cells.as_mut_ptr(), cells.len()) }
}

/// Maps `cells` of 86,016 bytes to `bits` of 21,504, by the profile QPSK.
#[inline]
pub fn cells_to_bits_qpsk(cells: &[u8], bits: &mut [u8]) -> Outcome {
    unsafe { ofec_cells_to_bits_qpsk(cells.as_ptr(), cells.len(), bits.as_mut_ptr(), bits.len()) }
}

/// As [`frame`](frame()), with payload cells of the profile QPSK.
#[inline]
pub fn frame_qpsk(number: u32, payload: &[u8], overhead: &[u8], frame: &mut [u8]) -> Outcome {
    unsafe {
        ofec_frame_qpsk(
            number,
            payload.as_ptr(),
            payload.len(),
            overhead.as_ptr(),
            overhead.len(),
            frame.as_mut_ptr(),
            frame.len(),
        )
    }
}

/// As [`unframe`], with payload cells of the profile QPSK.
///
/// Value: the number of overhead cells that differ from the list.
#[inline]
pub fn unframe_qpsk(number: u32, frame: &[u8], overhead: &[u8], payload: &mut [u8]) -> Outcome {
    unsafe {
        ofec_unframe_qpsk(
            number,
            frame.as_ptr(),
            frame.len(),
            overhead.as_ptr(),
            overhead.len(),
            payload.as_mut_ptr(),
            payload.len(),
        )
    }
}

/// Opens a line file, given as a whole.
#[inline]
pub fn open_line(file: &[u8]) -> Line {
    unsafe { ofec_open_line(file.as_ptr(), file.len()) }
}

/// Finds a sub-frame in an open line file. `line` has the file's numbers; its refusal is not looked
/// at.
///
/// Index: where the sub-frame starts. Value: its length, 7,424.
#[inline]
pub fn read_line(file: &[u8], line: Line, superframe: u32, subframe: u32) -> Outcome {
    unsafe {
        ofec_read_line(
            file.as_ptr(),
            file.len(),
            line.superframes,
            line.overhead,
            line.frames,
            superframe,
            subframe,
        )
    }
}

/// Writes the header, 16 bytes, of a line file of 1 to 64 super-frames without gaps.
#[inline]
pub fn write_header(superframes: u32, header: &mut [u8]) -> Outcome {
    unsafe { ofec_write_header(superframes, header.as_mut_ptr(), header.len()) }
}
