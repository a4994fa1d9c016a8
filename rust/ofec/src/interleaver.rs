//! The interleaver: a buffer takes 21 pairs of each of two encoders.

use crate::{Refusal, capi};

/// Bytes of 21 coded pairs of one encoder.
pub const PAIRS_BYTES: usize = 10_752;
/// Bytes of a buffer's bits.
pub const BITS_BYTES: usize = 21_504;

/// Interleaves the pairs of two encoders, [`PAIRS_BYTES`] each, to `bits` of [`BITS_BYTES`].
///
/// Refusals: [`Refusal::Misfit`].
///
/// ```
/// use ofec::interleaver::{BITS_BYTES, PAIRS_BYTES, deinterleave, interleave};
///
/// let mut pairs0 = [0; PAIRS_BYTES];
/// pairs0[21 * 256] = 0x80; // encoder 0, row 21, its first bit
/// let pairs1 = [0xff; PAIRS_BYTES];
/// let mut bits = [0; BITS_BYTES];
/// interleave(&pairs0, &pairs1, &mut bits)?;
/// // Bytes come from subsets 0 to 3 in turn, 0 and 2 of encoder 0; row 21 begins subset 2.
/// assert_eq!(bits[..4], [0x00, 0xff, 0x80, 0xff]);
///
/// let (mut back0, mut back1) = ([1; PAIRS_BYTES], [1; PAIRS_BYTES]);
/// deinterleave(&bits, &mut back0, &mut back1)?;
/// assert_eq!((back0, back1), (pairs0, pairs1));
/// # Ok::<(), ofec::Refusal>(())
/// ```
pub fn interleave(pairs0: &[u8], pairs1: &[u8], bits: &mut [u8]) -> Result<(), Refusal> {
    capi::interleave(pairs0, pairs1, bits).done().map(|_| ())
}

/// Takes a buffer's `bits` apart into the pairs of two encoders: the inverse of [`interleave`].
///
/// Refusals: [`Refusal::Misfit`].
///
/// ```
/// use ofec::interleaver::{BITS_BYTES, PAIRS_BYTES, deinterleave};
///
/// // A wrong bit on the line is a wrong bit of one encoder only.
/// let mut bits = [0; BITS_BYTES];
/// bits[BITS_BYTES - 1] = 1; // output bit 172,031: encoder 1, row 41, block 7, place (0, 15)
/// let (mut pairs0, mut pairs1) = ([0; PAIRS_BYTES], [0; PAIRS_BYTES]);
/// deinterleave(&bits, &mut pairs0, &mut pairs1)?;
/// assert_eq!(pairs0, [0; PAIRS_BYTES]);
/// assert_eq!(pairs1[256 * 41 + 15], 1);
/// # Ok::<(), ofec::Refusal>(())
/// ```
pub fn deinterleave(bits: &[u8], pairs0: &mut [u8], pairs1: &mut [u8]) -> Result<(), Refusal> {
    capi::deinterleave(bits, pairs0, pairs1).done().map(|_| ())
}
