//! Cells: a byte of bits is one symbol in 16-QAM and two in QPSK, upper half first, and a symbol is a
//! cell of two bytes, X and Y. Each is a point of the 16-QAM grid: 4 times the number of its I level
//! plus the number of its Q level, where the levels -3, -1, 1 and 3 have numbers 0 to 3. A byte of 16
//! or more is illegal. QPSK has levels -1 and 1 alone: a payload cell's byte is 5, 6, 9 or 10, and any
//! other is illegal.

use crate::{Profile, Refusal, capi};

pub use crate::interleaver::BITS_BYTES;

/// Bytes of a buffer's cells in 16-QAM. QPSK has twice as many: [`Profile::cells_bytes`].
pub const CELLS_BYTES: usize = Profile::Qam16.cells_bytes();

/// Maps bits to cells by a profile.
pub(crate) fn map(profile: Profile, bits: &[u8], cells: &mut [u8]) -> Result<(), Refusal> {
    let call = match profile {
        Profile::Qam16 => capi::bits_to_cells,
        Profile::Qpsk => capi::bits_to_cells_qpsk,
    };
    call(bits, cells).done().map(|_| ())
}

/// Maps cells to bits by a profile.
pub(crate) fn demap(profile: Profile, cells: &[u8], bits: &mut [u8]) -> Result<(), Refusal> {
    let call = match profile {
        Profile::Qam16 => capi::cells_to_bits,
        Profile::Qpsk => capi::cells_to_bits_qpsk,
    };
    call(cells, bits).done().map(|_| ())
}

/// Maps a buffer's `bits`, [`BITS_BYTES`], to `cells` of [`CELLS_BYTES`].
///
/// Refusals: [`Refusal::Misfit`].
///
/// ```
/// use ofec::cells::{BITS_BYTES, CELLS_BYTES, bits_to_cells};
///
/// let mut bits = [0; BITS_BYTES];
/// bits[..4].copy_from_slice(&[255, 128, 8, 1]);
/// let mut cells = [0; CELLS_BYTES];
/// bits_to_cells(&bits, &mut cells)?;
/// assert_eq!(cells[..8], [10, 10, 12, 0, 3, 0, 0, 1]);
/// # Ok::<(), ofec::Refusal>(())
/// ```
pub fn bits_to_cells(bits: &[u8], cells: &mut [u8]) -> Result<(), Refusal> {
    map(Profile::Qam16, bits, cells)
}

/// Maps a buffer's `bits`, [`BITS_BYTES`], to QPSK `cells`, 86,016 bytes ([`Profile::cells_bytes`]).
///
/// Refusals: [`Refusal::Misfit`].
///
/// ```
/// use ofec::Profile;
/// use ofec::cells::{BITS_BYTES, bits_to_cells_qpsk};
///
/// let mut bits = [0; BITS_BYTES];
/// bits[0] = 0x1b; // the symbols 0001 and 1011
/// let mut cells = [0; Profile::Qpsk.cells_bytes()];
/// bits_to_cells_qpsk(&bits, &mut cells)?;
/// assert_eq!(cells[..6], [5, 6, 10, 6, 5, 5]);
/// # Ok::<(), ofec::Refusal>(())
/// ```
pub fn bits_to_cells_qpsk(bits: &[u8], cells: &mut [u8]) -> Result<(), Refusal> {
    map(Profile::Qpsk, bits, cells)
}

/// Maps a buffer's `cells` to its `bits`: the inverse of [`bits_to_cells`].
///
/// Refusals: [`Refusal::Misfit`], [`Refusal::OffGrid`] with the index in `cells`.
///
/// ```
/// use ofec::Refusal;
/// use ofec::cells::{BITS_BYTES, CELLS_BYTES, cells_to_bits};
///
/// let mut cells = [0; CELLS_BYTES];
/// cells[..8].copy_from_slice(&[10, 10, 12, 0, 3, 0, 0, 1]);
/// let mut bits = [0; BITS_BYTES];
/// cells_to_bits(&cells, &mut bits)?;
/// assert_eq!(bits[..4], [255, 128, 8, 1]);
///
/// cells[7] = 200;
/// assert_eq!(cells_to_bits(&cells, &mut bits), Err(Refusal::OffGrid { index: 7 }));
/// # Ok::<(), ofec::Refusal>(())
/// ```
pub fn cells_to_bits(cells: &[u8], bits: &mut [u8]) -> Result<(), Refusal> {
    demap(Profile::Qam16, cells, bits)
}

/// Maps a buffer's QPSK `cells` to its `bits`: the inverse of [`bits_to_cells_qpsk`].
///
/// Refusals: [`Refusal::Misfit`], [`Refusal::OffGrid`] with the index in `cells`.
///
/// ```
/// use ofec::cells::{BITS_BYTES, cells_to_bits_qpsk};
/// use ofec::{Profile, Refusal};
///
/// let mut cells = [5; Profile::Qpsk.cells_bytes()];
/// cells[..4].copy_from_slice(&[5, 6, 10, 6]);
/// let mut bits = [0xff; BITS_BYTES];
/// cells_to_bits_qpsk(&cells, &mut bits)?;
/// assert_eq!(bits[..2], [0x1b, 0x00]);
///
/// cells[3] = 7; // Q of Y is 3
/// let refused = cells_to_bits_qpsk(&cells, &mut bits);
/// assert_eq!(refused, Err(Refusal::OffGrid { index: 3 }));
/// # Ok::<(), ofec::Refusal>(())
/// ```
pub fn cells_to_bits_qpsk(cells: &[u8], bits: &mut [u8]) -> Result<(), Refusal> {
    demap(Profile::Qpsk, cells, bits)
}
