//! The profile of a line: 16-QAM or QPSK. It says how many bits make a symbol, which is one cell, and
//! so how many buffers fill a super-frame. Encoders, receivers, the interleaver and the line file are
//! the same in both.

use crate::interleaver::BITS_BYTES;
use crate::pair;

/// Payload cells of a super-frame, which are as many as a buffer has bits.
const PAYLOAD_CELLS: usize = 8 * BITS_BYTES;

/// What a payload cell carries. Functions with `_qpsk` in their names are for [`Profile::Qpsk`], and
/// their twins without it for [`Profile::Qam16`].
///
/// ```
/// use ofec::{Profile, cells, superframe};
///
/// let both = [Profile::Qam16, Profile::Qpsk];
/// assert_eq!(both.map(Profile::symbol_bits), [8, 4]);
/// assert_eq!(both.map(Profile::buffers), [8, 4]);
/// assert_eq!(both.map(Profile::pairs), [168, 84]);
/// assert_eq!(both.map(Profile::cells_bytes), [43_008, 86_016]);
/// assert_eq!(both.map(Profile::payload_bytes), [74_592, 37_296]);
/// assert_eq!(both.map(Profile::coded_bytes), [86_016, 43_008]);
/// assert_eq!(both.map(Profile::words), [5_376, 2_688]);
///
/// // The constants of the modules are those of 16-QAM.
/// assert_eq!(cells::CELLS_BYTES, Profile::Qam16.cells_bytes());
/// assert_eq!(superframe::PAYLOAD_BYTES, Profile::Qam16.payload_bytes());
/// ```
#[derive(Debug, Clone, Copy, PartialEq, Eq, Hash)]
pub enum Profile {
    /// 16-QAM: each of the four levels of a cell is -3, -1, 1 or 3.
    Qam16,
    /// QPSK: each is -1 or 1. Overhead cells may have any level in this profile too.
    Qpsk,
}

impl Profile {
    /// Bits of a symbol.
    pub const fn symbol_bits(self) -> usize {
        match self {
            Profile::Qam16 => 8,
            Profile::Qpsk => 4,
        }
    }

    /// Bytes of a buffer's cells, two for each symbol.
    pub const fn cells_bytes(self) -> usize {
        2 * (8 * BITS_BYTES / self.symbol_bits())
    }

    /// Buffers of a super-frame.
    pub const fn buffers(self) -> usize {
        2 * PAYLOAD_CELLS / self.cells_bytes()
    }

    /// Pairs of each encoder in a super-frame, 21 in each buffer.
    pub const fn pairs(self) -> usize {
        21 * self.buffers()
    }

    /// Bytes of the payload of one encoder in a super-frame.
    pub const fn payload_bytes(self) -> usize {
        self.pairs() * pair::PAYLOAD_BYTES
    }

    /// Bytes of the coded pairs of one encoder in a super-frame.
    pub const fn coded_bytes(self) -> usize {
        self.pairs() * pair::CODED_BYTES
    }

    /// Words of one encoder in a super-frame, each with its mark.
    pub const fn words(self) -> usize {
        self.pairs() * pair::WORDS
    }
}
