//! The line file: a header, the overhead list, and the frames of 1 to 64 super-frames.

use crate::frame::{OVERHEAD_BYTES, SUPERFRAME_BYTES};
use crate::{Refusal, capi};

/// Bytes of the header.
pub const HEADER_BYTES: usize = 16;

/// Writes the header of a line file of 1 to 64 super-frames without gaps: the overhead list will
/// follow at byte 16 and the frames at byte 12,304.
///
/// Refusals: [`Refusal::Misfit`] if `header` does not have [`HEADER_BYTES`], [`Refusal::BadHeader`]
/// for any other number of super-frames.
///
/// ```
/// use ofec::Refusal;
/// use ofec::line_file::write_header;
///
/// let mut header = [0; 16];
/// write_header(1, &mut header)?;
/// assert_eq!(header, [0, 0, 0, 1, 0, 0, 0, 16, 0, 0, 0x30, 0x10, 0, 5, 0xa0, 0x10]);
/// assert_eq!(write_header(65, &mut header), Err(Refusal::BadHeader));
/// assert_eq!(header[3], 1);
/// # Ok::<(), ofec::Refusal>(())
/// ```
pub fn write_header(superframes: u32, header: &mut [u8]) -> Result<(), Refusal> {
    capi::write_header(superframes, header).done().map(|_| ())
}

/// An open line file: the file's bytes with its header numbers.
///
/// ```
/// use ofec::frame::{FRAME_BYTES, OVERHEAD_BYTES, SUPERFRAME_BYTES};
/// use ofec::line_file::{HEADER_BYTES, write_header};
/// use ofec::{LineFile, Refusal};
///
/// let mut file = vec![0; HEADER_BYTES + OVERHEAD_BYTES + 2 * SUPERFRAME_BYTES];
/// write_header(2, &mut file[..HEADER_BYTES])?;
/// let last = file.len() - 1;
/// file[HEADER_BYTES] = 7; // in the overhead list
/// file[last] = 11; // in the last sub-frame
///
/// let line = LineFile::open(&file)?;
/// assert_eq!(line.superframes(), 2);
/// assert_eq!(line.overhead()[..2], [7, 0]);
/// let stretch = line.subframe(1, 47)?;
/// assert_eq!((stretch.len(), stretch[FRAME_BYTES - 1]), (FRAME_BYTES, 11));
/// assert_eq!(line.superframe(1)?[47 * FRAME_BYTES..], *stretch);
/// assert_eq!(line.subframe(2, 0), Err(Refusal::NoSuchFrame));
/// assert_eq!(line.superframe(2), Err(Refusal::NoSuchFrame));
///
/// assert_eq!(LineFile::open(&file[1..]).unwrap_err(), Refusal::BadHeader);
/// assert_eq!(LineFile::open(&file[..15]).unwrap_err(), Refusal::Misfit);
/// # Ok::<(), ofec::Refusal>(())
/// ```
#[derive(Debug, Clone, Copy)]
pub struct LineFile<'a> {
    bytes: &'a [u8],
    line: capi::Line,
}

impl<'a> LineFile<'a> {
    /// Opens a line file, given as a whole.
    ///
    /// Refusals: [`Refusal::Misfit`] below 16 bytes, [`Refusal::BadHeader`].
    pub fn open(bytes: &'a [u8]) -> Result<Self, Refusal> {
        let line = capi::open_line(bytes).done()?;
        Ok(LineFile { bytes, line })
    }

    /// The number of super-frames, 1 to 64.
    pub fn superframes(&self) -> u32 {
        self.line.superframes
    }

    /// The overhead list, a part of the file.
    pub fn overhead(&self) -> &'a [u8] {
        &self.bytes[self.line.overhead as usize..][..OVERHEAD_BYTES]
    }

    /// A super-frame, a part of the file that is [`SUPERFRAME_BYTES`] long: its sub-frames one after
    /// the other.
    ///
    /// Refusals: [`Refusal::NoSuchFrame`].
    pub fn superframe(&self, superframe: u32) -> Result<&'a [u8], Refusal> {
        let first = capi::read_line(self.bytes, self.line, superframe, 0).done()?;
        Ok(&self.bytes[first.index as usize..][..SUPERFRAME_BYTES])
    }

    /// A sub-frame, a part of the file that is [`FRAME_BYTES`](crate::frame::FRAME_BYTES) long.
    ///
    /// Refusals: [`Refusal::NoSuchFrame`].
    pub fn subframe(&self, superframe: u32, subframe: u32) -> Result<&'a [u8], Refusal> {
        let done = capi::read_line(self.bytes, self.line, superframe, subframe).done()?;
        // The proved reader answers start and length; the slicing by them is plain Rust.
        Ok(&self.bytes[done.index as usize..][..done.value as usize])
    }
}
