//! Why a call is refused.

use core::error::Error;
use core::fmt;

use crate::capi::{Line, Outcome};

/// Why a call is refused. If several reasons apply, the first in this order is given.
///
/// ```
/// use ofec::Refusal;
/// use ofec::cells::{BITS_BYTES, CELLS_BYTES, cells_to_bits};
///
/// let mut cells = [0; CELLS_BYTES];
/// cells[1000] = 16; // not a point of the 16-QAM grid
/// let refused = cells_to_bits(&cells, &mut [0; BITS_BYTES]).unwrap_err();
/// assert_eq!(refused, Refusal::OffGrid { index: 1000 });
/// assert_eq!(refused.number(), 5);
/// assert_eq!(refused.to_string(), "refusal 5: off grid at byte 1000");
/// ```
#[derive(Debug, Clone, Copy, PartialEq, Eq, Hash)]
pub enum Refusal {
    /// 1: a buffer does not have the stated length (except the payload of a sub-frame number above
    /// 47, which is not measured), or a file has less than 16 bytes.
    Misfit,
    /// 6: a number in front of the history is not the one that the call names, or the encoder's number
    /// is above 1.
    StrayHistory,
    /// 2: a rule of the line file's header fails.
    BadHeader,
    /// 3: the pair number is 4,294,967,295, the largest.
    CountSpent,
    /// 4: the sub-frame number is above 47, or the file does not have that super-frame.
    NoSuchFrame,
    /// 5: an illegal byte in cells that the call reads, the overhead list first: a byte of 16 or more,
    /// or in a payload cell of QPSK a level of -3 or 3.
    OffGrid {
        /// Where it first occurs in its buffer; [`frame`](crate::frame::frame) says how to tell which
        /// buffer that is.
        index: usize,
    },
}

impl Refusal {
    /// The number, 1 to 6.
    pub fn number(self) -> u32 {
        match self {
            Refusal::Misfit => 1,
            Refusal::StrayHistory => 6,
            Refusal::BadHeader => 2,
            Refusal::CountSpent => 3,
            Refusal::NoSuchFrame => 4,
            Refusal::OffGrid { .. } => 5,
        }
    }

    /// The name.
    pub fn name(self) -> &'static str {
        match self {
            Refusal::Misfit => "misfit",
            Refusal::StrayHistory => "stray history",
            Refusal::BadHeader => "bad header",
            Refusal::CountSpent => "count spent",
            Refusal::NoSuchFrame => "no such frame",
            Refusal::OffGrid { .. } => "off grid",
        }
    }

    /// The refusal with this number, or `None` for 0; `index` is the index of refusal 5.
    pub(crate) fn of(number: u32, index: u64) -> Option<Refusal> {
        match number {
            0 => None,
            1 => Some(Refusal::Misfit),
            2 => Some(Refusal::BadHeader),
            3 => Some(Refusal::CountSpent),
            4 => Some(Refusal::NoSuchFrame),
            5 => Some(Refusal::OffGrid {
                index: index as usize,
            }),
            6 => Some(Refusal::StrayHistory),
            _ => unreachable!("the library has no refusal {number}"),
        }
    }
}

impl Outcome {
    /// The answer of a call that was done, or why it was refused.
    pub(crate) fn done(self) -> Result<Outcome, Refusal> {
        Refusal::of(self.refusal, self.index).map_or(Ok(self), Err)
    }
}

impl Line {
    /// The numbers of an open file, or why it was refused.
    pub(crate) fn done(self) -> Result<Line, Refusal> {
        Refusal::of(self.refusal, 0).map_or(Ok(self), Err)
    }
}

impl fmt::Display for Refusal {
    fn fmt(&self, f: &mut fmt::Formatter<'_>) -> fmt::Result {
        write!(f, "refusal {}: {}", self.number(), self.name())?;
        match self {
            Refusal::OffGrid { index } => write!(f, " at byte {index}"),
            _ => Ok(()),
        }
    }
}

impl Error for Refusal {}
