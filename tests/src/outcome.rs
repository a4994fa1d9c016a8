//! What a call answers, and the numbers of the refusals.

/// Refusal 1: a lent buffer is not of the stated length.
pub const MISFIT: u32 = 1;
/// Refusal 2: a header rule fails.
pub const BAD_HEADER: u32 = 2;
/// Refusal 3: pair number 4,294,967,295.
pub const COUNT_SPENT: u32 = 3;
/// Refusal 4: sub-frame above 47, or super-frame not below n.
pub const NO_SUCH_FRAME: u32 = 4;
/// Refusal 5: an illegal byte in cells that the call reads.
pub const OFF_GRID: u32 = 5;
/// Refusal 6: a number in front of the history is not the call's, or the encoder is above 1.
pub const STRAY_HISTORY: u32 = 6;

/// As `ofec_outcome`.
#[derive(Debug, PartialEq, Eq, Clone, Copy)]
pub struct Outcome {
    /// Number of the refusal, or 0.
    pub refusal: u32,
    pub value: u32,
    pub index: u64,
}

impl Outcome {
    pub fn accepted(value: u32) -> Self {
        Outcome {
            refusal: 0,
            value,
            index: 0,
        }
    }

    pub fn refused(refusal: u32) -> Self {
        Outcome {
            refusal,
            value: 0,
            index: 0,
        }
    }

    /// A refused pair: the value is the pair number as lent.
    pub fn refused_pair(refusal: u32, pair: u32) -> Self {
        Outcome {
            refusal,
            value: pair,
            index: 0,
        }
    }

    /// Refusal 5, with the index of the illegal byte in its buffer.
    pub fn off_grid(index: usize) -> Self {
        Outcome {
            refusal: OFF_GRID,
            value: 0,
            index: index as u64,
        }
    }
}

/// As `ofec_line`: an open line file's header numbers, all zero where it is refused.
#[derive(Debug, PartialEq, Eq, Clone, Copy)]
pub struct Line {
    /// Number of the refusal, or 0.
    pub refusal: u32,
    pub superframes: u32,
    pub overhead: u32,
    pub frames: u32,
}

impl Line {
    pub fn refused(refusal: u32) -> Self {
        Line {
            refusal,
            superframes: 0,
            overhead: 0,
            frames: 0,
        }
    }
}
