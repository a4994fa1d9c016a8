//! The line file: header rules over whole numbers, the stretch of a sub-frame, the program's line.

use crate::frames::{FRAME_BYTES, OVERHEAD_BYTES, SUBFRAMES};
use crate::outcome::{Line, Outcome, BAD_HEADER, MISFIT, NO_SUCH_FRAME};

pub const HEADER_BYTES: usize = 16;
pub const SUPERFRAME_BYTES: u64 = 356_352;
pub const MOST_SUPERFRAMES: u32 = 64;

/// The four numbers of a header.
#[derive(Debug, PartialEq, Eq, Clone, Copy)]
pub struct Header {
    pub superframes: u32,
    pub overhead: u32,
    pub frames: u32,
    pub total: u32,
}

impl Header {
    /// The header that a writer makes.
    pub fn written(superframes: u32) -> Self {
        Header::with_sum(superframes, 16, 12_304)
    }

    /// A header whose total is right, cut to 32 bits where the sum does not fit.
    pub fn with_sum(superframes: u32, overhead: u32, frames: u32) -> Self {
        let total = u64::from(frames) + SUPERFRAME_BYTES * u64::from(superframes);
        Header {
            superframes,
            overhead,
            frames,
            total: total as u32,
        }
    }

    pub fn from_bytes(bytes: &[u8; HEADER_BYTES]) -> Self {
        let number = |k: usize| {
            bytes[4 * k..4 * k + 4]
                .iter()
                .fold(0, |sum, &byte| 256 * sum + u32::from(byte))
        };
        Header {
            superframes: number(0),
            overhead: number(1),
            frames: number(2),
            total: number(3),
        }
    }

    pub fn to_bytes(&self) -> [u8; HEADER_BYTES] {
        let numbers = [self.superframes, self.overhead, self.frames, self.total];
        std::array::from_fn(|k| (numbers[k / 4] >> (24 - 8 * (k % 4))) as u8)
    }

    /// Whether every rule holds for a file of this length.
    pub fn holds(&self, file_length: u64) -> bool {
        let superframes = u64::from(self.superframes);
        let (overhead, frames) = (u64::from(self.overhead), u64::from(self.frames));
        (1..=MOST_SUPERFRAMES).contains(&self.superframes)
            && overhead >= 16
            && frames >= overhead + OVERHEAD_BYTES as u64
            && u64::from(self.total) == frames + SUPERFRAME_BYTES * superframes
            && u64::from(self.total) == file_length
    }

    pub fn line(&self) -> Line {
        Line {
            refusal: 0,
            superframes: self.superframes,
            overhead: self.overhead,
            frames: self.frames,
        }
    }
}

/// The header of a file, of which the first bytes and the length are given, or the refusal.
fn judge(start: &[u8], file_length: u64) -> Result<Header, u32> {
    if file_length < HEADER_BYTES as u64 {
        return Err(MISFIT);
    }
    let bytes = start[..HEADER_BYTES].try_into().expect("16 bytes");
    let header = Header::from_bytes(bytes);
    if header.holds(file_length) {
        Ok(header)
    } else {
        Err(BAD_HEADER)
    }
}

/// As `ofec_open_line`.
pub fn open_line(file: &[u8]) -> Line {
    match judge(file, file.len() as u64) {
        Ok(header) => header.line(),
        Err(number) => Line::refused(number),
    }
}

/// As `ofec_read_line`, of the numbers of an open file.
pub fn read_line(file: &[u8], line: Line, superframe: u32, subframe: u32) -> Outcome {
    let header = match judge(file, file.len() as u64) {
        Ok(header) => header,
        Err(number) => return Outcome::refused(number),
    };
    let numbers = [line.superframes, line.overhead, line.frames];
    if numbers != [header.superframes, header.overhead, header.frames] {
        return Outcome::refused(BAD_HEADER);
    }
    if subframe >= SUBFRAMES || superframe >= header.superframes {
        return Outcome::refused(NO_SUCH_FRAME);
    }
    let start = u64::from(header.frames)
        + SUPERFRAME_BYTES * u64::from(superframe)
        + FRAME_BYTES as u64 * u64::from(subframe);
    Outcome {
        refusal: 0,
        value: FRAME_BYTES as u32,
        index: start,
    }
}

/// As `ofec_write_header`.
pub fn write_header(superframes: u32, header: &mut [u8]) -> Outcome {
    if header.len() != HEADER_BYTES {
        return Outcome::refused(MISFIT);
    }
    if superframes == 0 || superframes > MOST_SUPERFRAMES {
        return Outcome::refused(BAD_HEADER);
    }
    header.copy_from_slice(&Header::written(superframes).to_bytes());
    Outcome::accepted(0)
}

/// What `linehead` prints for a file, of which the first bytes and the length are given.
pub fn linehead(start: &[u8], file_length: u64) -> String {
    match judge(start, file_length) {
        Ok(h) => format!(
            "superframes {} overhead {} frames {} total {}\n",
            h.superframes, h.overhead, h.frames, h.total
        ),
        Err(number) => format!("refused {number}\n"),
    }
}
