//! The library's answers in the types of the code written apart, and its calls for a profile.

use crate::capi;

use crate::outcome::{Line, Outcome};
use crate::profile::Profile;

pub fn bits_to_cells(profile: Profile, bits: &[u8], cells: &mut [u8]) -> Outcome {
    let call = match profile {
        Profile::Qam16 => capi::bits_to_cells,
        Profile::Qpsk => capi::bits_to_cells_qpsk,
    };
    call(bits, cells).into()
}

pub fn cells_to_bits(profile: Profile, cells: &[u8], bits: &mut [u8]) -> Outcome {
    let call = match profile {
        Profile::Qam16 => capi::cells_to_bits,
        Profile::Qpsk => capi::cells_to_bits_qpsk,
    };
    call(cells, bits).into()
}

pub fn frame(
    profile: Profile,
    number: u32,
    payload: &[u8],
    overhead: &[u8],
    frame: &mut [u8],
) -> Outcome {
    let call = match profile {
        Profile::Qam16 => capi::frame,
        Profile::Qpsk => capi::frame_qpsk,
    };
    call(number, payload, overhead, frame).into()
}

pub fn unframe(
    profile: Profile,
    number: u32,
    frame: &[u8],
    overhead: &[u8],
    payload: &mut [u8],
) -> Outcome {
    let call = match profile {
        Profile::Qam16 => capi::unframe,
        Profile::Qpsk => capi::unframe_qpsk,
    };
    call(number, frame, overhead, payload).into()
}

impl From<capi::Outcome> for Outcome {
    fn from(answer: capi::Outcome) -> Self {
        Outcome {
            refusal: answer.refusal,
            value: answer.value,
            index: answer.index,
        }
    }
}

impl From<capi::Line> for Line {
    fn from(answer: capi::Line) -> Self {
        Line {
            refusal: answer.refusal,
            superframes: answer.superframes,
            overhead: answer.overhead,
            frames: answer.frames,
        }
    }
}

impl From<Line> for capi::Line {
    fn from(line: Line) -> Self {
        capi::Line {
            refusal: line.refusal,
            superframes: line.superframes,
            overhead: line.overhead,
            frames: line.frames,
        }
    }
}
