//! The entry points of `include/ofec.h`.

use ofec_tests::outcome::{
    BAD_HEADER, COUNT_SPENT, MISFIT, NO_SUCH_FRAME, OFF_GRID, STRAY_HISTORY,
};
use ofec_tests::profile::Profile::{Qam16, Qpsk};

use crate::round::Round;
use crate::{file, line, pairs};

/// The refusal of a call, the same on both sides, or 0; or the call and what differs.
pub type Verdict = Result<u32, String>;

pub struct EntryPoint {
    pub name: &'static str,
    /// The numbers that it can give.
    pub refusals: &'static [u32],
    /// Makes a random call.
    pub call: fn(&mut Round) -> Verdict,
}

const fn entry_point(
    name: &'static str,
    refusals: &'static [u32],
    call: fn(&mut Round) -> Verdict,
) -> EntryPoint {
    EntryPoint {
        name,
        refusals,
        call,
    }
}

pub const ENTRY_POINTS: [EntryPoint; 16] = [
    entry_point("ofec_repair_word", &[MISFIT], pairs::repair_word),
    entry_point(
        "ofec_encode_pair",
        &[MISFIT, STRAY_HISTORY, COUNT_SPENT],
        pairs::encode_pair,
    ),
    entry_point(
        "ofec_receive_pair",
        &[MISFIT, STRAY_HISTORY, COUNT_SPENT],
        pairs::receive_pair,
    ),
    entry_point("ofec_interleave", &[MISFIT], line::interleave),
    entry_point("ofec_deinterleave", &[MISFIT], line::deinterleave),
    entry_point("ofec_bits_to_cells", &[MISFIT], |round| {
        line::bits_to_cells(Qam16, round)
    }),
    entry_point("ofec_cells_to_bits", &[MISFIT, OFF_GRID], |round| {
        line::cells_to_bits(Qam16, round)
    }),
    entry_point("ofec_frame", &[MISFIT, NO_SUCH_FRAME, OFF_GRID], |round| {
        line::frame(Qam16, round)
    }),
    entry_point(
        "ofec_unframe",
        &[MISFIT, NO_SUCH_FRAME, OFF_GRID],
        |round| line::unframe(Qam16, round),
    ),
    entry_point("ofec_bits_to_cells_qpsk", &[MISFIT], |round| {
        line::bits_to_cells(Qpsk, round)
    }),
    entry_point("ofec_cells_to_bits_qpsk", &[MISFIT, OFF_GRID], |round| {
        line::cells_to_bits(Qpsk, round)
    }),
    entry_point(
        "ofec_frame_qpsk",
        &[MISFIT, NO_SUCH_FRAME, OFF_GRID],
        |round| line::frame(Qpsk, round),
    ),
    entry_point(
        "ofec_unframe_qpsk",
        &[MISFIT, NO_SUCH_FRAME, OFF_GRID],
        |round| line::unframe(Qpsk, round),
    ),
    entry_point("ofec_open_line", &[MISFIT, BAD_HEADER], file::open_line),
    entry_point(
        "ofec_read_line",
        &[MISFIT, BAD_HEADER, NO_SUCH_FRAME],
        file::read_line,
    ),
    entry_point(
        "ofec_write_header",
        &[MISFIT, BAD_HEADER],
        file::write_header,
    ),
];
