//! The functions that there are for each profile.

use ofec::{Encoder, Mark, Profile, Receiver, Refusal, cells, frame, superframe};

type Done = Result<(), Refusal>;
/// Cells to bits, or bits to cells.
type Mapping = fn(&[u8], &mut [u8]) -> Done;
/// Framing, or with the number of differing cells unframing.
type Framing<T> = fn(u32, &[u8], &[u8], &mut [u8]) -> Result<T, Refusal>;
type Make = fn([&[u8]; 2], &[u8], &mut [u8]) -> Done;
type TakeApart = fn(&[u8], &[u8], [&mut [u8]; 2]) -> Result<u32, Refusal>;

/// Those of one profile.
#[derive(Clone, Copy)]
pub struct Calls {
    pub profile: Profile,
    pub bits_to_cells: Mapping,
    pub cells_to_bits: Mapping,
    pub frame: Framing<()>,
    pub unframe: Framing<u32>,
    pub encode: fn(&mut Encoder, &[u8], &mut [u8]) -> Done,
    pub make: Make,
    pub take_apart: TakeApart,
    pub receive: fn(&mut Receiver, &[u8], &mut [u8], &mut [Mark]) -> Done,
}

pub const BOTH: [Calls; 2] = [
    Calls {
        profile: Profile::Qam16,
        bits_to_cells: cells::bits_to_cells,
        cells_to_bits: cells::cells_to_bits,
        frame: frame::frame,
        unframe: frame::unframe,
        encode: superframe::encode,
        make: superframe::make,
        take_apart: superframe::take_apart,
        receive: superframe::receive,
    },
    Calls {
        profile: Profile::Qpsk,
        bits_to_cells: cells::bits_to_cells_qpsk,
        cells_to_bits: cells::cells_to_bits_qpsk,
        frame: frame::frame_qpsk,
        unframe: frame::unframe_qpsk,
        encode: superframe::encode_qpsk,
        make: superframe::make_qpsk,
        take_apart: superframe::take_apart_qpsk,
        receive: superframe::receive_qpsk,
    },
];
