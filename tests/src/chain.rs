//! The whole chain from payload to payload: made by the library and by the reference, each on buffers of
//! its own; the line in between; and the claims about whole runs, checked by counting.

pub mod calls;
pub mod claims;
pub mod damage;
pub mod places;
pub mod receiving;
pub mod refused;
pub mod sending;

use crate::frames::{FRAME_BYTES, SUBFRAMES};

/// The frames of a super-frame.
pub const SUPERFRAME_BYTES: usize = SUBFRAMES as usize * FRAME_BYTES;

/// Where two sides differ first.
#[derive(Debug, PartialEq, Eq)]
pub struct Difference {
    pub stage: &'static str,
    pub index: usize,
}

/// The first element of a stage that is not the same on both sides.
fn difference<T: PartialEq>(stage: &'static str, one: &[T], other: &[T]) -> Option<Difference> {
    let common = one.len().min(other.len());
    let index = (0..common)
        .find(|&i| one[i] != other[i])
        .or((one.len() != other.len()).then_some(common))?;
    Some(Difference { stage, index })
}
