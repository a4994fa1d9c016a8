//! crates/word: the mark of a repair.

use super::locating_core::Repair;

pub fn mark_of(r: Repair) -> u8 {
    match r {
        Repair::Sound => 0,
        Repair::One(_) => 1,
        Repair::Two(_, _) => 2,
        Repair::Lost => 3,
    }
}
