//! crates/history_core: the front of a history.

use super::numbers::{number, put_numbers};

pub fn stray(history: &[u8; 5128], encoder: u32, pair: u32) -> bool {
    if number(history, 0) != encoder as usize {
        return true;
    }
    if number(history, 1) != pair as usize {
        return true;
    }
    1 < encoder
}

pub fn put(encoder: u32, pair: u32, front: &mut [u8]) {
    let numbers = [encoder, pair];
    put_numbers(&numbers, front);
}
