//! crates/mapping_qpsk_core: cells of QPSK by arithmetic.

use super::mapping_core::{bit_level, rails};

fn cell_byte(s: u8, h: usize) -> u8 {
    if h == 0 {
        return rails(bit_level(s / 8 % 2), bit_level(s / 2 % 2));
    }
    rails(bit_level(s / 4 % 2), bit_level(s % 2))
}

fn half(b: u8, h: usize) -> u8 {
    if h == 0 {
        return b / 16;
    }
    b % 16
}

fn quarter(b: u8, k: usize) -> u8 {
    cell_byte(half(b, k / 2), k % 2)
}

pub fn map(bits: &[u8; 21504], cells: &mut [u8; 86016]) {
    for i in 0..21504 {
        let b = bits[i];
        let upper_x = quarter(b, 0);
        let upper_y = quarter(b, 1);
        let lower_x = quarter(b, 2);
        let lower_y = quarter(b, 3);
        cells[i * 4] = upper_x;
        cells[i * 4 + 1] = upper_y;
        cells[i * 4 + 2] = lower_x;
        cells[i * 4 + 3] = lower_y;
    }
}

fn symbol_of(x: u8, y: u8) -> u8 {
    x / 8 * 8 + y / 8 * 4 + x % 4 / 2 * 2 + y % 4 / 2
}

pub fn demap(cells: &[u8; 86016], bits: &mut [u8; 21504]) {
    for i in 0..21504 {
        let upper = symbol_of(cells[i * 4], cells[i * 4 + 1]);
        let lower = symbol_of(cells[i * 4 + 2], cells[i * 4 + 3]);
        // The cells are legal; so the sum is below 256, as the type of the library's has it.
        bits[i] = upper.wrapping_mul(16).wrapping_add(lower);
    }
}
