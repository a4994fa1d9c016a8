//! Cells by arithmetic, the same for every symbol and with no table, so that the compiler makes vectors of it.

use ofec_tests::outcome::{Outcome, MISFIT};
use ofec_tests::profile::Profile;

/// The cell of a symbol, X in the lower half and Y in the upper: of each bit pair (a, b) the number 2a + (a ^ b).
#[inline(always)]
fn cell(symbol: u8) -> u16 {
    let v = u16::from(symbol);
    let v = v ^ v >> 2 & 0x33;
    let v = v >> 1 & 0x55 | v << 8 & 0x5500;
    let v = (v | v >> 1) & 0x3333;
    (v | v >> 2) & 0x0F0F
}

/// The symbol of a cell, in the lower half.
#[inline(always)]
fn symbol(cell: u16) -> u16 {
    let v = (cell | cell << 2) & 0x3333;
    let v = (v | v << 1) & 0x5555;
    let v = v << 1 | v >> 8;
    v ^ v >> 2 & 0x33
}

/// The cells of the two QPSK symbols of a byte: 5 + 4I + Q of each pair of bits (I, Q), which stand two apart.
#[inline(always)]
fn two_cells(byte: u8) -> [u8; 4] {
    [
        (byte >> 5 & 5) + 5,
        (byte >> 4 & 5) + 5,
        (byte >> 1 & 5) + 5,
        (byte & 5) + 5,
    ]
}

/// The byte of two QPSK cells, in the lowest byte.
#[inline(always)]
fn two_symbols(cells: u32) -> u32 {
    let v = cells.wrapping_sub(0x0505_0505);
    v << 5 | v >> 4 | v >> 15 | v >> 24
}

/// What is wrong with a payload cell's byte: 0 where it is legal.
#[inline(always)]
pub fn flaw(profile: Profile, byte: u8) -> u8 {
    match profile {
        Profile::Qam16 => byte & 0xF0,
        Profile::Qpsk => byte.wrapping_sub(5) & !5,
    }
}

/// Whether any byte has a flaw.
#[inline(always)]
pub fn any_flaw(profile: Profile, cells: &[u8]) -> bool {
    match profile {
        Profile::Qam16 => cells.iter().fold(0, |all, byte| all | byte) >= 16,
        Profile::Qpsk => cells.iter().fold(0, |all, &byte| all | flaw(profile, byte)) != 0,
    }
}

/// The index of the first byte with a flaw, searched only where there is one.
#[inline(always)]
pub fn first_illegal(profile: Profile, cells: &[u8]) -> Option<usize> {
    if !any_flaw(profile, cells) {
        return None;
    }
    cells.iter().position(|&byte| flaw(profile, byte) != 0)
}

#[inline(never)]
pub fn bits_to_cells(profile: Profile, bits: &[u8], cells: &mut [u8]) -> Outcome {
    if [bits.len(), cells.len()] != [21504, profile.cells_bytes()] {
        return Outcome::refused(MISFIT);
    }
    match profile {
        Profile::Qam16 => {
            let (cells, _) = cells.as_chunks_mut();
            for (&byte, own) in bits.iter().zip(cells) {
                *own = cell(byte).to_le_bytes();
            }
        }
        Profile::Qpsk => {
            let (cells, _) = cells.as_chunks_mut();
            for (&byte, own) in bits.iter().zip(cells) {
                *own = two_cells(byte);
            }
        }
    }
    Outcome::accepted(0)
}

#[inline(never)]
pub fn cells_to_bits(profile: Profile, cells: &[u8], bits: &mut [u8]) -> Outcome {
    if [cells.len(), bits.len()] != [profile.cells_bytes(), 21504] {
        return Outcome::refused(MISFIT);
    }
    if let Some(index) = first_illegal(profile, cells) {
        return Outcome::off_grid(index);
    }
    match profile {
        Profile::Qam16 => {
            let (cells, _) = cells.as_chunks();
            for (own, byte) in cells.iter().zip(bits) {
                *byte = symbol(u16::from_le_bytes(*own)) as u8;
            }
        }
        Profile::Qpsk => {
            let (cells, _) = cells.as_chunks();
            for (own, byte) in cells.iter().zip(bits) {
                *byte = two_symbols(u32::from_le_bytes(*own)) as u8;
            }
        }
    }
    Outcome::accepted(0)
}
