//! Cells: a symbol gives one cell, two bytes X and Y.

use std::sync::LazyLock;

use crate::bits::unpack;
use crate::interleaver::BUFFER_BYTES;
use crate::outcome::{Outcome, MISFIT};
use crate::profile::{Profile, PROFILES};

/// A byte of a cell is below this number; any other is illegal.
pub const GRID: u8 = 16;

/// The cell of a symbol, X then Y. The symbol is the number that its bits make, c0 the most significant.
pub fn cell(profile: Profile, symbol: u8) -> [u8; 2] {
    let bits = unpack(&[symbol]);
    let c = &bits[8 - profile.symbol_bits()..];
    let (x, y) = match profile {
        Profile::Qam16 => (
            (level_of_two(c[0], c[2]), level_of_two(c[4], c[6])),
            (level_of_two(c[1], c[3]), level_of_two(c[5], c[7])),
        ),
        Profile::Qpsk => (
            (level_of_one(c[0]), level_of_one(c[2])),
            (level_of_one(c[1]), level_of_one(c[3])),
        ),
    };
    [grid(x), grid(y)]
}

fn level_of_two(first: bool, second: bool) -> i32 {
    match (first, second) {
        (false, false) => -3,
        (false, true) => -1,
        (true, false) => 3,
        (true, true) => 1,
    }
}

fn level_of_one(bit: bool) -> i32 {
    if bit {
        1
    } else {
        -1
    }
}

fn grid((i, q): (i32, i32)) -> u8 {
    (4 * (i + 3) / 2 + (q + 3) / 2) as u8
}

/// The levels I and Q of a byte below 16.
fn levels(byte: u8) -> [i32; 2] {
    [byte / 4, byte % 4].map(|number| 2 * i32::from(number) - 3)
}

/// Whether a payload cell may have this byte. QPSK has no level of -3 or 3.
pub fn is_legal(profile: Profile, byte: u8) -> bool {
    byte < GRID
        && match profile {
            Profile::Qam16 => true,
            Profile::Qpsk => levels(byte).iter().all(|level| ![-3, 3].contains(level)),
        }
}

/// The bytes that a payload cell may have, in order.
pub fn legal_bytes(profile: Profile) -> &'static [u8] {
    static BYTES: LazyLock<[Vec<u8>; 2]> = LazyLock::new(|| {
        PROFILES.map(|profile| (0..GRID).filter(|&byte| is_legal(profile, byte)).collect())
    });
    &BYTES[profile as usize]
}

/// The symbol of a legal cell: the one that gives it.
pub fn symbol(profile: Profile, cell_bytes: [u8; 2]) -> u8 {
    static SYMBOLS: LazyLock<[[[u8; 16]; 16]; 2]> = LazyLock::new(|| {
        PROFILES.map(|profile| {
            let mut symbols = [[0; 16]; 16];
            for symbol in 0..1_u32 << profile.symbol_bits() {
                let [x, y] = cell(profile, symbol as u8);
                symbols[usize::from(x)][usize::from(y)] = symbol as u8;
            }
            symbols
        })
    });
    SYMBOLS[profile as usize][usize::from(cell_bytes[0])][usize::from(cell_bytes[1])]
}

/// The index of the first byte that no payload cell of the profile may have.
pub fn first_illegal(profile: Profile, cells: &[u8]) -> Option<usize> {
    cells.iter().position(|&byte| !is_legal(profile, byte))
}

/// Symbol n of bits: a byte is one, or its upper half is one and then its lower.
fn symbol_of(profile: Profile, bits: &[u8], n: usize) -> u8 {
    match (profile, n % 2) {
        (Profile::Qam16, _) => bits[n],
        (Profile::Qpsk, 0) => bits[n / 2] / 16,
        (Profile::Qpsk, _) => bits[n / 2] % 16,
    }
}

/// The byte of its symbols, one or two.
fn byte_of(profile: Profile, symbols: impl Iterator<Item = u8>) -> u8 {
    let bits = profile.symbol_bits();
    symbols.fold(0, |sum: u32, symbol| (sum << bits) + u32::from(symbol)) as u8
}

/// As `ofec_bits_to_cells` or `ofec_bits_to_cells_qpsk`.
pub fn bits_to_cells(profile: Profile, bits: &[u8], cells: &mut [u8]) -> Outcome {
    if [bits.len(), cells.len()] != [BUFFER_BYTES, profile.cells_bytes()] {
        return Outcome::refused(MISFIT);
    }
    for (n, place) in cells.chunks_mut(2).enumerate() {
        place.copy_from_slice(&cell(profile, symbol_of(profile, bits, n)));
    }
    Outcome::accepted(0)
}

/// As `ofec_cells_to_bits` or `ofec_cells_to_bits_qpsk`.
pub fn cells_to_bits(profile: Profile, cells: &[u8], bits: &mut [u8]) -> Outcome {
    if [cells.len(), bits.len()] != [profile.cells_bytes(), BUFFER_BYTES] {
        return Outcome::refused(MISFIT);
    }
    if let Some(index) = first_illegal(profile, cells) {
        return Outcome::off_grid(index);
    }
    for (cells, place) in cells.chunks(16 / profile.symbol_bits()).zip(bits) {
        let symbols = cells
            .chunks(2)
            .map(|cell| symbol(profile, [cell[0], cell[1]]));
        *place = byte_of(profile, symbols);
    }
    Outcome::accepted(0)
}
