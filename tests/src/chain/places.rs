//! Where each bit V(R, C, r, c) stands: on the line, and in the words that hold it. Positions are worked
//! out from the place itself, and not by running the chain.

use std::sync::LazyLock;

use crate::bits;
use crate::cells;
use crate::frames::{is_overhead, SUBFRAMES, SUBFRAME_CELLS};
use crate::profile::Profile;
use crate::rows::{payload_bit, word_bit, Place, BIT_ROWS, FIRST_FULL_ROW, MARKS, PAYLOAD_BYTES};
use crate::word::{self, BACK, FREE_BITS};

/// Rows of an encoder in a buffer.
const BUFFER_ROWS: usize = 42;
/// Bits of a row.
const ROW_BITS: usize = 2_048;
pub const PAIR_BITS: usize = 2 * ROW_BITS;

/// Bit `bit` (c0 on) of a cell's symbol, the cells being numbered from the line's start, overhead too.
#[derive(Debug, PartialEq, Eq, Clone, Copy)]
pub struct LineBit {
    pub cell: usize,
    pub bit: usize,
}

/// The numbers of a super-frame's payload cells, in order.
static PAYLOAD_CELLS: LazyLock<Vec<usize>> = LazyLock::new(|| {
    let mut numbers = Vec::new();
    for number in 0..SUBFRAMES {
        let payload = (0..SUBFRAME_CELLS).filter(|&cell| !is_overhead(number, cell));
        numbers.extend(payload.map(|cell| number as usize * SUBFRAME_CELLS + cell));
    }
    numbers
});

/// Where an encoder's bit stands on the line.
pub fn on_line(profile: Profile, encoder: usize, place: Place) -> LineBit {
    let row = place.row as usize;
    let n = output_bit(encoder, row % BUFFER_ROWS, place);
    let buffer = row / BUFFER_ROWS;
    let in_superframe = buffer % profile.buffers();
    let payload_cell = in_superframe * profile.buffer_symbols() + n / profile.symbol_bits();
    let superframe = buffer / profile.buffers();
    LineBit {
        cell: superframe * SUBFRAMES as usize * SUBFRAME_CELLS + PAYLOAD_CELLS[payload_cell],
        bit: n % profile.symbol_bits(),
    }
}

/// The number n of the buffer's output bit; `row` is counted within the buffer.
pub fn output_bit(encoder: usize, row: usize, place: Place) -> usize {
    // Place (i, j) takes its bit from ((j−2i−d) mod 16, (j−i−d) mod 16): their difference is i.
    let i = (16 + place.column - place.bit_row) % 16;
    let d = usize::from(i >= 8);
    let j = (place.column + i + d) % 16;
    let block_row = 2 * row + encoder;
    let (subset, in_subset) = if block_row < 42 {
        (encoder, block_row / 2)
    } else {
        (2 + encoder, (block_row - 42) / 2)
    };
    let bit_row = 16 * in_subset + i;
    let column = 16 * place.block + j;
    1344 * column + 32 * (bit_row / 8) + 8 * subset + bit_row % 8
}

fn cell(frames: &[u8], number: usize) -> [u8; 2] {
    [frames[2 * number], frames[2 * number + 1]]
}

/// The bit that the cells give there.
pub fn read(profile: Profile, frames: &[u8], at: LineBit) -> bool {
    cells::symbol(profile, cell(frames, at.cell)) & power(profile, at) != 0
}

/// Puts the cell that differs in this bit alone.
pub fn flip(profile: Profile, frames: &mut [u8], at: LineBit) {
    let symbol = cells::symbol(profile, cell(frames, at.cell)) ^ power(profile, at);
    frames[2 * at.cell..][..2].copy_from_slice(&cells::cell(profile, symbol));
}

/// The symbol in which this bit alone is 1.
fn power(profile: Profile, at: LineBit) -> u8 {
    1 << (profile.symbol_bits() - 1 - at.bit)
}

/// The word of (R, r).
#[derive(Debug, PartialEq, Eq, Clone, Copy)]
pub struct Name {
    pub row: i64,
    pub r: usize,
}

/// The words of a pair.
pub fn words_of(pair: usize) -> [Name; MARKS] {
    std::array::from_fn(|word| Name {
        row: (2 * pair + word / BIT_ROWS) as i64,
        r: word % BIT_ROWS,
    })
}

/// The words of the first `pairs` pairs.
pub fn words(pairs: usize) -> impl Iterator<Item = Name> {
    (0..pairs).flat_map(words_of)
}

impl Name {
    pub fn pair(&self) -> usize {
        self.row as usize / 2
    }

    /// The word's number in its pair.
    pub fn in_pair(&self) -> usize {
        self.row as usize % 2 * BIT_ROWS + self.r
    }

    /// The first bit that counts: before the first full row the front half does not.
    pub fn first(&self) -> usize {
        if self.row < FIRST_FULL_ROW {
            BACK
        } else {
            0
        }
    }

    /// The place of bit k.
    pub fn bit(&self, k: usize) -> Place {
        word_bit(self.row, self.r, k)
    }
}

/// The word that holds a bit in its back half.
pub fn in_back(place: Place) -> Name {
    Name {
        row: place.row,
        r: place.bit_row,
    }
}

/// The word that holds a bit in its front half, where that counts. It may come after the run's end.
pub fn in_front(place: Place) -> Option<Name> {
    // (R^1) − 20 + 2C is the bit's row.
    let row = (place.row + 20 - 2 * place.block as i64) ^ 1;
    let r = place.column;
    (row >= FIRST_FULL_ROW).then_some(Name { row, r })
}

/// The bits V(R, C, r, c) of one encoder from row 0 on.
#[derive(PartialEq, Eq)]
pub struct Rows(Vec<bool>);

impl Rows {
    /// The sent bits: by the formulas, over the whole stream of payloads and with no history.
    pub fn sent(payload: &[u8]) -> Self {
        let pairs = payload.len() / PAYLOAD_BYTES;
        let mut rows = Rows(vec![false; PAIR_BITS * pairs]);
        for name in words(pairs) {
            let free: [bool; FREE_BITS] = std::array::from_fn(|k| {
                if k < BACK {
                    k >= name.first() && rows.get(name.bit(k))
                } else {
                    bits::get(payload, payload_bit(name.row, name.r, k - 128) as usize)
                }
            });
            let word = word::complete(&free);
            for (k, &bit) in word.iter().enumerate().skip(BACK) {
                rows.0[index(name.bit(k))] = bit;
            }
        }
        rows
    }

    /// The bits that the cells give for an encoder's first `pairs` pairs.
    pub fn on_line(profile: Profile, encoder: usize, pairs: usize, frames: &[u8]) -> Self {
        let mut rows = Rows(vec![false; PAIR_BITS * pairs]);
        for name in words(pairs) {
            for k in BACK..word::WORD_BITS {
                let place = name.bit(k);
                let at = on_line(profile, encoder, place);
                rows.0[index(place)] = read(profile, frames, at);
            }
        }
        rows
    }

    /// The bits of coded pairs.
    pub fn of(coded: &[u8]) -> Self {
        Rows(bits::unpack(coded))
    }

    pub fn get(&self, place: Place) -> bool {
        self.0[index(place)]
    }

    pub fn pairs(&self) -> usize {
        self.0.len() / PAIR_BITS
    }
}

/// The bit's index in the coded pairs of its encoder.
pub fn index(place: Place) -> usize {
    ROW_BITS * place.row as usize + 128 * place.bit_row + 16 * place.block + place.column
}
