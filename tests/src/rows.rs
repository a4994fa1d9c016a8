//! Rows and pairs: bits V(R, C, r, c) and the words through them, over whatever history is lent.
//! A pair is completed and repaired word by word, by long division and by the trial of every flip.
//! A history is the pairs held, and in front of them the numbers of their encoder and of the next pair.

use std::sync::LazyLock;

use crate::bits;
use crate::outcome::{Outcome, COUNT_SPENT, MISFIT, STRAY_HISTORY};
use crate::word::{self, Trial, Word, BACK, FREE_BITS, LOST};

pub const PAYLOAD_BYTES: usize = 444;
pub const PAIR_BYTES: usize = 512;
/// Ten pairs, oldest first.
pub const HELD_BYTES: usize = 5_120;
/// Two numbers of 32 bits.
pub const FRONT_BYTES: usize = 8;
/// The two numbers, and behind them the ten pairs.
pub const HISTORY_BYTES: usize = 5_128;
/// The numbers that an encoder may have.
pub const ENCODERS: [u32; 2] = [0, 1];
/// Words of a pair, each with its mark.
pub const MARKS: usize = 32;
/// Bit rows of a row, each the back half of one word.
pub const BIT_ROWS: usize = 16;
/// The rows before this one have 128 zeros in front.
pub const FIRST_FULL_ROW: i64 = 20;
/// The pair number that is refused.
pub const SPENT: u32 = 4_294_967_295;

/// An encoder, and its next pair: what stands in front of a history, and what a call names.
#[derive(Debug, PartialEq, Eq, Clone, Copy)]
pub struct Numbers {
    pub encoder: u32,
    pub pair: u32,
}

impl Numbers {
    /// Those in front of a history.
    pub fn of(history: &[u8]) -> Self {
        let [encoder, pair] = [0, 4].map(|from| {
            let bytes = history[from..from + 4].try_into().expect("four bytes");
            u32::from_be_bytes(bytes)
        });
        Numbers { encoder, pair }
    }

    pub fn to_bytes(self) -> [u8; FRONT_BYTES] {
        let both = u64::from(self.encoder) << 32 | u64::from(self.pair);
        both.to_be_bytes()
    }

    /// The history with these numbers and these pairs.
    pub fn history(self, held: &[u8]) -> Vec<u8> {
        [&self.to_bytes(), held].concat()
    }

    /// After the call of this pair.
    pub fn next(self) -> Self {
        Numbers {
            pair: self.pair + 1,
            ..self
        }
    }
}

/// The history of an encoder or a receiver before its first pair.
pub fn fresh(encoder: u32) -> Vec<u8> {
    Numbers { encoder, pair: 0 }.history(&[0; HELD_BYTES])
}

/// Where a bit V(R, C, r, c) stands.
#[derive(Debug, PartialEq, Eq, Clone, Copy)]
pub struct Place {
    pub row: i64,
    pub block: usize,
    pub bit_row: usize,
    pub column: usize,
}

/// The place of bit k of the word of (R, r).
pub fn word_bit(row: i64, r: usize, k: usize) -> Place {
    if k < BACK {
        Place {
            row: (row ^ 1) - 20 + 2 * (k / 16) as i64,
            block: k / 16,
            bit_row: (k % 16) ^ r,
            column: r,
        }
    } else {
        Place {
            row,
            block: (k - 128) / 16,
            bit_row: r,
            column: (k % 16) ^ r,
        }
    }
}

/// The payload bit at bit 128+k of the word of (R, r), for k = 0 to 110.
pub fn payload_bit(row: i64, r: usize, k: usize) -> i64 {
    let (r, k) = (r as i64, k as i64);
    (row / 2) * 3552 + ((row % 2) * 16 + r) * (16 - k / 96) + (k / 16) * 512 + k % 16
}

/// The two rows of a pair.
pub fn rows_of(pair: u32) -> [i64; 2] {
    [2 * i64::from(pair), 2 * i64::from(pair) + 1]
}

/// The rows that a pair can reach: the twenty held, and then its own two.
pub struct Window {
    pair: u32,
    bytes: Vec<u8>,
}

impl Window {
    pub fn new(held: &[u8], own: &[u8], pair: u32) -> Self {
        assert_eq!([held.len(), own.len()], [HELD_BYTES, PAIR_BYTES]);
        Window {
            pair,
            bytes: [held, own].concat(),
        }
    }

    pub fn held(&self) -> &[u8] {
        &self.bytes[..HELD_BYTES]
    }

    pub fn own(&self) -> &[u8] {
        &self.bytes[HELD_BYTES..]
    }

    /// Those held by the next pair: the oldest is dropped.
    pub fn next_held(&self) -> &[u8] {
        &self.bytes[PAIR_BYTES..]
    }

    fn index(&self, place: Place) -> usize {
        let row = place.row - (2 * i64::from(self.pair) - 20);
        let row = usize::try_from(row).expect("a row within reach");
        row * 256 * 8 + 128 * place.bit_row + 16 * place.block + place.column
    }

    pub fn get(&self, place: Place) -> bool {
        bits::get(&self.bytes, self.index(place))
    }

    pub fn flip(&mut self, place: Place) {
        let index = self.index(place);
        bits::flip(&mut self.bytes, index);
    }

    fn set(&mut self, place: Place, bit: bool) {
        let index = self.index(place);
        bits::set(&mut self.bytes, index, bit);
    }

    /// Bit k of the word of (R, r); before the first full row the front half is zeros.
    fn word_bit(&self, row: i64, r: usize, k: usize) -> bool {
        (k >= BACK || row >= FIRST_FULL_ROW) && self.get(word_bit(row, r, k))
    }

    fn set_back_half(&mut self, row: i64, r: usize, word: &Word) {
        for (k, &bit) in word.iter().enumerate().skip(BACK) {
            self.set(word_bit(row, r, k), bit);
        }
    }
}

/// Why the call that names these numbers is refused, if it is.
fn refusal(fits: bool, history: &[u8], named: Numbers) -> Option<u32> {
    if !fits {
        Some(MISFIT)
    } else if Numbers::of(history) != named || !ENCODERS.contains(&named.encoder) {
        Some(STRAY_HISTORY)
    } else if named.pair == SPENT {
        Some(COUNT_SPENT)
    } else {
        None
    }
}

/// As `ofec_encode_pair`.
pub fn encode_pair(
    payload: &[u8],
    coded: &mut [u8],
    history: &mut [u8],
    encoder: u32,
    pair: u32,
) -> Outcome {
    let lengths = [payload.len(), coded.len(), history.len()];
    let fits = lengths == [PAYLOAD_BYTES, PAIR_BYTES, HISTORY_BYTES];
    let numbers = Numbers { encoder, pair };
    if let Some(refusal) = refusal(fits, history, numbers) {
        return Outcome::refused_pair(refusal, pair);
    }
    let mut window = Window::new(&history[FRONT_BYTES..], &[0; PAIR_BYTES], pair);
    for row in rows_of(pair) {
        for r in 0..BIT_ROWS {
            let free: [bool; FREE_BITS] = std::array::from_fn(|k| {
                if k < BACK {
                    window.word_bit(row, r, k)
                } else {
                    bits::get(payload, index_in_pair(row, r, k - 128))
                }
            });
            window.set_back_half(row, r, &word::complete(&free));
        }
    }
    coded.copy_from_slice(window.own());
    history.copy_from_slice(&numbers.next().history(window.next_held()));
    Outcome::accepted(pair + 1)
}

/// As `ofec_receive_pair`.
pub fn receive_pair(
    coded: &[u8],
    payload: &mut [u8],
    marks: &mut [u8],
    history: &mut [u8],
    encoder: u32,
    pair: u32,
) -> Outcome {
    let lengths = [coded.len(), payload.len(), marks.len(), history.len()];
    let fits = lengths == [PAIR_BYTES, PAYLOAD_BYTES, MARKS, HISTORY_BYTES];
    let numbers = Numbers { encoder, pair };
    if let Some(refusal) = refusal(fits, history, numbers) {
        return Outcome::refused_pair(refusal, pair);
    }
    let mut window = Window::new(&history[FRONT_BYTES..], coded, pair);
    let mut mark = marks.iter_mut();
    for row in rows_of(pair) {
        for r in 0..BIT_ROWS {
            let held = std::array::from_fn(|k| window.word_bit(row, r, k));
            let (number, repaired) = repair(&held, row >= FIRST_FULL_ROW);
            *mark.next().expect("32 marks") = number;
            window.set_back_half(row, r, &repaired);
            for k in 0..=110 {
                bits::set(payload, index_in_pair(row, r, k), repaired[128 + k]);
            }
        }
    }
    history.copy_from_slice(&numbers.next().history(window.next_held()));
    Outcome::accepted(pair + 1)
}

/// The payload bit's index in the payload of its own pair.
fn index_in_pair(row: i64, r: usize, k: usize) -> usize {
    (payload_bit(row, r, k) - (row / 2) * 3552) as usize
}

/// The mark, and the word that stands afterwards.
fn repair(word: &Word, front: bool) -> (u8, Word) {
    static TRIAL: LazyLock<Trial> = LazyLock::new(Trial::default);
    // A code word is the only one within two flips of itself.
    if word::is_code_word(word) {
        return (0, *word);
    }
    match TRIAL.flips(word, front) {
        Some(places) => (places.len() as u8, word::flipped(word, &places)),
        None => (LOST as u8, *word),
    }
}
