//! The check word (002, 7.2.1): a code word is told by long division and parity, and a repair is
//! found by trying every flip.

use std::sync::LazyLock;

use crate::bits::{pack, unpack};
use crate::outcome::{Outcome, MISFIT};

pub const WORD_BITS: usize = 256;
pub const WORD_BYTES: usize = 32;
/// Bits 0 to 238 are free; each choice of them has one completion to a code word.
pub const FREE_BITS: usize = 239;
/// First bit of the back half.
pub const BACK: usize = 128;
/// The number of a lost word; a repaired one has its number of flips, 0 to 2.
pub const LOST: u32 = 3;

/// The powers of y in g.
pub const GENERATOR: [usize; 11] = [16, 14, 13, 11, 10, 9, 8, 6, 5, 1, 0];

pub type Word = [bool; WORD_BITS];

pub fn from_bytes(bytes: &[u8; WORD_BYTES]) -> Word {
    unpack(bytes).try_into().expect("256 bits")
}

pub fn to_bytes(word: &Word) -> [u8; WORD_BYTES] {
    pack(word).try_into().expect("32 bytes")
}

/// What long division of bits 0 to 254 by g leaves, the coefficient of y^15 first.
pub fn remainder(word: &Word) -> [bool; 16] {
    // Bit k is the coefficient of y^(254-k). Where it is 1, y^(238-k) times g is taken away.
    let mut left = *word;
    for k in 0..FREE_BITS {
        if left[k] {
            for power in GENERATOR {
                left[k + 16 - power] ^= true;
            }
        }
    }
    left[239..255].try_into().expect("16 bits")
}

/// Whether the number of ones among all 256 bits is odd.
pub fn odd_parity(word: &Word) -> bool {
    word.iter().filter(|&&bit| bit).count() % 2 == 1
}

pub fn is_code_word(word: &Word) -> bool {
    remainder(word) == [false; 16] && !odd_parity(word)
}

/// The code word that begins with these bits.
pub fn complete(free: &[bool; FREE_BITS]) -> Word {
    let mut word = [false; WORD_BITS];
    word[..FREE_BITS].copy_from_slice(free);
    let remainder = remainder(&word);
    word[239..255].copy_from_slice(&remainder);
    word[255] = odd_parity(&word);
    word
}

pub fn flipped(word: &Word, places: &[usize]) -> Word {
    let mut word = *word;
    for &place in places {
        word[place] ^= true;
    }
    word
}

/// The first place where a flip may fall.
fn first_place(front: bool) -> usize {
    if front {
        0
    } else {
        BACK
    }
}

/// The flips, at most two and rising, that make a code word of `word`; nothing if there are none.
/// Every choice is tried by flipping the bits and dividing afresh: slow, and plainly right.
pub fn flips_by_division(word: &Word, front: bool) -> Option<Vec<usize>> {
    let first = first_place(front);
    let mut choices = vec![vec![]];
    for i in first..WORD_BITS {
        choices.push(vec![i]);
        choices.extend((i + 1..WORD_BITS).map(|j| vec![i, j]));
    }
    choices.retain(|places| is_code_word(&flipped(word, places)));
    only(choices)
}

/// The same trial of every choice, faster. Division and parity are linear: a flip adds what the
/// word with that single bit leaves, so that no flipped word is divided again.
pub struct Trial {
    single: [u32; WORD_BITS],
}

impl Default for Trial {
    fn default() -> Self {
        let zero = [false; WORD_BITS];
        let single = std::array::from_fn(|place| left_over(&flipped(&zero, &[place])));
        Trial { single }
    }
}

impl Trial {
    /// As `flips_by_division`.
    pub fn flips(&self, word: &Word, front: bool) -> Option<Vec<usize>> {
        let none = left_over(word);
        let mut found = Vec::new();
        if none == 0 {
            found.push(vec![]);
        }
        for i in first_place(front)..WORD_BITS {
            let one = none ^ self.single[i];
            if one == 0 {
                found.push(vec![i]);
            }
            // Looked through without a branch first: most places have no partner.
            let partner = self.single[i + 1..]
                .iter()
                .fold(false, |any, &other| any | (one == other));
            if partner {
                let places = (i + 1..WORD_BITS).filter(|&j| one == self.single[j]);
                found.extend(places.map(|j| vec![i, j]));
            }
        }
        only(found)
    }

    /// The number of the answer, and the word that stands afterwards.
    pub fn repair(&self, bytes: &[u8; WORD_BYTES], front: bool) -> (u32, [u8; WORD_BYTES]) {
        let word = from_bytes(bytes);
        match self.flips(&word, front) {
            Some(places) => (places.len() as u32, to_bytes(&flipped(&word, &places))),
            None => (LOST, *bytes),
        }
    }
}

/// As `ofec_repair_word`.
pub fn repair_word(word: &mut [u8], front: u32) -> Outcome {
    static TRIAL: LazyLock<Trial> = LazyLock::new(Trial::default);
    let Ok(bytes) = <&mut [u8; WORD_BYTES]>::try_from(word) else {
        return Outcome::refused(MISFIT);
    };
    let (number, repaired) = TRIAL.repair(bytes, front != 0);
    *bytes = repaired;
    Outcome::accepted(number)
}

/// Remainder and parity as one number: 0 exactly for a code word.
fn left_over(word: &Word) -> u32 {
    remainder(word)
        .into_iter()
        .chain([odd_parity(word)])
        .fold(0, |sum, bit| 2 * sum + u32::from(bit))
}

/// Code words differ in at least 6 bits, so that two choices never both give one.
fn only(mut choices: Vec<Vec<usize>>) -> Option<Vec<usize>> {
    assert!(choices.len() <= 1, "two code words within two flips");
    choices.pop()
}
