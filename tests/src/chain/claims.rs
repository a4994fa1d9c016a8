//! The claims of demand 3 about whole runs, checked bit by bit against the sent bits.

use crate::bits;
use crate::chain::places::{on_line, read, words, words_of, Name, Rows};
use crate::chain::receiving::Received;
use crate::profile::Profile;
use crate::rows::{payload_bit, Place, FIRST_FULL_ROW, MARKS};
use crate::word::{BACK, FREE_BITS, LOST, WORD_BITS};

/// Wrong received bits that a word may have.
pub const LIMIT: usize = 3;
/// The highest limit that a check may be given.
const MOST: usize = 4;
/// A word with at most so many is not lost.
pub const REPAIRABLE: usize = 2;
/// Where a check has found so many breaches, it ends with the pair.
const ENOUGH: usize = 1_000;

/// A claim that does not hold.
#[derive(Debug, PartialEq, Eq, Clone, Copy)]
pub enum Breach {
    /// The frames, read backwards, do not hold this sent bit.
    Frame { encoder: usize, place: Place },
    /// Bit k arrived right and comes out wrong.
    RightBitChanged { word: Name, k: usize, out: Out },
    /// Bit k arrived wrong and comes out wrong, and its word is not marked lost.
    WrongBitLeft { word: Name, k: usize, out: Out },
    /// The mark is neither lost nor the number of bits that differ from the sent ones.
    Mark {
        word: Name,
        mark: u8,
        differing: usize,
    },
    /// Marked lost, with at most two wrong received bits.
    Lost { word: Name, wrong: usize },
}

/// Where a bit comes out: in the newest pair of the returned history, or in payload out.
#[derive(Debug, PartialEq, Eq, Clone, Copy)]
pub enum Out {
    History,
    Payload,
}

/// Every bit of an encoder, read backwards from the frames as they were sent.
pub fn check_frames(profile: Profile, encoder: usize, sent: &Rows, frames: &[u8]) -> Vec<Breach> {
    let mut breaches = Vec::new();
    for word in words(sent.pairs()) {
        for place in (BACK..WORD_BITS).map(|k| word.bit(k)) {
            if read(profile, frames, on_line(profile, encoder, place)) != sent.get(place) {
                breaches.push(Breach::Frame { encoder, place });
            }
        }
        if breaches.len() >= ENOUGH {
            break;
        }
    }
    breaches
}

/// A word's wrong received bits, as the line delivered them.
pub fn wrong_bits(sent: &Rows, line: &Rows, word: Name) -> usize {
    (word.first()..WORD_BITS)
        .map(|k| word.bit(k))
        .filter(|&place| line.get(place) != sent.get(place))
        .count()
}

/// Numbers of words, of rows 0 to 19 and of the others, by wrong received bits and by mark.
pub type Words = [[[u64; 4]; MOST + 1]; 2];

/// What a check found.
#[derive(Default)]
pub struct Claims {
    /// Pairs checked: those taken, before the first one with a word beyond the limit.
    pub pairs: usize,
    pub words: Words,
    /// Right bits in the back halves of lost words.
    pub right_bits_of_lost_words: u64,
    pub breaches: Vec<Breach>,
}

/// The claims about one receiver: `sent` is its encoder's, `line` what the cells off the line give.
pub fn check(sent: &Rows, line: &Rows, received: &Received, limit: usize) -> Claims {
    assert!(limit <= MOST);
    let mut claims = Claims::default();
    for pair in 0..received.pairs() {
        let wrong = words_of(pair).map(|word| wrong_bits(sent, line, word));
        if wrong.iter().any(|&wrong| wrong > limit) || claims.breaches.len() >= ENOUGH {
            break;
        }
        claims.pairs += 1;
        for (word, wrong) in words_of(pair).into_iter().zip(wrong) {
            claims.check_word(sent, line, received, word, wrong);
        }
    }
    claims
}

impl Claims {
    fn check_word(
        &mut self,
        sent: &Rows,
        line: &Rows,
        received: &Received,
        word: Name,
        wrong: usize,
    ) {
        let pair = word.pair();
        let mark = received.marks[MARKS * pair + word.in_pair()];
        let lost = u32::from(mark) == LOST;
        let full = usize::from(word.row >= FIRST_FULL_ROW);
        if let Some(number) = self.words[full][wrong].get_mut(usize::from(mark)) {
            *number += 1;
        }
        if lost && wrong <= REPAIRABLE {
            self.breaches.push(Breach::Lost { word, wrong });
        }

        // Front as held, back as received.
        let differing = (word.first()..WORD_BITS)
            .filter(|&k| {
                let place = word.bit(k);
                let bit = if k < BACK {
                    received.returned_bit(pair - 1, place)
                } else {
                    line.get(place)
                };
                bit != sent.get(place)
            })
            .count();
        if !lost && usize::from(mark) != differing {
            self.breaches.push(Breach::Mark {
                word,
                mark,
                differing,
            });
        }

        for k in BACK..WORD_BITS {
            let place = word.bit(k);
            let right = line.get(place) == sent.get(place);
            self.right_bits_of_lost_words += u64::from(lost && right);
            let mut comes_out = |out, bit: bool| {
                let as_sent = bit == sent.get(place);
                if !as_sent && right {
                    self.breaches.push(Breach::RightBitChanged { word, k, out });
                } else if !as_sent && !lost {
                    self.breaches.push(Breach::WrongBitLeft { word, k, out });
                }
            };
            comes_out(Out::History, received.returned_bit(pair, place));
            if k < FREE_BITS {
                let number = payload_bit(word.row, word.r, k - BACK) as usize;
                comes_out(Out::Payload, bits::get(&received.payload, number));
            }
        }
    }
}
