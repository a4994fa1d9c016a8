//! What the line does: it puts any legal cell for any cell, each by the rule of its own.

use std::ops::Range;

use crate::cells::legal_bytes;
use crate::chain::places::{flip, in_back, in_front, index, on_line, words, Name, PAIR_BITS};
use crate::chain::SUPERFRAME_BYTES;
use crate::frames::{self, is_overhead, SUBFRAMES, SUBFRAME_CELLS};
use crate::profile::Profile;
use crate::random::Random;
use crate::rows::{Place, BIT_ROWS, MARKS};
use crate::word::WORD_BITS;

/// Cells of a super-frame, overhead too.
const SUPERFRAME_CELLS: usize = SUBFRAMES as usize * SUBFRAME_CELLS;
const MILLION: usize = 1_000_000;

#[derive(Debug, Clone)]
pub enum Damage {
    /// So many single cells, of payload or overhead.
    Cells(usize),
    /// Overhead cells only, so many of each hundred.
    Overhead(usize),
    /// So many words, chosen at random and at the ends of buffers and super-frames: each is brought to 1
    /// to `wrong` wrong bits, in either half, and no word that shares them to more. Damage done before
    /// does not count.
    Words { count: usize, wrong: usize },
    /// The same for every word, brought as near to so many wrong bits as is found.
    AllWords(usize),
    /// So many of each million cells become other ones.
    Errors(usize),
    /// So many of each million levels move by one step.
    Steps(usize),
    /// So many stretches of up to so many cells, each becoming any cell.
    Bursts { count: usize, cells: usize },
    /// The same, one stretch in each buffer's payload at most.
    BurstInEachBuffer { cells: usize },
    /// These sub-frames become garbage, numbered from the line's start.
    Garbage(Vec<usize>),
}

impl Damage {
    pub fn apply(&self, profile: Profile, frames: &mut [u8], random: &mut Random) {
        let cells = frames.len() / 2;
        match *self {
            Damage::Cells(count) => {
                for _ in 0..count {
                    another_cell(profile, frames, random.between(0, cells), random);
                }
            }
            Damage::Overhead(percent) => {
                for cell in 0..cells {
                    let (number, within) = subframe(cell);
                    if is_overhead(number, within) && random.between(0, 100) < percent {
                        another_cell(profile, frames, cell, random);
                    }
                }
            }
            Damage::Words { count, wrong } => {
                let mut loads = Loads::new(profile, frames, wrong);
                for _ in 0..count {
                    let (encoder, word) = loads.any_word(random);
                    let wrong = random.between(1, wrong + 1);
                    loads.bring_to(wrong, encoder, word, frames, random);
                }
            }
            Damage::AllWords(wrong) => {
                let mut loads = Loads::new(profile, frames, wrong);
                let mut all: Vec<(usize, Name)> = words(loads.pairs)
                    .flat_map(|word| [(0, word), (1, word)])
                    .collect();
                while !all.is_empty() {
                    let next = random.between(0, all.len());
                    let (encoder, word) = all.swap_remove(next);
                    loads.bring_to(wrong, encoder, word, frames, random);
                }
            }
            Damage::Errors(rate) => {
                for cell in 0..cells {
                    if random.between(0, MILLION) < rate {
                        another_cell(profile, frames, cell, random);
                    }
                }
            }
            Damage::Steps(rate) => {
                for (index, byte) in frames.iter_mut().enumerate() {
                    for size in [1, 4] {
                        if random.between(0, MILLION) < rate {
                            let rule = rule(profile, index / 2);
                            *byte = stepped(rule, *byte, size, random.bit());
                        }
                    }
                }
            }
            Damage::Bursts { count, cells: most } => {
                for _ in 0..count {
                    let length = random.between(1, most + 1);
                    let start = random.between(0, cells - length);
                    garbage(profile, frames, start..start + length, random);
                }
            }
            Damage::BurstInEachBuffer { cells: most } => {
                // Buffers begin every six sub-frames, or every twelve, to within a hundred cells.
                let apart = SUPERFRAME_CELLS / profile.buffers();
                for start in (0..cells).step_by(apart) {
                    let length = random.between(1, most + 1);
                    let start = start + random.between(1_000, apart - 1_000 - length);
                    garbage(profile, frames, start..start + length, random);
                }
            }
            Damage::Garbage(ref subframes) => {
                for subframe in subframes {
                    let start = SUBFRAME_CELLS * subframe;
                    garbage(profile, frames, start..start + SUBFRAME_CELLS, random);
                }
            }
        }
    }
}

/// The number of a cell's sub-frame, and the cell's number in it; cells are numbered from the line's start.
fn subframe(cell: usize) -> (u32, usize) {
    let number = cell / SUBFRAME_CELLS % SUBFRAMES as usize;
    (number as u32, cell % SUBFRAME_CELLS)
}

/// The profile by whose rule a cell is legal.
fn rule(profile: Profile, cell: usize) -> Profile {
    let (number, within) = subframe(cell);
    frames::rule(profile, number, within)
}

/// Another legal cell for a cell: X, Y or both are others.
fn another_cell(profile: Profile, frames: &mut [u8], cell: usize, random: &mut Random) {
    let legal = legal_bytes(rule(profile, cell));
    let place = |byte: u8| legal.iter().position(|&other| other == byte);
    let [x, y] = [0, 1].map(|half| place(frames[2 * cell + half]).expect("a legal cell"));
    let before = legal.len() * x + y;
    let after = (before + random.between(1, legal.len().pow(2))) % legal.len().pow(2);
    frames[2 * cell] = legal[after / legal.len()];
    frames[2 * cell + 1] = legal[after % legal.len()];
}

/// Any legal cells in place of these.
fn garbage(profile: Profile, frames: &mut [u8], cells: Range<usize>, random: &mut Random) {
    for cell in cells {
        frames[2 * cell..][..2].copy_from_slice(&random.payload(rule(profile, cell), 2));
    }
}

/// I (size 4) or Q (size 1) of a cell's byte moved by one level; an end level has only one way to go.
fn stepped(profile: Profile, byte: u8, size: u8, up: bool) -> u8 {
    let mut levels = legal_bytes(profile).iter().map(|byte| byte % 4);
    let level = byte / size % 4;
    let lowest = levels.clone().all(|other| level <= other);
    let highest = levels.all(|other| other <= level);
    if lowest || up && !highest {
        byte + size
    } else {
        byte - size
    }
}

/// The wrong received bits of each word, as damage to words goes on.
struct Loads {
    profile: Profile,
    pairs: usize,
    limit: usize,
    /// By encoder and number of the word.
    wrong: [Vec<usize>; 2],
    /// By encoder and index of the bit.
    flipped: [Vec<bool>; 2],
}

impl Loads {
    fn new(profile: Profile, frames: &[u8], limit: usize) -> Self {
        let pairs = profile.pairs() * (frames.len() / SUPERFRAME_BYTES);
        Loads {
            profile,
            pairs,
            limit,
            wrong: [0; 2].map(|_| vec![0; MARKS * pairs]),
            flipped: [0; 2].map(|_| vec![false; PAIR_BITS * pairs]),
        }
    }

    fn any_word(&self, random: &mut Random) -> (usize, Name) {
        let rows = 2 * self.pairs;
        let of_superframe = 2 * self.profile.pairs();
        let ends = [
            0,
            1,
            18,
            19,
            20,
            21,
            22,
            23,
            41,
            42,
            43,
            of_superframe - 1,
            of_superframe % rows,
            rows - 2,
            rows - 1,
        ];
        let row = match random.between(0, 8) {
            0 => ends[random.between(0, ends.len())],
            _ => random.between(0, rows),
        };
        let word = Name {
            row: row as i64,
            r: random.between(0, BIT_ROWS),
        };
        (random.between(0, 2), word)
    }

    /// Flips bits of a word until so many are wrong, as far as they are found.
    fn bring_to(
        &mut self,
        wrong: usize,
        encoder: usize,
        word: Name,
        frames: &mut [u8],
        random: &mut Random,
    ) {
        for _ in 0..64 {
            if self.wrong[encoder][number(word)] >= wrong {
                return;
            }
            let place = word.bit(random.between(word.first(), WORD_BITS));
            self.flip(encoder, place, frames);
        }
    }

    /// Flips a bit, unless it is flipped already or a word that holds it is full.
    fn flip(&mut self, encoder: usize, place: Place, frames: &mut [u8]) {
        let (wrong, flipped) = (&mut self.wrong[encoder], &mut self.flipped[encoder]);
        let mut holders = vec![number(in_back(place))];
        holders.extend(
            in_front(place)
                .map(number)
                .filter(|&word| word < wrong.len()),
        );
        if flipped[index(place)] || holders.iter().any(|&word| wrong[word] >= self.limit) {
            return;
        }
        flipped[index(place)] = true;
        for word in holders {
            wrong[word] += 1;
        }
        flip(self.profile, frames, on_line(self.profile, encoder, place));
    }
}

/// The number of a word among all of its encoder.
fn number(word: Name) -> usize {
    MARKS * word.pair() + word.in_pair()
}
