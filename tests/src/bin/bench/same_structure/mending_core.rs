//! crates/mending_core: the repairs of the words of a pair, by syndromes that were gathered before.

use super::gf256;
use super::locating_core::{self, repair_told, Repair};
use super::word::mark_of;

mod collecting;

/// A number with bit j flipped where b is 1.
fn flipped_number(v: u16, j: usize, b: u16) -> u16 {
    v ^ (b << (15 - j))
}

/// Flips bit k of word w, if it is one of the back half: it stands eight columns further on.
fn flip_back(halves: &mut [u16; 256], w: usize, k: usize) {
    let n = 8 * w + k % 128 / 16;
    halves[n] = flipped_number(halves[n], (k + 8) % 16, (k / 128 % 2) as u16);
}

/// Flips bit i of a buffer where b is 1.
fn flip_if(s: &mut [u8; 512], i: usize, b: u8) {
    s[i / 8] = s[i / 8] ^ (b << (7 - i % 8));
}

/// The same in a coded pair.
fn flip_coded(coded: &mut [u8; 512], w: usize, k: usize) {
    let x = (k % 16) ^ (w % 16);
    flip_if(coded, 128 * w + k % 128 / 16 * 16 + x, (k / 128 % 2) as u8);
}

/// In both.
fn flip_both(halves: &mut [u16; 256], coded: &mut [u8; 512], w: usize, k: usize) {
    flip_back(halves, w, k);
    flip_coded(coded, w, k);
}

/// Flips the places of a repair of word w in both.
fn mend(halves: &mut [u16; 256], coded: &mut [u8; 512], w: usize, r: Repair) {
    match r {
        Repair::One(i) => flip_both(halves, coded, w, i),
        Repair::Two(i, j) => {
            flip_both(halves, coded, w, j);
            flip_both(halves, coded, w, i);
        }
        Repair::Sound | Repair::Lost => {}
    }
}

/// Repairs word w by what was gathered, and gives its mark.
fn repair_word(
    halves: &mut [u16; 256],
    coded: &mut [u8; 512],
    w: usize,
    numbers: &[u64; 8],
    odd: u32,
    front: bool,
    table: &[u8; 255],
    logs: &[u8; 256],
    cubes: &[u8; 256],
    roots: &[u8; 256],
) -> u8 {
    let s = collecting::syndromes(numbers, odd, w);
    let r = repair_told(s, front, table, logs, cubes, roots);
    mend(halves, coded, w, r);
    mark_of(r)
}

/// The first word of a set, a bit each.
fn first_word(left: u32) -> usize {
    left.leading_zeros() as usize
}

/// The others.
fn without(left: u32, w: usize) -> u32 {
    left - (1 << (31 - w))
}

/// Repairs the words of a set, and puts their marks.
fn repair_marked(
    halves: &mut [u16; 256],
    coded: &mut [u8; 512],
    set: u32,
    numbers: &[u64; 8],
    odd: u32,
    front: bool,
    table: &[u8; 255],
    logs: &[u8; 256],
    cubes: &[u8; 256],
    roots: &[u8; 256],
    marks: &mut [u8; 32],
) {
    let mut left = set;
    while left != 0 {
        let w = first_word(left);
        marks[w] = repair_word(
            halves, coded, w, numbers, odd, front, table, logs, cubes, roots,
        );
        left = without(left, w);
    }
}

/// The marks of a pair without a repair.
pub fn no_marks(marks: &mut [u8; 32]) {
    for w in 0..32 {
        marks[w] = 0;
    }
}

/// The words of odd parity, then the others that are no code words.
fn set_of(odd: u32, dirty: u32, pass: usize) -> u32 {
    if pass == 0 {
        odd
    } else {
        dirty ^ odd
    }
}

/// Repairs the words that are no code words, and puts the marks of all 32.
fn repair_dirty(
    halves: &mut [u16; 256],
    coded: &mut [u8; 512],
    numbers: &[u64; 8],
    odd: u32,
    dirty: u32,
    front: bool,
    table: &[u8; 255],
    logs: &[u8; 256],
    cubes: &[u8; 256],
    roots: &[u8; 256],
    marks: &mut [u8; 32],
) {
    no_marks(marks);
    for pass in 0..2 {
        let set = set_of(odd, dirty, pass);
        repair_marked(
            halves, coded, set, numbers, odd, front, table, logs, cubes, roots, marks,
        );
    }
}

/// The same from the sums.
pub fn repair_words(
    halves: &mut [u16; 256],
    coded: &mut [u8; 512],
    sums: &[u32; 16],
    odd: u32,
    dirty: u32,
    front: bool,
    marks: &mut [u8; 32],
) {
    let table = gf256::powers();
    let logs = gf256::logs();
    let cubes = gf256::cubes();
    let roots = locating_core::roots();
    let numbers = collecting::by_words(sums);
    repair_dirty(
        halves, coded, &numbers, odd, dirty, front, &table, &logs, &cubes, &roots, marks,
    );
}
