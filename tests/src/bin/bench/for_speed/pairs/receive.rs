//! Receiving a pair by whole bit rows: the sums of all words are taken side by side, and only words whose sums are not all zero are
//! looked at one by one.

use ofec_tests::outcome::{Outcome, MISFIT};

use super::repair::repair;
use super::sums::{back_sums, front_sums, join};
use super::{exchanged, judged, number, riffle};

/// The back halves of a row's words, eight numbers each. They are aligned so that vectors are read in one piece.
#[repr(align(16))]
pub struct Words(pub [u16; 128]);

/// Where word r stands among them: `by_blocks` then takes three steps.
#[inline(always)]
pub const fn place(r: usize) -> usize {
    r % 8 * 2 + r / 8
}

/// In bit rows whose number has d, columns that differ by d change places.
#[inline(always)]
fn exchange(b: &mut [u16; 16], d: usize, m: u16) {
    for r in 0..16 {
        if r & d != 0 {
            b[r] = exchanged(b[r], d, m);
        }
    }
}

/// The bit rows of a row, their columns exchanged by ^r.
#[inline(never)]
fn back_halves(row: &[u8; 256]) -> Words {
    let mut words = [0; 128];
    for c in 0..8 {
        let mut b = [0; 16];
        for r in 0..16 {
            b[r] = number(row, 16 * r + 2 * c);
        }
        for r in 8..16 {
            b[r] = b[r].rotate_left(8);
        }
        exchange(&mut b, 4, 0x0F0F);
        exchange(&mut b, 2, 0x3333);
        exchange(&mut b, 1, 0x5555);
        for r in 0..16 {
            words[8 * place(r) + c] = b[r];
        }
    }
    Words(words)
}

/// The number of word r and block c at 64 (r / 8) + 8 c + r % 8.
#[inline(always)]
fn by_blocks(Words(words): &Words) -> [u16; 128] {
    riffle(&riffle(&riffle(words)))
}

/// Of each 16 bits the upper 15, without gaps from the top.
#[inline(always)]
fn squeezed(v: u64) -> u64 {
    let v = v & 0xFFFE_0000_FFFE_0000 | (v & 0x0000_FFFE_0000_FFFE) << 1;
    v & 0xFFFF_FFFC_0000_0000 | (v & 0x0000_0000_FFFF_FFFC) << 2
}

/// Six numbers of each word, and 15 bits of the seventh. Those of eight words are 15 bytes, written as two numbers that share a byte.
#[inline(never)]
fn put_payload(words: [&Words; 2], payload: &mut [u8; 444]) {
    let mut last = [0; 64];
    for row in 0..2 {
        let numbers = by_blocks(words[row]);
        for h in 0..2 {
            for c in 0..6 {
                for r in 0..8 {
                    let own = numbers[64 * h + 8 * c + r].to_le_bytes();
                    payload[64 * c + 32 * row + 16 * h + 2 * r..][..2].copy_from_slice(&own);
                }
            }
            for r in 0..8 {
                let own = numbers[64 * h + 48 + r].to_le_bytes();
                last[32 * row + 16 * h + 2 * r..][..2].copy_from_slice(&own);
            }
        }
    }
    for g in 0..4 {
        let [a, b] = [16 * g, 16 * g + 8].map(|at| {
            let own = last[at..][..8].try_into().expect("8 bytes");
            squeezed(u64::from_be_bytes(own))
        });
        let own = &mut payload[384 + 15 * g..][..15];
        own[..8].copy_from_slice(&(a | b >> 60).to_be_bytes());
        own[7..].copy_from_slice(&(a << 56 | b >> 4).to_be_bytes());
    }
}

/// Moves a part of the history down by a pair.
#[inline(always)]
fn move_down(pairs: &mut [u8; 5120], from: usize, to: usize) {
    pairs.copy_within(from + 512..to + 512, from);
}

/// Payload and marks of a pair received, and its history; front halves count where it is full.
///
/// The history moves in parts, each of them while the sums that follow are taken.
#[inline(never)]
fn receive(
    coded: &[u8; 512],
    payload: &mut [u8; 444],
    marks: &mut [u8; 32],
    pairs: &mut [u8; 5120],
    full: bool,
) {
    let (rows, _) = coded.as_chunks();
    let words0 = back_halves(&rows[0]);
    let front0 = front_sums::<256>(pairs, full);
    let words1 = back_halves(&rows[1]);
    let front1 = front_sums::<0>(pairs, full);
    move_down(pairs, 0, 1536);
    let sums0 = back_sums(&words0, &front0);
    move_down(pairs, 1536, 3072);
    let sums1 = back_sums(&words1, &front1);
    move_down(pairs, 3072, 4608);
    let sums = join(&sums0, &sums1);
    put_payload([&words0, &words1], payload);
    let newest = pairs.last_chunk_mut().expect("512 bytes");
    *newest = *coded;
    *marks = [0; 32];
    let dirty = sums.iter().fold(0, |all, sum| all | sum);
    if dirty != 0 {
        repair(&sums, dirty, payload, marks, newest, full);
    }
}

pub fn receive_pair(
    coded: &[u8],
    payload: &mut [u8],
    marks: &mut [u8],
    history: &mut [u8],
    encoder: u32,
    pair: u32,
) -> Outcome {
    let (Ok(coded), Ok(payload), Ok(marks), Ok(history)) = (
        coded.try_into(),
        payload.try_into(),
        marks.try_into(),
        history.try_into(),
    ) else {
        return Outcome::refused_pair(MISFIT, pair);
    };
    judged(history, encoder, pair, |pairs, full| {
        receive(coded, payload, marks, pairs, full)
    })
}
