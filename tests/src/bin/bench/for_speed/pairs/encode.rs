//! Encoding a pair by whole bit rows: the payload is riffled into the order of the words, the sums of all words are taken side by side,
//! and they give the check bits of all words.

use ofec_tests::outcome::{Outcome, MISFIT};

use super::sums::{
    byte_sums, check_bits, front_sums, join_to_four, transpose, transpose_four, Four,
};
use super::{exchanged, judged, number, riffle};

/// The back halves of a row's words in bytes: byte j of word r in block c, j = 0 or 1, at 32 (r % 8) + 16 j + 2 c + r / 8.
#[repr(align(16))]
pub struct Bytes(pub [u8; 256]);

/// Block 6 of all words of a pair, with 15 bits of the payload and then a zero in each word.
#[repr(align(16))]
struct Block6([u8; 64]);

/// The bits of eight words are 15 bytes, and those of word n begin n bits before byte 2n. The last of them are read from where two
/// bytes more follow.
#[inline(never)]
fn block6(payload: &[u8; 444]) -> Block6 {
    let mut end = [0; 18];
    end[..16].copy_from_slice(&payload[428..]);
    let mut block6 = [0; 64];
    for n in 0..8 {
        for g in 0..4 {
            let from = if g < 3 {
                &payload[383 + 15 * g..]
            } else {
                &end
            };
            let number = |at: usize| u16::from_be_bytes([from[at], from[at + 1]]);
            let own = number(2 * n) << (8 - n) | number(2 * n + 2) >> (8 + n);
            block6[16 * g + 2 * n..][..2].copy_from_slice(&(own & 0xFFFE).to_be_bytes());
        }
    }
    Block6(block6)
}

/// The words of a row without their check bits. The payload has them block by block, and four riffles bring the blocks together.
#[inline(never)]
fn words<const ROW: usize>(payload: &[u8; 444], Block6(block6): &Block6) -> Bytes {
    let mut blocks = [0; 256];
    for c in 0..6 {
        blocks[32 * c..][..32].copy_from_slice(&payload[64 * c + 32 * ROW..][..32]);
    }
    blocks[192..224].copy_from_slice(&block6[32 * ROW..][..32]);
    Bytes(riffle(&riffle(&riffle(&riffle(&blocks)))))
}

/// Check bits in bytes: eight numbers for each r < 8, one of them for the words r and r + 8 of a row. Those with the first byte of
/// block 7 are at `FIRST`, by rows, those with its second byte at `SECOND`, and those with the second byte of block 6 before these.
/// Eight numbers more are in front.
#[repr(align(16))]
struct Checks([u16; 72]);

const FIRST: [usize; 2] = [0, 1];
const SECOND: [usize; 2] = [4, 6];

/// The same before they are transposed: eight numbers for each j < 8, at j ^ 7, with bit j of each byte.
#[repr(align(16))]
struct Columns([u16; 64]);

/// Block 6 has one check bit, its last, and block 7 has sixteen.
#[inline(never)]
fn put_columns(four: &Four, Columns(columns): &mut Columns) {
    let (bits, last) = check_bits(four);
    let mut put = |at: usize, places: [usize; 2], bits: u32| {
        columns[at + places[0]] = bits as u16;
        columns[at + places[1]] = (bits >> 16) as u16;
    };
    put(0, SECOND.map(|at| at - 1), bits[0]);
    for j in 0..8 {
        put(8 * (j ^ 7), FIRST, bits[1 + j]);
        put(8 * (j ^ 7), SECOND, if j < 7 { bits[9 + j] } else { last });
    }
}

/// In three steps, as for the sums.
#[inline(never)]
fn transposed(Columns(columns): &Columns) -> Checks {
    let mut checks = [0; 72];
    for n in 0..8 {
        let mut b = [0; 8];
        for j in 0..8 {
            b[j] = columns[8 * j + n];
        }
        for r in 0..4 {
            transpose(&mut b, r, 4, 0x0F0F);
        }
        for r in [0, 4] {
            transpose_four(&mut b, r);
        }
        for r in 0..8 {
            checks[8 + 8 * r + n] = b[r ^ 7];
        }
    }
    Checks(checks)
}

/// The blocks with check bits in their first byte, and those with check bits in their second.
const CHECKED: [[u16; 8]; 2] = [
    [0, 0, 0, 0, 0, 0, 0, 0xFFFF],
    [0, 0, 0, 0, 0, 0, 0xFFFF, 0xFFFF],
];

/// Columns exchanged by ^r, for r < 8.
#[inline(always)]
fn by_columns(mut number: u16, r: usize) -> u16 {
    if r & 4 != 0 {
        number = exchanged(number, 4, 0x0F0F);
    }
    if r & 2 != 0 {
        number = exchanged(number, 2, 0x3333);
    }
    if r & 1 != 0 {
        number = exchanged(number, 1, 0x5555);
    }
    number
}

/// The bit rows of a row, with their check bits and their columns exchanged by ^r, into the coded pair and the newest of the history.
#[inline(never)]
fn put_row<const ROW: usize>(
    Bytes(words): &Bytes,
    Checks(checks): &Checks,
    coded: &mut [u8; 512],
    newest: &mut [u8; 512],
) {
    for c in 0..8 {
        for r in 0..8 {
            let mut b = [0; 2];
            for j in 0..2 {
                let own = number(words, 32 * r + 16 * j + 2 * c);
                let from = 1 + 8 * r + [FIRST, SECOND][j][ROW];
                b[j] = by_columns(own | checks[from + c] & CHECKED[j][c], r);
            }
            let own = [b[0] & 0x00FF | b[1] << 8, b[1] >> 8 | b[0] & 0xFF00];
            for h in 0..2 {
                let at = 256 * ROW + 128 * h + 16 * r + 2 * c;
                coded[at..][..2].copy_from_slice(&own[h].to_le_bytes());
                newest[at..][..2].copy_from_slice(&own[h].to_le_bytes());
            }
        }
    }
}

/// Moves parts of the history down by a pair. There are ten, and all but the first begin where a line of the cache does.
#[inline(always)]
fn move_down(pairs: &mut [u8; 5120], parts: std::ops::Range<usize>) {
    let line = pairs.as_ptr().align_offset(64) & 63;
    for n in parts {
        let from = if n == 0 { 0 } else { line + 512 * (n - 1) };
        let to = if n == 9 { 4608 } else { line + 512 * n };
        pairs.copy_within(from + 512..to + 512, from);
    }
}

/// The coded pair and its history; front halves count where it is full.
///
/// The history moves in parts, each of them while what follows is computed.
#[inline(never)]
fn encode(payload: &[u8; 444], coded: &mut [u8; 512], pairs: &mut [u8; 5120], full: bool) {
    let block6 = block6(payload);
    let front0 = front_sums::<256>(pairs, full);
    let front1 = front_sums::<0>(pairs, full);
    let words0 = words::<0>(payload, &block6);
    let words1 = words::<1>(payload, &block6);
    let sums0 = byte_sums(&words0, &front0);
    move_down(pairs, 0..1);
    let sums1 = byte_sums(&words1, &front1);
    move_down(pairs, 1..2);
    let four = join_to_four(&sums0, &sums1);
    move_down(pairs, 2..4);
    let mut columns = Columns([0; 64]);
    put_columns(&four, &mut columns);
    move_down(pairs, 4..7);
    let checks = transposed(&columns);
    move_down(pairs, 7..10);
    let newest = pairs.last_chunk_mut().expect("512 bytes");
    put_row::<0>(&words0, &checks, coded, newest);
    put_row::<1>(&words1, &checks, coded, newest);
}

pub fn encode_pair(
    payload: &[u8],
    coded: &mut [u8],
    history: &mut [u8],
    encoder: u32,
    pair: u32,
) -> Outcome {
    let (Ok(payload), Ok(coded), Ok(history)) =
        (payload.try_into(), coded.try_into(), history.try_into())
    else {
        return Outcome::refused_pair(MISFIT, pair);
    };
    judged(history, encoder, pair, |pairs, full| {
        encode(payload, coded, pairs, full)
    })
}
