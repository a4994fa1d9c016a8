//! S1, S3 and the parity of the words of a pair, each bit of these sums for all words side by side.
//!
//! Let b = a^16, which is a root of the same factor of g as a. S1 is the sum of b^(7-k) and S3 that of b^(3(77-k)), over the set bits
//! k < 255 of a word. So the step from bit to bit is a factor b, and that from block to block is b^16 = a, by which blocks are joined
//! at little cost. With 7 and 77 the sums of a block take few additions.
//!
//! Sums 0 to 7 are the coefficients of S1 by 1, a, .., a^7, sums 8 to 15 are those of S3 by 1, a^3, .., a^21, and sum 16 is the
//! parity. Word r is bit r ^ 7 of each.

use super::encode::Bytes;
use super::number;
use super::receive::{place, Words};

/// The sums of a row's words over each block by itself: sum k over block c at 8k + c.
#[repr(align(16))]
pub struct Sums([u16; 136]);

/// Of the two numbers named in each place, the second is added to the first.
macro_rules! add {
    ($x:ident, $($to:literal $from:literal),*) => {
        $($x[$to] ^= $x[$from];)*
    };
}

/// Bits with d of number r and bits without d of number r + d change places; `m` has the bits without d.
#[inline(always)]
pub fn transpose<const N: usize>(b: &mut [u16; N], r: usize, d: usize, m: u16) {
    let t = (b[r] >> d ^ b[r + d]) & m;
    b[r + d] ^= t;
    b[r] ^= t << d;
}

/// The same for d = 2 and d = 1, in the four numbers from r on.
#[inline(always)]
pub fn transpose_four<const N: usize>(b: &mut [u16; N], r: usize) {
    transpose(b, r, 2, 0x3333);
    transpose(b, r + 1, 2, 0x3333);
    transpose(b, r, 1, 0x5555);
    transpose(b, r + 2, 1, 0x5555);
}

/// The same for d = 8.
#[inline(always)]
fn transpose_bytes(b: &mut [u16; 16], r: usize) {
    let (x, y) = (b[r], b[r + 8]);
    b[r] = x & 0x00FF | y << 8;
    b[r + 8] = x >> 8 | y & 0xFF00;
}

/// Bit 255 of the words is in the last block, and counts for the parity alone.
const LAST: [u16; 8] = [0, 0, 0, 0, 0, 0, 0, 0xFFFF];

/// The sums over the back halves, added to those over the front halves.
#[inline(never)]
pub fn back_sums(Words(words): &Words, Sums(front): &Sums) -> Sums {
    let mut sums = [0; 136];
    for c in 0..8 {
        let mut b = [0; 16];
        for r in 0..16 {
            b[r ^ 7] = words[8 * place(r) + c];
        }
        // In four steps bit j of the words becomes number j ^ 7.
        for r in 0..4 {
            transpose_bytes(&mut b, r);
            transpose_bytes(&mut b, r + 4);
            transpose(&mut b, r, 4, 0x0F0F);
            transpose(&mut b, r + 8, 4, 0x0F0F);
        }
        for r in [0, 4, 8, 12] {
            transpose_four(&mut b, r);
        }
        let last = b[8] & LAST[c];
        b[8] ^= last;
        let (s, parity) = sums_of_back(b);
        for k in 0..16 {
            sums[8 * k + c] = s[k] ^ front[8 * k + c];
        }
        sums[128 + c] = parity ^ last ^ front[128 + c];
    }
    Sums(sums)
}

/// The same for words in bytes, in which bits 239 to 255 are zero.
#[inline(never)]
pub fn byte_sums(Bytes(words): &Bytes, Sums(front): &Sums) -> Sums {
    let mut sums = [0; 136];
    for c in 0..8 {
        let mut b = [0; 16];
        for j in 0..2 {
            for r in 0..8 {
                b[8 * j + (r ^ 7)] = number(words, 32 * r + 16 * j + 2 * c);
            }
            for r in 0..4 {
                transpose(&mut b, 8 * j + r, 4, 0x0F0F);
            }
            transpose_four(&mut b, 8 * j);
            transpose_four(&mut b, 8 * j + 4);
        }
        let (s, parity) = sums_of_back(b);
        for k in 0..16 {
            sums[8 * k + c] = s[k] ^ front[8 * k + c];
        }
        sums[128 + c] = parity ^ front[128 + c];
    }
    Sums(sums)
}

/// The list of additions was searched for, and is short.
#[inline(always)]
fn sums_of_back(mut x: [u16; 16]) -> ([u16; 16], u16) {
    add!(x, 3 7, 10 4, 11 6, 9 12, 10 9, 7 5, 5 15, 7 10, 12 5, 5 14, 14 3, 14 8, 3 13, 15 2);
    add!(x, 13 11, 13 2, 2 5, 11 1);
    let parity = x[0] ^ x[2] ^ x[3] ^ x[8] ^ x[10] ^ x[11];
    add!(x, 5 1, 0 5, 0 9, 15 10, 15 3, 3 12, 5 12, 4 5, 5 11, 1 7, 12 1, 8 13, 1 2, 4 15, 7 8);
    add!(x, 14 9, 9 1, 1 0, 13 0, 13 4, 11 3, 10 13, 0 6, 6 14);
    let s1 = [x[6], x[11], x[10], x[1], x[2], x[13], x[5], x[7]];
    let s3 = [x[0], x[4], x[14], x[9], x[15], x[8], x[3], x[12]];
    (both(s1, s3), parity)
}

#[inline(always)]
fn both<T: Copy>(s1: [T; 8], s3: [T; 8]) -> [T; 16] {
    let [a, b, c, d, e, f, g, h] = s1;
    let [i, j, k, l, m, n, o, p] = s3;
    [a, b, c, d, e, f, g, h, i, j, k, l, m, n, o, p]
}

/// Bit j of word r is in bit row j ^ r and column r. So two bit rows whose numbers differ by d are in the other order for words that
/// have d, which are in `m`. Their sum stands for the first of them: it is the same in both orders, and sums of it and of the second
/// give as much. The sum of all bit rows, which stands for the very first, is the parity.
#[inline(always)]
fn weave(b: &mut [u16; 16], i: usize, d: usize, m: u16) {
    let sum = b[i] ^ b[i + d];
    b[i + d] ^= sum & m;
    b[i] = sum;
}

/// The sums over the front halves, zero where they do not count. Of each pair the bit rows from byte `FROM` on are read.
#[inline(never)]
pub fn front_sums<const FROM: usize>(pairs: &[u8; 5120], full: bool) -> Sums {
    let mut sums = [0; 136];
    if !full {
        return Sums(sums);
    }
    for c in 0..8 {
        let mut b = [0; 16];
        for i in 0..4 {
            for j in [i, i + 4, i + 8, i + 12] {
                b[j] = number(pairs, 514 * c + FROM + 16 * j);
            }
            weave(&mut b, i, 8, 0xFF00);
            weave(&mut b, i + 4, 8, 0xFF00);
            weave(&mut b, i, 4, 0xF0F0);
            weave(&mut b, i + 8, 4, 0xF0F0);
        }
        for i in [0, 4, 8, 12] {
            weave(&mut b, i, 2, 0xCCCC);
            weave(&mut b, i + 1, 2, 0xCCCC);
            weave(&mut b, i, 1, 0xAAAA);
            weave(&mut b, i + 2, 1, 0xAAAA);
        }
        let s = sums_of_front(b);
        for k in 0..16 {
            sums[8 * k + c] = s[k];
        }
        sums[128 + c] = b[0];
    }
    Sums(sums)
}

/// S1 and S3 as if the block were 128 bits before that of the back half. The list was searched for as well.
#[inline(always)]
fn sums_of_front(mut x: [u16; 16]) -> [u16; 16] {
    add!(x, 6 10, 10 4, 1 10, 11 14, 0 2, 11 0, 15 2, 10 13, 5 12, 4 8, 12 3, 8 3, 3 0, 3 4, 0 7);
    add!(x, 7 5, 7 14, 7 13, 1 0, 8 13, 8 4, 13 9, 13 12, 0 13, 12 6, 2 12, 12 0, 2 11, 14 15);
    add!(x, 14 4, 15 10, 15 1, 4 11, 10 11, 0 11, 9 0, 9 10, 4 1, 12 4, 13 7, 1 7, 7 14, 7 12);
    add!(x, 5 11, 9 8, 4 8, 6 13, 11 13, 13 8);
    let s1 = [x[7], x[2], x[0], x[9], x[11], x[4], x[6], x[8]];
    let s3 = [x[15], x[10], x[5], x[14], x[12], x[1], x[3], x[13]];
    both(s1, s3)
}

/// The sums over all blocks, the words of the first row in the lower half: eight blocks become four, two and one.
#[inline(never)]
pub fn join(row0: &Sums, row1: &Sums) -> [u32; 17] {
    one(&four(row0, row1))
}

/// The sums over blocks c and c + 4, for c < 4: sum k at 4k + c.
#[repr(align(16))]
pub struct Four([u32; 68]);

/// The first step of `join`, apart.
#[inline(never)]
pub fn join_to_four(row0: &Sums, row1: &Sums) -> Four {
    four(row0, row1)
}

#[inline(always)]
fn four(Sums(row0): &Sums, Sums(row1): &Sums) -> Four {
    let rows = |n: usize| u32::from(row0[n]) | u32::from(row1[n]) << 16;
    let mut four = [0; 68];
    for c in 0..4 {
        let mut s = [0; 16];
        for k in 0..16 {
            s[k] = rows(8 * k + c);
        }
        s = times_a4(s);
        for k in 0..16 {
            four[4 * k + c] = s[k] ^ rows(8 * k + c + 4);
        }
        four[64 + c] = rows(128 + c) ^ rows(132 + c);
    }
    Four(four)
}

#[inline(always)]
fn one(Four(four): &Four) -> [u32; 17] {
    let two = |n: usize| u64::from(four[2 * n]) | u64::from(four[2 * n + 1]) << 32;
    let mut x = [0; 16];
    for k in 0..16 {
        x[k] = two(2 * k);
    }
    x = times_a2(x);
    for k in 0..16 {
        x[k] ^= two(2 * k + 1);
    }
    let parity = two(32) ^ two(33);
    let s = times_a(x);
    let mut one = [0; 17];
    for k in 0..16 {
        one[k] = (s[k] ^ x[k] >> 32) as u32;
    }
    one[16] = (parity ^ parity >> 32) as u32;
    one
}

/// The other steps, and bits 239 to 254 of the words and bit 255, with which all sums become zero. The list was searched for as well.
#[inline(always)]
pub fn check_bits(four: &Four) -> ([u32; 16], u32) {
    let [mut x @ .., parity] = one(four);
    add!(x, 7 11, 11 3, 12 9);
    let last = parity ^ x[2] ^ x[4] ^ x[5] ^ x[6] ^ x[11] ^ x[14];
    add!(x, 14 1, 12 14, 1 7, 9 5, 7 9, 1 10, 9 13, 4 7, 8 9, 15 9, 9 11, 2 12, 11 4, 0 8, 14 11);
    add!(x, 2 0, 0 10, 12 6, 5 6, 6 14, 15 6, 3 15, 6 1, 10 5, 4 2, 4 6, 10 9, 13 14, 15 12);
    add!(x, 5 15, 7 3, 3 0, 13 3, 15 10, 14 8, 9 1, 10 2, 5 6, 2 7);
    let first = [x[0], x[15], x[8], x[2], x[12], x[5], x[3], x[11]];
    let second = [x[7], x[4], x[6], x[13], x[1], x[14], x[10], x[9]];
    (both(first, second), last)
}

/// S1 times a^4, and S3 times a^12.
#[inline(always)]
fn times_a4(mut x: [u32; 16]) -> [u32; 16] {
    add!(x, 3 7, 0 5, 7 4, 6 4, 2 6, 2 7, 1 6, 7 5, 1 7, 0 6);
    add!(x, 15 12, 15 14, 8 12, 9 13, 14 13, 13 12, 10 13, 11 14, 9 15, 12 14);
    let s1 = [x[4], x[5], x[6], x[7], x[0], x[1], x[2], x[3]];
    let s3 = [x[15], x[12], x[13], x[14], x[8], x[9], x[10], x[11]];
    both(s1, s3)
}

/// S1 times a^2, and S3 times a^6.
#[inline(always)]
fn times_a2(mut x: [u64; 16]) -> [u64; 16] {
    add!(x, 1 7, 1 6, 2 6, 2 7, 3 7, 0 6);
    add!(x, 9 15, 13 15, 10 14, 15 14, 11 15, 8 15, 12 15);
    let s1 = [x[6], x[7], x[0], x[1], x[2], x[3], x[4], x[5]];
    let s3 = [x[14], x[15], x[8], x[9], x[10], x[11], x[12], x[13]];
    both(s1, s3)
}

/// S1 times a, and S3 times a^3.
#[inline(always)]
fn times_a(mut x: [u64; 16]) -> [u64; 16] {
    add!(x, 2 7, 3 7, 1 7);
    add!(x, 12 15, 9 15, 11 15, 8 15, 13 15);
    let s1 = [x[7], x[0], x[1], x[2], x[3], x[4], x[5], x[6]];
    let s3 = [x[15], x[8], x[9], x[10], x[11], x[12], x[13], x[14]];
    both(s1, s3)
}
