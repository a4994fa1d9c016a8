//! The flips of words whose sums are not all zero, from S1, S3 and parity by tables.
//!
//! Bit k has the locator X = b^(7-k), and bit 255 has X = 0. So S1 is the sum of the locators of the wrong bits, and S3 is that of
//! their cubes times b^210 = a^45. For two wrong bits X and Y, what S3 and a^45 S1^3 differ by is a^45 XY(X+Y). Divided by a^45 S1^3
//! it is u^2 + u for u = X/(X+Y). So X is a root u times S1, and Y is X + S1.

use ofec_tests::word::{BACK, LOST};

/// a^0 to a^511.
static POWERS: [u8; 512] = {
    let mut powers = [1; 512];
    let mut n = 1;
    while n < 512 {
        let twice = powers[n - 1] as u16 * 2;
        powers[n] = if twice < 256 { twice } else { twice ^ 0x11D } as u8;
        n += 1;
    }
    powers
};

/// Entry x is the exponent of x; that of 0 is not used.
static LOGS: [u8; 256] = {
    let mut logs = [0; 256];
    let mut n = 0;
    while n < 255 {
        logs[POWERS[n] as usize] = n as u8;
        n += 1;
    }
    logs
};

/// The same for numbers as S3 is held, whose bit i stands for a^(3i).
static LOGS_OF_S3: [u8; 256] = {
    let mut logs = [0; 256];
    let mut held = 1;
    while held < 256 {
        let (mut x, mut i) = (0, 0);
        while i < 8 {
            if held >> i & 1 == 1 {
                x ^= POWERS[3 * i];
            }
            i += 1;
        }
        logs[held] = LOGS[x as usize];
        held += 1;
    }
    logs
};

/// Entry x is a^45 x^3, as S3 is held.
static CUBES: [u8; 256] = {
    let mut by_log = [0; 255];
    let mut held = 1;
    while held < 256 {
        by_log[LOGS_OF_S3[held] as usize] = held as u8;
        held += 1;
    }
    let mut cubes = [0; 256];
    let mut x = 1;
    while x < 256 {
        cubes[x] = by_log[(45 + 3 * LOGS[x] as usize) % 255];
        x += 1;
    }
    cubes
};

/// Entry x: what is added to an exponent to divide by a^45 x^3.
static INVERSES: [u8; 256] = {
    let mut inverses = [0; 256];
    let mut x = 1;
    while x < 256 {
        inverses[x] = 255 - LOGS_OF_S3[CUBES[x] as usize];
        x += 1;
    }
    inverses
};

const NO_ROOT: u8 = 255;

/// Entry n is the exponent of a root of u^2 + u = a^n, if there is one.
static ROOTS: [u8; 512] = {
    let mut roots = [NO_ROOT; 512];
    let mut n = 1;
    while n < 255 {
        let sum = LOGS[(POWERS[2 * n] ^ POWERS[n]) as usize] as usize;
        roots[sum] = n as u8;
        roots[sum + 255] = n as u8;
        n += 1;
    }
    roots
};

/// Entry X is the bit with this locator.
static PLACES: [u8; 256] = {
    let mut places = [255; 256];
    let mut k = 0;
    while k < 255 {
        places[POWERS[16 * (262 - k) % 255] as usize] = k as u8;
        k += 1;
    }
    places
};

#[inline(always)]
fn transpose(b: &mut [u64; 8], i: usize, d: usize, m: u64) {
    let t = (b[i] >> d ^ b[i + d]) & m;
    b[i + d] ^= t;
    b[i] ^= t << d;
}

/// S1 of the word at bit q of the sums in byte q / 8 of number q % 8, and S3 four bytes above.
#[inline(always)]
fn by_word(sums: &[u32; 17]) -> [u64; 8] {
    let mut b = std::array::from_fn(|i| u64::from(sums[i]) | u64::from(sums[i + 8]) << 32);
    for i in [0, 1, 2, 3] {
        transpose(&mut b, i, 4, 0x0F0F_0F0F_0F0F_0F0F);
    }
    for i in [0, 1, 4, 5] {
        transpose(&mut b, i, 2, 0x3333_3333_3333_3333);
    }
    for i in [0, 2, 4, 6] {
        transpose(&mut b, i, 1, 0x5555_5555_5555_5555);
    }
    b
}

/// Where bit k of a word is in the payload: at this bit for word 0, and so many bits further from word to word. The masks are zero
/// where it is not in the back half or not in the payload, so that a flip needs no branch.
#[derive(Clone, Copy)]
struct Bit {
    at: u16,
    step: u8,
    back: u8,
    payload: u8,
}

static BITS: [Bit; 256] = {
    let none = Bit {
        at: 0,
        step: 0,
        back: 0,
        payload: 0,
    };
    let mut bits = [none; 256];
    let mut k = 0;
    while k < 128 {
        bits[128 + k].back = 0xFF;
        if k < 111 {
            bits[128 + k] = Bit {
                at: (k / 16 * 512 + k % 16) as u16,
                step: if k < 96 { 16 } else { 15 },
                back: 0xFF,
                payload: 0xFF,
            };
        }
        k += 1;
    }
    bits
};

/// Flips bit k of word n in the newest pair and in the payload, as far as it is there.
#[inline(always)]
fn flip(payload: &mut [u8; 444], newest: &mut [u8; 512], n: usize, k: usize) {
    let bit = &BITS[k];
    let c = (k % 16) ^ (n % 16);
    newest[16 * n + k % 128 / 16 * 2 + c / 8] ^= 0x80 >> (c % 8) & bit.back;
    let at = usize::from(bit.at) + usize::from(bit.step) * n;
    payload[at / 8] ^= 0x80 >> (at % 8) & bit.payload;
}

/// The numbers of the set bits.
#[inline(always)]
fn set_bits(mut left: u32) -> impl Iterator<Item = usize> {
    std::iter::from_fn(move || {
        let next = (left != 0).then(|| left.trailing_zeros() as usize);
        left &= left.wrapping_sub(1);
        next
    })
}

/// The locator of one of two wrong bits; `rest` is what S3 and a^45 S1^3 differ by.
#[inline(always)]
fn locator(s1: usize, rest: usize) -> Option<usize> {
    if s1 == 0 {
        return None;
    }
    // Bit 255 is one of them.
    if rest == 0 {
        return Some(0);
    }
    let root = ROOTS[usize::from(LOGS_OF_S3[rest]) + usize::from(INVERSES[s1])];
    (root != NO_ROOT).then(|| usize::from(POWERS[usize::from(LOGS[s1]) + usize::from(root)]))
}

/// Repairs the words whose bits are set in `dirty`, and sets their marks: first those of odd parity, which can have one flip, and
/// then those that can have two.
#[inline(never)]
pub fn repair(
    sums: &[u32; 17],
    dirty: u32,
    payload: &mut [u8; 444],
    marks: &mut [u8; 32],
    newest: &mut [u8; 512],
    full: bool,
) {
    let by_word = by_word(sums);
    let s1_and_rest = |q: usize| {
        let both = by_word[q % 8] >> (q & 24);
        let [s1, s3] = [both as u8, (both >> 32) as u8].map(usize::from);
        (s1, usize::from(CUBES[s1]) ^ s3)
    };
    let place = |x: usize| usize::from(PLACES[x]);
    let first = if full { 0 } else { BACK };
    for q in set_bits(sums[16]) {
        let (s1, rest) = s1_and_rest(q);
        let k = place(s1);
        marks[q ^ 7] = if rest == 0 && k >= first {
            flip(payload, newest, q ^ 7, k);
            1
        } else {
            LOST as u8
        };
    }
    for q in set_bits(dirty & !sums[16]) {
        let (s1, rest) = s1_and_rest(q);
        let places = locator(s1, rest).map(|x| [place(x), place(x ^ s1)]);
        marks[q ^ 7] = match places {
            Some([i, j]) if i >= first && j >= first => {
                flip(payload, newest, q ^ 7, i);
                flip(payload, newest, q ^ 7, j);
                2
            }
            _ => LOST as u8,
        };
    }
}
