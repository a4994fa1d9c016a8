//! crates/gathering_core: S1 and S3 of the words side by side: of each block, for the words of a row; then, for those of both rows, of
//! two blocks, of four and of all eight. A lane is one of eight columns of sixteen numbers, number 8i+C in lane C.

use super::blocks::{lay, Block, BlockRow};
use super::numbers::pair_up;
use super::{block_sums_core, moved_sums_core};

fn lane_of_row(x: &BlockRow, c: usize) -> Block {
    let mut v = [0; 16];
    for i in 0..16 {
        v[i] = x[8 * i + c];
    }
    v
}

fn add_of_row(a: &Block, b: &Block) -> Block {
    let mut v = [0; 16];
    for i in 0..16 {
        v[i] = a[i] ^ b[i];
    }
    v
}

/// The sums of block C of both halves.
fn halves_lane(x: &BlockRow, y: &BlockRow, c: usize) -> Block {
    let f = lane_of_row(x, c);
    let b = lane_of_row(y, c);
    let s = block_sums_core::front(&f);
    let t = block_sums_core::back(&b);
    add_of_row(&s, &t)
}

/// Those of all eight blocks, of the words whose front halves are x and back halves y.
pub fn by_eight(x: &BlockRow, y: &BlockRow) -> BlockRow {
    let mut z = [0; 128];
    for c in 0..8 {
        lay(&mut z, c, halves_lane(x, y, c));
    }
    z
}

/// Their parities.
pub fn row_parities(x: &BlockRow, y: &BlockRow) -> u16 {
    let mut p = 0;
    for n in 0..128 {
        p = p ^ (x[n] ^ y[n]);
    }
    p
}

/// Two numbers of sixteen bits in one of 32.
pub fn join(a: u16, b: u16) -> u32 {
    u32::from(a) * 65536 + u32::from(b)
}

/// Two rows in one.
fn join_rows(a: &BlockRow, b: &BlockRow) -> [u32; 128] {
    let mut x = [0; 128];
    for n in 0..128 {
        x[n] = join(a[n], b[n]);
    }
    x
}

fn lane(x: &[u32; 128], c: usize) -> [u32; 16] {
    let mut v = [0; 16];
    for i in 0..16 {
        v[i] = x[8 * i + c];
    }
    v
}

fn put_lane(z: &mut [u32; 128], c: usize, v: [u32; 16]) {
    for i in 0..16 {
        z[8 * i + c] = v[i];
    }
}

fn add(a: &[u32; 16], b: &[u32; 16]) -> [u32; 16] {
    let mut v = [0; 16];
    for i in 0..16 {
        v[i] = a[i] ^ b[i];
    }
    v
}

/// The sums of blocks that lie 64 places apart.
fn lane_64(z: &[u32; 128], c: usize) -> [u32; 16] {
    let f = lane(z, c);
    let b = lane(z, c + 4);
    let s = moved_sums_core::up64(&f);
    add(&s, &b)
}

/// Of eight sums four.
fn by_four(x: &[u32; 128]) -> [u32; 128] {
    let mut z = [0; 128];
    for c in 0..4 {
        put_lane(&mut z, c, lane_64(x, c));
    }
    z
}

fn lower_half(x: u64) -> u32 {
    (x % 4294967296) as u32
}

fn upper_half(x: u64) -> u32 {
    (x / 4294967296) as u32
}

/// Lanes C and C + 1, the second in the upper halves.
fn two_lanes(z: &[u32; 128], c: usize) -> [u64; 16] {
    let mut v = [0; 16];
    for i in 0..16 {
        v[i] = pair_up(z[8 * i + c + 1], z[8 * i + c]);
    }
    v
}

fn add_wide(a: &[u64; 16], b: &[u64; 16]) -> [u64; 16] {
    let mut v = [0; 16];
    for i in 0..16 {
        v[i] = a[i] ^ b[i];
    }
    v
}

fn lower_halves(z: &[u64; 16]) -> [u32; 16] {
    let mut v = [0; 16];
    for i in 0..16 {
        v[i] = lower_half(z[i]);
    }
    v
}

fn upper_halves(z: &[u64; 16]) -> [u32; 16] {
    let mut v = [0; 16];
    for i in 0..16 {
        v[i] = upper_half(z[i]);
    }
    v
}

/// Of four sums two, both at once: those of blocks that lie 32 places apart.
fn by_two(z: &[u32; 128]) -> [u64; 16] {
    let f = two_lanes(z, 0);
    let b = two_lanes(z, 2);
    let s = moved_sums_core::up32(&f);
    add_wide(&s, &b)
}

/// Of these two one: those of blocks that lie sixteen places apart.
fn lane_16(z: &[u64; 16]) -> [u32; 16] {
    let f = lower_halves(z);
    let b = upper_halves(z);
    let s = moved_sums_core::up16(&f);
    add(&s, &b)
}

/// S1 and S3 of both rows' words, from those of each row block by block.
pub fn levels(a: &BlockRow, b: &BlockRow) -> [u32; 16] {
    let eight = join_rows(a, b);
    let four = by_four(&eight);
    let two = by_two(&four);
    lane_16(&two)
}
