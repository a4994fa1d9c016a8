//! crates/permutation_core: the permutations of a block, in four stages each: bit rows k and k+8 give bit rows 2k and 2k+1.
//!
//! Four functions are marked for inlining. Three are called in loops over eight blocks: compiled apart from these loops, they keep the
//! compiler from making vectors of them, and the receiver takes four times as long. For `transpose_two` the mark makes no difference that
//! was measured.

use super::blocks::{choose, Block};

/// Two bit rows exchange the columns of m, in two stages: first those that lie eight apart in the block, then those that lie four apart.
fn rows_four(w: u16, x: u16, y: u16, z: u16, m: u16, n: u16) -> [u16; 4] {
    let a = choose(m, y, w);
    let b = choose(m, z, x);
    let c = choose(m, w, y);
    let d = choose(m, x, z);
    [
        choose(n, b, a),
        choose(n, a, b),
        choose(n, d, c),
        choose(n, c, d),
    ]
}

/// The two stages of a whole block.
fn rows_stages(b: Block, m: u16, n: u16) -> Block {
    let mut out = [0; 16];
    for k in 0..4 {
        let r = rows_four(b[k], b[4 + k], b[8 + k], b[12 + k], m, n);
        out[4 * k] = r[0];
        out[4 * k + 1] = r[1];
        out[4 * k + 2] = r[2];
        out[4 * k + 3] = r[3];
    }
    out
}

/// Of two bit rows the second exchanges the columns of m with those n before them.
fn columns_stage(b: Block, m: u16, n: usize) -> Block {
    let mut out = [0; 16];
    for k in 0..8 {
        let y = b[8 + k];
        out[2 * k] = b[k];
        out[2 * k + 1] = choose(m, y >> n, y << n);
    }
    out
}

/// The columns of m of the first change places with those n before them of the second.
fn crossed(x: u16, y: u16, m: u16, n: usize) -> [u16; 2] {
    let d = (x ^ (y >> n)) & m;
    [x ^ d, y ^ (d << n)]
}

fn crossed_two(x: u32, y: u32, m: u32, n: usize) -> [u32; 2] {
    let d = (x ^ (y >> n)) & m;
    [x ^ d, y ^ (d << n)]
}

fn crossed_eight(x: u64, y: u64, m: u64, n: usize) -> [u64; 2] {
    let d = (x ^ (y >> n)) & m;
    [x ^ d, y ^ (d << n)]
}

/// So do those of two bit rows of a block.
fn cross_stage(b: Block, m: u16, n: usize) -> Block {
    let mut out = [0; 16];
    for k in 0..8 {
        let [first, second] = crossed(b[k], b[8 + k], m, n);
        out[2 * k] = first;
        out[2 * k + 1] = second;
    }
    out
}

/// The same of two blocks side by side.
fn cross_stage_two(b: [u32; 16], m: u32, n: usize) -> [u32; 16] {
    let mut out = [0; 16];
    for k in 0..8 {
        let [first, second] = crossed_two(b[k], b[8 + k], m, n);
        out[2 * k] = first;
        out[2 * k + 1] = second;
    }
    out
}

/// The same of eight blocks of 8 by 8 bits side by side.
fn cross_stage_eight(b: [u64; 8], m: u64, n: usize) -> [u64; 8] {
    let mut out = [0; 8];
    for k in 0..4 {
        let [first, second] = crossed_eight(b[k], b[4 + k], m, n);
        out[2 * k] = first;
        out[2 * k + 1] = second;
    }
    out
}

/// In column c, bit row i changes places with bit row i^c.
#[inline]
pub fn exchange_rows(b: Block) -> Block {
    let u = rows_stages(b, 0x00FF, 0x0F0F);
    rows_stages(u, 0x3333, 0x5555)
}

/// In bit row i, column c changes places with column c^i.
#[inline]
pub fn exchange_columns(b: Block) -> Block {
    let t = columns_stage(b, 0x00FF, 8);
    let u = columns_stage(t, 0x0F0F, 4);
    let v = columns_stage(u, 0x3333, 2);
    columns_stage(v, 0x5555, 1)
}

/// Bit row i, column c changes places with bit row c, column i.
#[inline]
pub fn transpose(b: Block) -> Block {
    let t = cross_stage(b, 0x00FF, 8);
    let u = cross_stage(t, 0x0F0F, 4);
    let v = cross_stage(u, 0x3333, 2);
    cross_stage(v, 0x5555, 1)
}

/// Two blocks side by side, each transposed.
#[inline]
pub fn transpose_two(b: [u32; 16]) -> [u32; 16] {
    let t = cross_stage_two(b, 0x00FF_00FF, 8);
    let u = cross_stage_two(t, 0x0F0F_0F0F, 4);
    let v = cross_stage_two(u, 0x3333_3333, 2);
    cross_stage_two(v, 0x5555_5555, 1)
}

/// Eight blocks of 8 by 8 bits side by side, each transposed.
pub fn transpose_eight(b: [u64; 8]) -> [u64; 8] {
    let u = cross_stage_eight(b, 0x0F0F_0F0F_0F0F_0F0F, 4);
    let v = cross_stage_eight(u, 0x3333_3333_3333_3333, 2);
    cross_stage_eight(v, 0x5555_5555_5555_5555, 1)
}
