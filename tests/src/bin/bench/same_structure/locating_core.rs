//! crates/locating_core: the repair that the syndromes of a word tell.

use super::gf256;

mod tables;

#[derive(Clone, Copy)]
pub struct Syndromes {
    pub s1: u8,
    pub s3: u8,
    pub parity: u8,
}

#[derive(Clone, Copy)]
pub enum Repair {
    Sound,
    One(usize),
    Two(usize, usize),
    Lost,
}

pub fn roots() -> [u8; 256] {
    tables::ROOTS
}

fn root_in(roots: &[u8; 256], c: u8) -> u8 {
    roots[c as usize]
}

fn place_of(x: u8, logs: &[u8; 256]) -> usize {
    if x == 0 {
        return 255;
    }
    254 - gf256::log_in(logs, x)
}

/// The two places of an even word whose S1 is not 0.
fn locate_two(
    s: Syndromes,
    table: &[u8; 255],
    logs: &[u8; 256],
    cubes: &[u8; 256],
    roots: &[u8; 256],
) -> Repair {
    let q = gf256::cube_in(cubes, s.s1);
    let c = gf256::over(s.s3 ^ q, q, table, logs);
    let y = root_in(roots, c);
    if y == 0 {
        return Repair::Lost;
    }
    let x = gf256::times(s.s1, y, table, logs);
    let i = place_of(x, logs);
    let j = place_of(x ^ s.s1, logs);
    if i < j {
        return Repair::Two(i, j);
    }
    Repair::Two(j, i)
}

fn locate(
    s: Syndromes,
    table: &[u8; 255],
    logs: &[u8; 256],
    cubes: &[u8; 256],
    roots: &[u8; 256],
) -> Repair {
    let Syndromes { s1, s3, parity } = s;
    if parity == 1 {
        if gf256::cube_in(cubes, s1) == s3 {
            return Repair::One(place_of(s1, logs));
        }
        return Repair::Lost;
    }
    if s1 == 0 {
        if s3 == 0 {
            return Repair::Sound;
        }
        return Repair::Lost;
    }
    locate_two(s, table, logs, cubes, roots)
}

fn confine(r: Repair, front: bool) -> Repair {
    match r {
        Repair::One(i) | Repair::Two(i, _) if !front && i < 128 => Repair::Lost,
        r => r,
    }
}

/// The repair of a word that has these syndromes; `front` says whether flips may fall in the front half.
pub fn repair_told(
    s: Syndromes,
    front: bool,
    table: &[u8; 255],
    logs: &[u8; 256],
    cubes: &[u8; 256],
    roots: &[u8; 256],
) -> Repair {
    confine(locate(s, table, logs, cubes, roots), front)
}
