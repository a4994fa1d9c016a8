//! Roots.

use crate::same_structure::gf256::tables::{LOGS, POWERS};

/// Entry c: a y that is not 0 with y y + y = c, the smaller of two, or 0 where there is none.
pub const ROOTS: [u8; 256] = roots();

const fn roots() -> [u8; 256] {
    let mut roots = [0; 256];
    let mut y = 255;
    while 0 < y {
        let square = POWERS[LOGS[y] as usize * 2 % 255];
        roots[square as usize ^ y] = y as u8;
        y -= 1;
    }
    roots
}
