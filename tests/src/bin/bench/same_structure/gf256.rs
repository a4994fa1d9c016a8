//! crates/gf256: what is read off its tables.

pub mod tables;

pub fn powers() -> [u8; 255] {
    tables::POWERS
}

pub fn logs() -> [u8; 256] {
    tables::LOGS
}

pub fn cubes() -> [u8; 256] {
    tables::CUBES
}

pub fn log_in(table: &[u8; 256], x: u8) -> usize {
    table[x as usize] as usize
}

pub fn cube_in(cubes: &[u8; 256], x: u8) -> u8 {
    cubes[x as usize]
}

/// x times y, of which neither is 0.
pub fn times(x: u8, y: u8, table: &[u8; 255], logs: &[u8; 256]) -> u8 {
    let i = log_in(logs, x);
    let j = log_in(logs, y);
    if i + j < 255 {
        return table[i + j];
    }
    table[i + j - 255]
}

/// x over y, which is not 0.
pub fn over(x: u8, y: u8, table: &[u8; 255], logs: &[u8; 256]) -> u8 {
    if x == 0 {
        return 0;
    }
    let i = log_in(logs, x);
    let j = log_in(logs, y);
    if i < j {
        return table[i + 255 - j];
    }
    table[i - j]
}
