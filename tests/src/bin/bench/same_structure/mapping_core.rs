//! crates/levels_core and crates/mapping_core: cells by tables that are filled once a call.

const LEVELS: [i8; 4] = [-3, -1, 3, 1];
const PAIRS: [u8; 4] = [0, 1, 3, 2];

fn level(a: u8, b: u8) -> i8 {
    LEVELS[(a * 2 + b) as usize]
}

pub fn bit_level(b: u8) -> i8 {
    if b == 0 {
        return -1;
    }
    1
}

fn ordinal(l: i8) -> u8 {
    (l + 3) as u8 / 2
}

fn bit_pair(k: u8) -> u8 {
    PAIRS[k as usize]
}

pub fn rails(i: i8, q: i8) -> u8 {
    4 * ordinal(i) + ordinal(q)
}

pub mod qam16 {
    use super::{bit_pair, level, rails};

    fn cell_byte(b: u8, h: usize) -> u8 {
        if h == 0 {
            let i = level(b / 128 % 2, b / 32 % 2);
            return rails(i, level(b / 8 % 2, b / 2 % 2));
        }
        let i = level(b / 64 % 2, b / 16 % 2);
        rails(i, level(b / 4 % 2, b % 2))
    }

    fn weave(x: u8, y: u8) -> u8 {
        let p = bit_pair(x);
        let q = bit_pair(y);
        p / 2 * 8 + q / 2 * 4 + p % 2 * 2 + q % 2
    }

    fn byte_of(x: u8, y: u8) -> u8 {
        weave(x / 4, y / 4) * 16 + weave(x % 4, y % 4)
    }

    fn cell_bytes(b: u8) -> u16 {
        u16::from(cell_byte(b, 0)) + u16::from(cell_byte(b, 1)) * 256
    }

    fn symbol_cells() -> [u16; 256] {
        let mut table = [0; 256];
        for b in 0..256 {
            table[b] = cell_bytes(b as u8);
        }
        table
    }

    pub fn map(bits: &[u8; 21504], cells: &mut [u8; 43008]) {
        let table = symbol_cells();
        for i in 0..21504 {
            let v = table[bits[i] as usize];
            cells[i * 2] = (v % 256) as u8;
            cells[i * 2 + 1] = (v / 256) as u8;
        }
    }

    fn cell_symbols() -> [u8; 256] {
        let mut table = [0; 256];
        for k in 0..256 {
            table[k] = byte_of((k / 16) as u8, (k % 16) as u8);
        }
        table
    }

    pub fn demap(cells: &[u8; 43008], bits: &mut [u8; 21504]) {
        let table = cell_symbols();
        for i in 0..21504 {
            // The cells are legal; so the index is below 256, as the type of the library's sum has it.
            let index = cells[i * 2].wrapping_mul(16).wrapping_add(cells[i * 2 + 1]);
            bits[i] = table[index as usize];
        }
    }
}
