//! crates/blocks: blocks of sixteen 16-bit rows, and the eight blocks of a row side by side.

pub type Block = [u16; 16];

/// The eight blocks of a row side by side: word i of block C is number 8i+C.
pub type BlockRow = [u16; 128];

/// Bytes j and j+1, the second the upper.
pub fn read_word(s: &[u8], j: usize) -> u16 {
    u16::from(s[j + 1]) * 256 + u16::from(s[j])
}

/// A row turned left by n columns.
pub fn turn(x: u16, n: usize) -> u16 {
    (x << n) | ((x >> 1) >> (15 - n))
}

/// The columns of m from x, the others from y.
pub fn choose(m: u16, x: u16, y: u16) -> u16 {
    y ^ ((x ^ y) & m)
}

/// Block C of a row.
pub fn block_of(row: &BlockRow, block: usize) -> Block {
    let mut b = [0; 16];
    for r in 0..16 {
        b[r] = row[8 * r + block];
    }
    b
}

/// Block C of words whose bytes stand the other way round.
pub fn block_in(words: &BlockRow, block: usize) -> Block {
    let mut b = [0; 16];
    for r in 0..16 {
        b[r] = turn(words[8 * r + block], 8);
    }
    b
}

/// Puts the words of block C into a row.
pub fn lay(row: &mut BlockRow, block: usize, b: Block) {
    for i in 0..16 {
        row[8 * i + block] = b[i];
    }
}

/// The bytes of a row, two a word.
pub fn write_row(row: &BlockRow, out: &mut [u8]) {
    for x in 0..128 {
        let w = row[x];
        out[2 * x] = (w / 256 % 256) as u8;
        out[2 * x + 1] = (w % 256) as u8;
    }
}

/// The bytes of a row of words whose bytes stand the other way round.
pub fn write_words(words: &BlockRow, out: &mut [u8]) {
    for x in 0..128 {
        let w = words[x];
        out[2 * x] = (w % 256) as u8;
        out[2 * x + 1] = (w / 256 % 256) as u8;
    }
}
