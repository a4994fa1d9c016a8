//! crates/riffle_core: the numbers of a row brought from the order of words into that of blocks and back.

/// The two halves of a row shuffled into each other.
fn riffle(x: [u16; 128]) -> [u16; 128] {
    let mut y = [0; 128];
    for n in 0..64 {
        y[2 * n] = x[n];
        y[2 * n + 1] = x[64 + n];
    }
    y
}

/// Number 8r+C comes to place 16C+r.
pub fn by_blocks(x: [u16; 128]) -> [u16; 128] {
    riffle(riffle(riffle(riffle(x))))
}

/// Number 16C+r comes to place 8r+C.
pub fn by_words(x: [u16; 128]) -> [u16; 128] {
    riffle(riffle(riffle(x)))
}
