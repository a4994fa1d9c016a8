//! crates/bits: numbers of 32 bits in a buffer, most significant byte first, and two of them in one of 64.

fn two_bytes(bytes: &[u8], i: usize) -> usize {
    usize::from(bytes[i]) * 256 + usize::from(bytes[i + 1])
}

/// Number k of a buffer.
pub fn number(bytes: &[u8], k: usize) -> usize {
    two_bytes(bytes, 4 * k) * 65536 + two_bytes(bytes, 4 * k + 2)
}

/// Byte k of a number.
fn byte(x: u32, k: usize) -> u8 {
    ((x >> (24 - 8 * k)) % 256) as u8
}

/// Writes numbers, one after the other.
pub fn put_numbers(numbers: &[u32], bytes: &mut [u8]) {
    let n = bytes.len();
    for i in 0..n {
        bytes[i] = byte(numbers[i / 4], i % 4);
    }
}

/// Two numbers of 32 bits in one of 64.
pub fn pair_up(a: u32, b: u32) -> u64 {
    u64::from(a) * 4294967296 + u64::from(b)
}
