//! Bits of bytes, most significant bit first.

pub fn unpack(bytes: &[u8]) -> Vec<bool> {
    bytes
        .iter()
        .flat_map(|byte| (0..8).rev().map(move |power| byte >> power & 1 == 1))
        .collect()
}

/// The inverse of `unpack`, for a whole number of bytes.
pub fn pack(bits: &[bool]) -> Vec<u8> {
    assert_eq!(bits.len() % 8, 0);
    bits.chunks(8)
        .map(|byte| byte.iter().fold(0, |sum, &bit| 2 * sum + u8::from(bit)))
        .collect()
}

pub fn get(bytes: &[u8], index: usize) -> bool {
    bytes[index / 8] >> (7 - index % 8) & 1 == 1
}

pub fn flip(bytes: &mut [u8], index: usize) {
    bytes[index / 8] ^= 1 << (7 - index % 8);
}

pub fn set(bytes: &mut [u8], index: usize, bit: bool) {
    if get(bytes, index) != bit {
        flip(bytes, index);
    }
}
