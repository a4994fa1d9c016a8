//! Random arguments, legal and illegal.

use ofec_tests::frames::OVERHEAD;
use ofec_tests::profile::Profile;
use ofec_tests::random::Random;

/// One time in so many.
pub fn rarely(times: usize, random: &mut Random) -> bool {
    random.between(0, times) == 0
}

/// Any number of 32 bits, small and large ones alike often.
pub fn any_number(random: &mut Random) -> u32 {
    let shift = random.between(0, 32);
    random.next_u64() as u32 >> shift
}

/// A buffer to be lent: now and then it has another length.
pub fn lent(mut bytes: Vec<u8>, random: &mut Random) -> Vec<u8> {
    if rarely(12, random) {
        let right = bytes.len();
        let length = match random.between(0, 7) {
            0 => right.saturating_sub(1),
            1 => right + 1,
            2 => 0,
            3 => right + 256,
            4 => right + 65_536,
            5 => random.between(0, right + 1),
            _ => random.between(right, 2 * right + 1),
        };
        bytes.resize(length, 0x5a);
    }
    bytes
}

/// A buffer to be written, of any content.
pub fn to_write(length: usize, random: &mut Random) -> Vec<u8> {
    let bytes = random.bytes(length);
    lent(bytes, random)
}

/// Puts illegal bytes among cells, now and then; the rule of each byte is given.
pub fn spoil_rarely(cells: &mut [u8], rule: impl Fn(usize) -> Profile, random: &mut Random) {
    if rarely(4, random) {
        for _ in 0..random.between(1, 4) {
            let index = random.between(0, cells.len());
            cells[index] = random.illegal(rule(index));
        }
    }
}

/// Payload cells to be read, now and then with illegal bytes or of another length.
pub fn payload(profile: Profile, length: usize, random: &mut Random) -> Vec<u8> {
    let mut cells = random.payload(profile, length);
    spoil_rarely(&mut cells, |_| profile, random);
    lent(cells, random)
}

/// The same for overhead cells.
pub fn overhead(length: usize, random: &mut Random) -> Vec<u8> {
    payload(OVERHEAD, length, random)
}
