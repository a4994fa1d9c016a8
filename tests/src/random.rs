//! A small deterministic generator (splitmix64): the same seed gives the same inputs in every run.

use crate::cells::{is_legal, legal_bytes, GRID};
use crate::frames::{rule, FRAME_BYTES, OVERHEAD};
use crate::profile::Profile;

pub struct Random(u64);

impl Random {
    pub fn new(seed: u64) -> Self {
        Random(seed)
    }

    pub fn next_u64(&mut self) -> u64 {
        self.0 = self.0.wrapping_add(0x9e37_79b9_7f4a_7c15);
        let z = (self.0 ^ self.0 >> 30).wrapping_mul(0xbf58_476d_1ce4_e5b9);
        let z = (z ^ z >> 27).wrapping_mul(0x94d0_49bb_1331_11eb);
        z ^ z >> 31
    }

    pub fn bit(&mut self) -> bool {
        self.next_u64() >> 63 == 1
    }

    pub fn bytes(&mut self, count: usize) -> Vec<u8> {
        (0..count).map(|_| (self.next_u64() >> 56) as u8).collect()
    }

    /// Bytes of overhead cells, below 16.
    pub fn cells(&mut self, count: usize) -> Vec<u8> {
        self.payload(OVERHEAD, count)
    }

    /// Bytes of payload cells.
    pub fn payload(&mut self, profile: Profile, count: usize) -> Vec<u8> {
        (0..count).map(|_| self.legal(profile)).collect()
    }

    /// The bytes of a frame, each legal for its cell.
    pub fn frame(&mut self, profile: Profile, number: u32) -> Vec<u8> {
        (0..FRAME_BYTES)
            .map(|index| self.legal(rule(profile, number, index / 2)))
            .collect()
    }

    /// A byte that a payload cell may have.
    pub fn legal(&mut self, profile: Profile) -> u8 {
        let legal = legal_bytes(profile);
        legal[(self.next_u64() >> 60) as usize % legal.len()]
    }

    /// A byte that no payload cell may have; below 16 as often as not, where there is such a byte.
    pub fn illegal(&mut self, profile: Profile) -> u8 {
        let below: Vec<u8> = (0..GRID).filter(|&byte| !is_legal(profile, byte)).collect();
        if !below.is_empty() && self.bit() {
            return below[self.between(0, below.len())];
        }
        self.between(usize::from(GRID), 256) as u8
    }

    /// A number in `low..high`.
    pub fn between(&mut self, low: usize, high: usize) -> usize {
        low + (self.next_u64() % (high - low) as u64) as usize
    }

    /// `count` different numbers in `low..high`.
    pub fn distinct(&mut self, count: usize, low: usize, high: usize) -> Vec<usize> {
        assert!(count <= high - low);
        let mut numbers = Vec::new();
        while numbers.len() < count {
            let number = self.between(low, high);
            if !numbers.contains(&number) {
                numbers.push(number);
            }
        }
        numbers
    }
}
