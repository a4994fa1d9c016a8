//! The numbers of calls that encode or receive a pair: those in front of the lent history and those that
//! the call names. They agree, or the history is stray in one of many ways.

use crate::random::Random;
use crate::rows::{Numbers, ENCODERS, SPENT};

/// Numbers of encoders at which something could begin or end. The first two are those that there are.
pub const EXTREME_ENCODERS: [u32; 12] = [
    0,
    1,
    2,
    3,
    255,
    256,
    257,
    0x0001_0000,
    0x0100_0000,
    0x8000_0000,
    0x8000_0001,
    0xffff_ffff,
];

/// Pair numbers at which something could begin or end. The last one is spent.
pub const EXTREME_PAIRS: [u32; 18] = [
    0,
    1,
    8,
    9,
    10,
    11,
    255,
    256,
    65_535,
    65_536,
    0x00ff_ffff,
    0x0100_0000,
    0x0100_0001,
    0x7fff_ffff,
    0x8000_0000,
    0x8000_0009,
    0xffff_fffe,
    0xffff_ffff,
];

/// A pair number that is not spent.
pub fn any_pair(random: &mut Random) -> u32 {
    let unspent = &EXTREME_PAIRS[..EXTREME_PAIRS.len() - 1];
    match random.between(0, 3) {
        0 => unspent[random.between(0, unspent.len())],
        1 => random.between(0, 20) as u32,
        _ => (random.next_u64() as u32).min(SPENT - 1),
    }
}

/// An encoder that there is.
pub fn any_encoder(random: &mut Random) -> u32 {
    ENCODERS[random.between(0, ENCODERS.len())]
}

/// A number above those of the encoders; the lowest often.
pub fn above(random: &mut Random) -> u32 {
    let above = &EXTREME_ENCODERS[ENCODERS.len()..];
    match random.between(0, 3) {
        0 => above[0],
        1 => above[random.between(0, above.len())],
        _ => (random.next_u64() as u32).max(above[0]),
    }
}

/// Another number: by one, in one byte, the largest, or any.
pub fn other(number: u32, random: &mut Random) -> u32 {
    let other = match random.between(0, 5) {
        0 => number.wrapping_add(1),
        1 => number.wrapping_sub(1),
        2 => in_one_byte(number, random),
        3 => SPENT,
        _ => random.next_u64() as u32,
    };
    if other == number {
        !number
    } else {
        other
    }
}

/// A number that differs in one byte.
fn in_one_byte(number: u32, random: &mut Random) -> u32 {
    let byte = random.between(1, 256) as u32;
    number ^ byte << (8 * random.between(0, 4))
}

/// What stands in front of the lent history, and what the call names.
#[derive(Debug, PartialEq, Eq, Clone, Copy)]
pub struct Call {
    pub front: Numbers,
    pub named: Numbers,
}

impl Call {
    /// Both the same.
    pub fn of(numbers: Numbers) -> Self {
        Call {
            front: numbers,
            named: numbers,
        }
    }

    pub fn is_stray(&self) -> bool {
        self.front.encoder != self.named.encoder
            || self.front.pair != self.named.pair
            || self.named.encoder > 1
    }
}

/// What makes a history stray: from a call whose numbers agree, a call that names the same pair.
pub type Way = fn(Call, &mut Random) -> Call;

pub const WAYS: [Way; 15] = [
    // The other encoder's history.
    |mut call, _| {
        call.front.encoder ^= 1;
        call
    },
    // The other encoder's history, which is at another pair.
    |mut call, random| {
        call.front.encoder ^= 1;
        call.front.pair = other(call.front.pair, random);
        call
    },
    // The pair before or the pair after.
    |mut call, random| {
        let back = call.front.pair.wrapping_sub(1);
        let on = call.front.pair.wrapping_add(1);
        call.front.pair = [back, on][random.between(0, 2)];
        call
    },
    // Another pair.
    |mut call, random| {
        call.front.pair = other(call.front.pair, random);
        call
    },
    // One byte of either number.
    |mut call, random| {
        call.front.encoder = in_one_byte(call.front.encoder, random);
        call
    },
    |mut call, random| {
        call.front.pair = in_one_byte(call.front.pair, random);
        call
    },
    // The bytes of a number, or of both, from the least significant on.
    |mut call, _| {
        call = with_encoder(call, 1);
        call.front.encoder = call.front.encoder.swap_bytes();
        call
    },
    |mut call, _| {
        call.front.pair = call.front.pair.swap_bytes();
        if !call.is_stray() {
            call = with_encoder(call, 1);
            call.front.encoder = call.front.encoder.swap_bytes();
        }
        call
    },
    |mut call, _| {
        call = with_encoder(call, 1);
        call.front.encoder = call.front.encoder.swap_bytes();
        call.front.pair = call.front.pair.swap_bytes();
        call
    },
    // The two numbers in each other's place.
    |mut call, _| {
        if call.front.pair == call.front.encoder {
            call = with_encoder(call, 1 - call.front.encoder);
        }
        call.front = Numbers {
            encoder: call.front.pair,
            pair: call.front.encoder,
        };
        call
    },
    // An encoder that there is not: in front and call, in one of them, or in both another one.
    |call, random| with_encoder(call, above(random)),
    |mut call, random| {
        call.named.encoder = above(random);
        call
    },
    |mut call, random| {
        call.front.encoder = above(random);
        call
    },
    |mut call, random| {
        call = with_encoder(call, above(random));
        call.front.encoder = other(call.front.encoder, random);
        call
    },
    // The same, and another pair.
    |mut call, random| {
        call = with_encoder(call, above(random));
        call.front.pair = other(call.front.pair, random);
        call
    },
];

/// The same pair of another encoder.
fn with_encoder(call: Call, encoder: u32) -> Call {
    let pair = call.named.pair;
    Call::of(Numbers { encoder, pair })
}
