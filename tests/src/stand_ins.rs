//! The library's two calls on pairs with a fault put in on purpose, each a slip about whose history it is:
//! the comparisons must find every one of them.

use crate::chain::calls::{Calls, LIBRARY};
use crate::outcome::{Outcome, COUNT_SPENT, STRAY_HISTORY};
use crate::rows::{Numbers, FRONT_BYTES, HELD_BYTES, HISTORY_BYTES, SPENT};

/// The library's call on a history, with the numbers named.
type Sound<'a> = dyn FnMut(&mut [u8], Numbers) -> Outcome + 'a;

/// A faulty call in place of the sound one.
trait Slip {
    fn call(history: &mut [u8], named: Numbers, sound: &mut Sound) -> Outcome;
}

/// Both calls with the slip.
fn with<S: Slip>() -> Calls {
    Calls {
        encode_pair: |payload, coded, history, encoder, pair| {
            S::call(history, Numbers { encoder, pair }, &mut |history, named| {
                (LIBRARY.encode_pair)(payload, coded, history, named.encoder, named.pair)
            })
        },
        receive_pair: |coded, payload, marks, history, encoder, pair| {
            S::call(history, Numbers { encoder, pair }, &mut |history, named| {
                let Numbers { encoder, pair } = named;
                (LIBRARY.receive_pair)(coded, payload, marks, history, encoder, pair)
            })
        },
        ..LIBRARY
    }
}

/// What is wrong, and the calls.
pub fn all() -> [(&'static str, Calls); 10] {
    [
        ("6 tested after 3", with::<SpentFirst>()),
        ("encoder 2 accepted", with::<EncoderTwo>()),
        ("next number not stored", with::<NotStored>()),
        ("least significant byte first", with::<LeastFirst>()),
        ("pairs taken from byte 0", with::<FromByteZero>()),
        ("a refused call stores its number", with::<RefusedStores>()),
        ("the encoder in front not read", with::<EncoderUnread>()),
        ("the pair number in front not read", with::<PairUnread>()),
        ("the number cut to 16 bits", with::<CutShort>()),
        ("a history without a front taken", with::<WithoutFront>()),
    ]
}

/// Puts numbers in front of a history.
fn put(history: &mut [u8], numbers: Numbers) {
    history[..FRONT_BYTES].copy_from_slice(&numbers.to_bytes());
}

/// Makes the sound call with other numbers in front, if the history has its length. Where it is refused,
/// the numbers that stood there come back.
fn with_front(
    front: fn(Numbers, Numbers) -> Numbers,
    history: &mut [u8],
    named: Numbers,
    sound: &mut Sound,
) -> Outcome {
    if history.len() != HISTORY_BYTES {
        return sound(history, named);
    }
    let before = Numbers::of(history);
    put(history, front(before, named));
    let outcome = sound(history, named);
    if outcome.refusal != 0 {
        put(history, before);
    }
    outcome
}

struct SpentFirst;

impl Slip for SpentFirst {
    fn call(history: &mut [u8], named: Numbers, sound: &mut Sound) -> Outcome {
        let outcome = sound(history, named);
        match (outcome.refusal, named.pair) {
            (STRAY_HISTORY, SPENT) => Outcome::refused_pair(COUNT_SPENT, SPENT),
            _ => outcome,
        }
    }
}

struct EncoderTwo;

impl Slip for EncoderTwo {
    fn call(history: &mut [u8], named: Numbers, sound: &mut Sound) -> Outcome {
        let own = Numbers {
            encoder: 2,
            ..named
        };
        let fits = history.len() == HISTORY_BYTES;
        if named != own || !fits || Numbers::of(history) != own {
            return sound(history, named);
        }
        let taken_for = Numbers {
            encoder: 0,
            ..named
        };
        put(history, taken_for);
        let outcome = sound(history, taken_for);
        history[3] = 2;
        outcome
    }
}

struct NotStored;

impl Slip for NotStored {
    fn call(history: &mut [u8], named: Numbers, sound: &mut Sound) -> Outcome {
        let outcome = sound(history, named);
        if outcome.refusal == 0 {
            put(history, named);
        }
        outcome
    }
}

struct LeastFirst;

impl Slip for LeastFirst {
    fn call(history: &mut [u8], named: Numbers, sound: &mut Sound) -> Outcome {
        if history.len() != HISTORY_BYTES {
            return sound(history, named);
        }
        let turn = |history: &mut [u8]| {
            history[..4].reverse();
            history[4..FRONT_BYTES].reverse();
        };
        turn(history);
        let outcome = sound(history, named);
        turn(history);
        outcome
    }
}

struct FromByteZero;

impl Slip for FromByteZero {
    fn call(history: &mut [u8], named: Numbers, sound: &mut Sound) -> Outcome {
        if history.len() != HISTORY_BYTES {
            return sound(history, named);
        }
        let mut taken = Numbers::of(history).history(&history[..HELD_BYTES]);
        let outcome = sound(&mut taken, named);
        if outcome.refusal == 0 {
            history[..HELD_BYTES].copy_from_slice(&taken[FRONT_BYTES..]);
            put(history, Numbers::of(&taken));
        }
        outcome
    }
}

struct RefusedStores;

impl Slip for RefusedStores {
    fn call(history: &mut [u8], named: Numbers, sound: &mut Sound) -> Outcome {
        let outcome = sound(history, named);
        if outcome.refusal != 0 && history.len() == HISTORY_BYTES {
            let encoder = Numbers::of(history).encoder;
            put(history, Numbers { encoder, ..named });
        }
        outcome
    }
}

struct EncoderUnread;

impl Slip for EncoderUnread {
    fn call(history: &mut [u8], named: Numbers, sound: &mut Sound) -> Outcome {
        let named_encoder = |before: Numbers, named: Numbers| Numbers {
            encoder: named.encoder,
            ..before
        };
        with_front(named_encoder, history, named, sound)
    }
}

struct PairUnread;

impl Slip for PairUnread {
    fn call(history: &mut [u8], named: Numbers, sound: &mut Sound) -> Outcome {
        let named_pair = |before: Numbers, named: Numbers| Numbers {
            pair: named.pair,
            ..before
        };
        with_front(named_pair, history, named, sound)
    }
}

struct CutShort;

impl Slip for CutShort {
    fn call(history: &mut [u8], named: Numbers, sound: &mut Sound) -> Outcome {
        let alike = |before: Numbers, named: Numbers| {
            let cut = before.pair % 0x1_0000 == named.pair % 0x1_0000;
            Numbers {
                pair: if cut { named.pair } else { before.pair },
                ..before
            }
        };
        with_front(alike, history, named, sound)
    }
}

struct WithoutFront;

impl Slip for WithoutFront {
    fn call(history: &mut [u8], named: Numbers, sound: &mut Sound) -> Outcome {
        if history.len() != HELD_BYTES {
            return sound(history, named);
        }
        let mut whole = named.history(history);
        let outcome = sound(&mut whole, named);
        if outcome.refusal == 0 {
            history.copy_from_slice(&whole[FRONT_BYTES..]);
        }
        outcome
    }
}
