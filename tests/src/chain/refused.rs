//! Calls that must be refused and leave every buffer as it was. They stand between the accepted calls of
//! a run and are lent the run's own buffers.

use std::hint::black_box;

use crate::compare::misfit;
use crate::frames::{own_overhead, OVERHEAD, SUBFRAMES};
use crate::outcome::{Outcome, COUNT_SPENT, MISFIT, NO_SUCH_FRAME, STRAY_HISTORY};
use crate::pair_calls::{above, any_encoder, other};
use crate::profile::Profile;
use crate::random::Random;
use crate::rows::{Numbers, FRONT_BYTES, SPENT};

/// Makes a call that must be refused with this answer.
pub fn refused<const N: usize>(
    expected: Outcome,
    mut lent: [&mut [u8]; N],
    call: impl FnOnce([&mut [u8]; N]) -> Outcome,
) {
    let before = lent.each_ref().map(|buffer| buffer.to_vec());
    let answer = call(lent.each_mut().map(|buffer| &mut **buffer));
    assert_eq!(answer, expected, "answer of a call to be refused");
    assert_as_before(lent, before);
}

/// The same with wrong lengths: each buffer whole, or cut short, or a copy with more bytes behind.
pub fn refused_misfit<const N: usize>(
    expected: Outcome,
    mut own: [&mut [u8]; N],
    random: &mut Random,
    call: impl FnOnce([&mut [u8]; N]) -> Outcome,
) {
    let before = own.each_ref().map(|buffer| buffer.to_vec());
    let lengths = misfit(before.each_ref().map(Vec::len), random);
    let mut longer = before.clone();
    let mut lent = Vec::new();
    for ((own, longer), length) in own.iter_mut().zip(&mut longer).zip(lengths) {
        if length <= own.len() {
            lent.push(&mut own[..length]);
        } else {
            longer.resize(length, 0xa5);
            lent.push(longer);
        }
    }
    refused(expected, lent.try_into().expect("N buffers"), call);
    assert_as_before(own, before);
}

fn assert_as_before<const N: usize>(buffers: [&mut [u8]; N], before: [Vec<u8>; N]) {
    for (number, (now, before)) in black_box(buffers).iter().zip(&before).enumerate() {
        assert!(now == before, "a refused call wrote to buffer {number}");
    }
}

/// A pair call on a list's own buffers, of which the history is the last, or on another history; it names
/// the list's numbers or others. Every refusal is given, alone and where others apply too.
pub fn refused_pair<const N: usize>(
    numbers: Numbers,
    mut own: [&mut [u8]; N],
    others_history: &mut [u8],
    random: &mut Random,
    call: impl FnOnce([&mut [u8]; N], Numbers) -> Outcome,
) {
    let (refusal, named, mut copy);
    let mut lent = own.each_mut().map(|buffer| &mut **buffer);
    match random.between(0, 8) {
        // Wrong lengths, whatever is named; every other time the history has these numbers too.
        0 => {
            let named = [numbers, spent(numbers), others(numbers, random)][random.between(0, 3)];
            if random.bit() {
                copy = with_front(named, lent[N - 1]);
                lent[N - 1] = &mut copy;
            }
            let expected = Outcome::refused_pair(MISFIT, named.pair);
            return refused_misfit(expected, lent, random, |lent| call(lent, named));
        }
        // The history without its front.
        1 => {
            named = [numbers, spent(numbers)][random.between(0, 2)];
            copy = lent[N - 1][FRONT_BYTES..].to_vec();
            lent[N - 1] = &mut copy;
            refusal = MISFIT;
        }
        // The own history, and not its numbers; perhaps the largest pair number.
        2 | 3 => {
            named = others(numbers, random);
            refusal = STRAY_HISTORY;
        }
        // The other list's history.
        4 => {
            lent[N - 1] = others_history;
            named = [numbers, spent(numbers)][random.between(0, 2)];
            refusal = STRAY_HISTORY;
        }
        // An encoder that there is not, in front and call.
        5 => {
            let encoder = above(random);
            let pair = [numbers.pair, SPENT][random.between(0, 2)];
            named = Numbers { encoder, pair };
            copy = with_front(named, lent[N - 1]);
            lent[N - 1] = &mut copy;
            refusal = STRAY_HISTORY;
        }
        // The history after the last pair.
        _ => {
            named = Numbers {
                encoder: any_encoder(random),
                pair: SPENT,
            };
            copy = with_front(named, lent[N - 1]);
            lent[N - 1] = &mut copy;
            refusal = COUNT_SPENT;
        }
    }
    let expected = Outcome::refused_pair(refusal, named.pair);
    refused(expected, lent, |lent| call(lent, named));
}

fn spent(numbers: Numbers) -> Numbers {
    Numbers {
        pair: SPENT,
        ..numbers
    }
}

/// Numbers of which one at least is another.
fn others(numbers: Numbers, random: &mut Random) -> Numbers {
    let encoder = [numbers.encoder ^ 1, above(random)][random.between(0, 2)];
    let pair = other(numbers.pair, random);
    match random.between(0, 3) {
        0 => Numbers { encoder, pair },
        1 => Numbers { encoder, ..numbers },
        _ => Numbers { pair, ..numbers },
    }
}

/// The same history with other numbers in front.
fn with_front(front: Numbers, history: &[u8]) -> Vec<u8> {
    front.history(&history[FRONT_BYTES..])
}

/// Framing or unframing: wrong lengths, a number above 47, or an illegal byte in list or cells. The rule
/// is that of each byte of what is read beside the list.
pub fn refused_framing(
    call: impl Fn(u32, [&mut [u8]; 3]) -> Outcome,
    rule: impl Fn(usize) -> Profile,
    number: u32,
    [read, overhead]: [&[u8]; 2],
    written: &mut [u8],
    random: &mut Random,
) {
    let [mut read, mut overhead] = [read, overhead].map(<[u8]>::to_vec);
    let (expected, number) = match random.between(0, 4) {
        0 => {
            let own = [&mut read, &mut overhead, written];
            let expected = Outcome::refused(MISFIT);
            return refused_misfit(expected, own, random, |lent| call(number, lent));
        }
        1 => {
            let above = [SUBFRAMES, SUBFRAMES | random.next_u64() as u32];
            (
                Outcome::refused(NO_SUCH_FRAME),
                above[usize::from(random.bit())],
            )
        }
        2 => {
            let own = own_overhead(number);
            let index = random.between(own.start, own.end);
            overhead[index] = random.illegal(OVERHEAD);
            if random.bit() {
                read[0] = random.illegal(rule(0));
            }
            (Outcome::off_grid(index), number)
        }
        _ => (spoil(&mut read, rule, random), number),
    };
    let lent = [&mut read, &mut overhead, written];
    refused(expected, lent, |lent| call(number, lent));
}

/// Puts a byte anywhere that is illegal there, and says how the call that reads it is refused.
pub fn spoil(cells: &mut [u8], rule: impl Fn(usize) -> Profile, random: &mut Random) -> Outcome {
    let index = random.between(0, cells.len());
    cells[index] = random.illegal(rule(index));
    Outcome::off_grid(index)
}
