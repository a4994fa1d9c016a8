//! One call made twice on the same lent buffers, by the library and by the reference.

use std::fmt::Debug;
use std::hint::black_box;

use crate::random::Random;

/// Bytes around each buffer lent to the library; they show a write outside of it.
const GUARD: [u8; 64] = [0xa5; 64];

/// Answer and buffers that stand after the call, the same on both sides. Every buffer is compared,
/// also those that the call only reads.
pub fn compare<const N: usize, A: Debug + PartialEq, L: Into<A>>(
    lent: [&[u8]; N],
    library: impl FnOnce([&mut [u8]; N]) -> L,
    reference: impl FnOnce([&mut [u8]; N]) -> A,
) -> (A, [Vec<u8>; N]) {
    agreed(lent, library, reference).unwrap_or_else(|difference| panic!("{difference}"))
}

/// As `compare`, or what differs.
pub fn agreed<const N: usize, A: Debug + PartialEq, L: Into<A>>(
    lent: [&[u8]; N],
    library: impl FnOnce([&mut [u8]; N]) -> L,
    reference: impl FnOnce([&mut [u8]; N]) -> A,
) -> Result<(A, [Vec<u8>; N]), String> {
    let lengths = lent.map(<[u8]>::len);
    let mut expected = lent.map(<[u8]>::to_vec);
    let answer = reference(expected.each_mut().map(|buffer| &mut buffer[..]));

    let mut guarded = lent.map(|bytes| [&GUARD, bytes, &GUARD].concat());
    let given: A = library(guarded.each_mut().map(|buffer| {
        let end = buffer.len() - GUARD.len();
        &mut buffer[GUARD.len()..end]
    }))
    .into();
    if given != answer {
        return Err(format!(
            "lengths {lengths:?}: {given:?}, expected {answer:?}"
        ));
    }
    for (number, (given, expected)) in black_box(guarded).iter().zip(&expected).enumerate() {
        let expected = [&GUARD, &expected[..], &GUARD].concat();
        if *given != expected {
            let differs = (0..expected.len()).find(|&i| given[i] != expected[i]);
            let at = differs.map(|i| i as i64 - GUARD.len() as i64);
            return Err(format!(
                "lengths {lengths:?}, {answer:?}: buffer {number} differs at byte {at:?}"
            ));
        }
    }
    Ok((answer, expected))
}

/// As `compare`, of a call that must be refused with this answer and leave every buffer as it was.
pub fn compare_refused<const N: usize, A: Debug + PartialEq, L: Into<A>>(
    refused: A,
    lent: [&[u8]; N],
    library: impl FnOnce([&mut [u8]; N]) -> L,
    reference: impl FnOnce([&mut [u8]; N]) -> A,
) {
    let (answer, buffers) = compare(lent, library, reference);
    assert_eq!(answer, refused);
    assert!(lent == buffers.each_ref().map(|buffer| &buffer[..]));
}

/// Lengths of which at least one is wrong, at random.
pub fn misfit<const N: usize>(right: [usize; N], random: &mut Random) -> [usize; N] {
    let certain = random.between(0, N);
    std::array::from_fn(|i| {
        if i != certain && random.bit() {
            return right[i];
        }
        match random.between(0, 4) {
            0 => right[i] - 1,
            1 => right[i] + 1,
            2 => random.between(0, right[i]),
            _ => random.between(right[i] + 1, 2 * right[i]),
        }
    })
}

/// Every buffer alone with wrong lengths, by little and by much; then several of them at random.
pub fn misfits<const N: usize>(right: [usize; N], random: &mut Random) -> Vec<[usize; N]> {
    let mut lists = Vec::new();
    for i in 0..N {
        let own = right[i];
        let mut wrong = vec![0, 1, own - 1, own + 1, own / 2, 2 * own];
        // These are right when cut to 8 or 16 bits.
        wrong.extend([256, 65_536].map(|cut| own + cut));
        wrong.extend(right);
        wrong.extend((0..4).map(|_| random.between(0, 2 * own)));
        for length in wrong.into_iter().filter(|&length| length != own) {
            let mut lengths = right;
            lengths[i] = length;
            lists.push(lengths);
        }
    }
    lists.extend((0..20).map(|_| misfit(right, random)));
    lists
}

/// Lends every buffer in turn with 2^32 bytes too many, so that its length is right when cut to 32
/// bits: the call must be refused with this answer. The buffers are zeros, for which the system gives
/// no memory before they are written.
pub fn refused_beyond_32_bits<const N: usize, A: Debug + PartialEq, L: Into<A>>(
    refused: A,
    right: [usize; N],
    library: impl Fn([&mut [u8]; N]) -> L,
) {
    for wrong in 0..N {
        let mut lengths = right;
        lengths[wrong] += 1 << 32;
        let mut buffers = lengths.map(|length| vec![0; length]);
        let answer: A = library(buffers.each_mut().map(|buffer| &mut buffer[..])).into();
        assert_eq!(answer, refused, "lengths {lengths:?}");
        for buffer in black_box(buffers) {
            let start = &buffer[..buffer.len().min(1 << 16)];
            assert!(start.iter().all(|&byte| byte == 0), "lengths {lengths:?}");
        }
    }
}
