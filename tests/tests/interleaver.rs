//! `ofec_interleave` and `ofec_deinterleave` against the reference: answer and every buffer.

use ofec_tests::bits;
use ofec_tests::capi;
use ofec_tests::compare::{compare, compare_refused, misfits, refused_beyond_32_bits};
use ofec_tests::interleaver::{self, source, Source, BUFFER_BITS, BUFFER_BYTES, PAIRS_BYTES};
use ofec_tests::outcome::{Outcome, MISFIT};
use ofec_tests::random::Random;

const INTERLEAVE_LENGTHS: [usize; 3] = [PAIRS_BYTES, PAIRS_BYTES, BUFFER_BYTES];
const DEINTERLEAVE_LENGTHS: [usize; 3] = [BUFFER_BYTES, PAIRS_BYTES, PAIRS_BYTES];

/// The bits that stand after the call, the same on both sides.
fn interleave(pairs: [&[u8]; 2], random: &mut Random) -> Vec<u8> {
    let lent = random.bytes(BUFFER_BYTES);
    let (outcome, [_, _, bits]) = compare(
        [pairs[0], pairs[1], &lent],
        |[pairs0, pairs1, bits]| capi::interleave(pairs0, pairs1, bits),
        |[pairs0, pairs1, bits]| interleaver::interleave(pairs0, pairs1, bits),
    );
    assert_eq!(outcome, Outcome::accepted(0));
    bits
}

/// The pairs of encoders 0 and 1 that stand after the call, the same on both sides.
fn deinterleave(bits: &[u8], random: &mut Random) -> [Vec<u8>; 2] {
    let lent = [0; 2].map(|_| random.bytes(PAIRS_BYTES));
    let (outcome, [_, pairs0, pairs1]) = compare(
        [bits, &lent[0], &lent[1]],
        |[bits, pairs0, pairs1]| capi::deinterleave(bits, pairs0, pairs1),
        |[bits, pairs0, pairs1]| interleaver::deinterleave(bits, pairs0, pairs1),
    );
    assert_eq!(outcome, Outcome::accepted(0));
    [pairs0, pairs1]
}

#[test]
fn bench_values_of_output_bits() {
    let mut random = Random::new(1_000);
    for (n, (encoder, row, block, bit_row, column)) in [
        (1, (0, 0, 0, 14, 15)),
        (16, (0, 21, 0, 0, 0)),
        (32, (0, 0, 0, 15, 7)),
        (172_031, (1, 41, 7, 0, 15)),
    ] {
        let from = Source {
            encoder,
            row,
            block,
            bit_row,
            column,
        };
        assert_eq!(source(n), from);
        let mut pairs = [vec![0; PAIRS_BYTES], vec![0; PAIRS_BYTES]];
        let index = 16 * 128 * row + 128 * bit_row + 16 * block + column;
        bits::flip(&mut pairs[encoder], index);
        let mut bits = vec![0; BUFFER_BYTES];
        bits::flip(&mut bits, n);
        assert!(interleave([&pairs[0], &pairs[1]], &mut random) == bits);
        assert!(deinterleave(&bits, &mut random) == pairs);
    }
}

/// Each place is given its number, one bit of it at a time, so that no two places are alike.
#[test]
fn every_place_by_its_number() {
    let mut random = Random::new(1_100);
    let mut numbers = vec![0; BUFFER_BITS];
    for power in 0..18 {
        let mut pairs = [vec![0; PAIRS_BYTES], vec![0; PAIRS_BYTES]];
        for place in (0..BUFFER_BITS).filter(|place| place >> power & 1 == 1) {
            let half = BUFFER_BITS / 2;
            bits::flip(&mut pairs[place / half], place % half);
        }
        let bits = interleave([&pairs[0], &pairs[1]], &mut random);
        assert!(deinterleave(&bits, &mut random) == pairs);
        for (number, bit) in numbers.iter_mut().zip(bits::unpack(&bits)) {
            *number += usize::from(bit) << power;
        }
    }
    for (n, &number) in numbers.iter().enumerate() {
        let from = source(n);
        assert_eq!(number, BUFFER_BITS / 2 * from.encoder + from.index());
    }
    numbers.sort();
    assert!(numbers.iter().copied().eq(0..BUFFER_BITS));
}

#[test]
fn random_buffers_there_and_back() {
    let mut random = Random::new(1_200);
    for _ in 0..30 {
        let pairs = [0; 2].map(|_| random.bytes(PAIRS_BYTES));
        let bits = interleave([&pairs[0], &pairs[1]], &mut random);
        assert!(deinterleave(&bits, &mut random) == pairs);

        let bits = random.bytes(BUFFER_BYTES);
        let pairs = deinterleave(&bits, &mut random);
        assert!(interleave([&pairs[0], &pairs[1]], &mut random) == bits);
    }
}

#[test]
fn pairs_of_an_encoder_do_not_depend_on_the_bits_of_the_other() {
    let mut random = Random::new(1_300);
    for round in 0..20 {
        let altered = round % 2;
        let bits = random.bytes(BUFFER_BYTES);
        let mut other = bits.clone();
        for n in (0..BUFFER_BITS).filter(|&n| source(n).encoder == altered) {
            bits::set(&mut other, n, random.bit());
        }
        let (before, after) = (
            deinterleave(&bits, &mut random),
            deinterleave(&other, &mut random),
        );
        assert!(before[1 - altered] == after[1 - altered]);
        assert!(before[altered] != after[altered]);
    }
}

#[test]
fn wrong_lengths_are_refused_and_touch_nothing() {
    let mut random = Random::new(1_400);
    for lengths in misfits(INTERLEAVE_LENGTHS, &mut random) {
        let lent = lengths.map(|length| random.bytes(length));
        compare_refused(
            Outcome::refused(MISFIT),
            lent.each_ref().map(|bytes| &bytes[..]),
            |[pairs0, pairs1, bits]| capi::interleave(pairs0, pairs1, bits),
            |[pairs0, pairs1, bits]| interleaver::interleave(pairs0, pairs1, bits),
        );
    }
    for lengths in misfits(DEINTERLEAVE_LENGTHS, &mut random) {
        let lent = lengths.map(|length| random.bytes(length));
        compare_refused(
            Outcome::refused(MISFIT),
            lent.each_ref().map(|bytes| &bytes[..]),
            |[bits, pairs0, pairs1]| capi::deinterleave(bits, pairs0, pairs1),
            |[bits, pairs0, pairs1]| interleaver::deinterleave(bits, pairs0, pairs1),
        );
    }
}

#[test]
fn lengths_beyond_32_bits_are_refused() {
    let refused = Outcome::refused(MISFIT);
    refused_beyond_32_bits(refused, INTERLEAVE_LENGTHS, |[pairs0, pairs1, bits]| {
        capi::interleave(pairs0, pairs1, bits)
    });
    refused_beyond_32_bits(refused, DEINTERLEAVE_LENGTHS, |[bits, pairs0, pairs1]| {
        capi::deinterleave(bits, pairs0, pairs1)
    });
}
