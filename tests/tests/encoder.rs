//! `ofec_encode_pair` against the reference, for an encoder that reads whole bit rows and sums the words of a pair side by side. What it
//! could get wrong is the place that a bit is read from, the word that it counts for, the power that it counts with, or where a payload
//! bit or a check bit is stored. Payload, coded pair and history of every call are compared with those of the reference.

use ofec_tests::bits;
use ofec_tests::chain::calls::LIBRARY;
use ofec_tests::compare::compare;
use ofec_tests::outcome::Outcome;
use ofec_tests::pair_calls::any_encoder;
use ofec_tests::random::Random;
use ofec_tests::rows::{
    self, payload_bit, rows_of, word_bit, Numbers, Place, Window, BIT_ROWS, ENCODERS,
    FIRST_FULL_ROW, FRONT_BYTES, HELD_BYTES, MARKS, PAIR_BYTES, PAYLOAD_BYTES, SPENT,
};
use ofec_tests::word::{is_code_word, BACK, FREE_BITS, WORD_BITS};

const PAYLOAD_BITS: usize = 8 * PAYLOAD_BYTES;
const HELD_BITS: usize = 8 * HELD_BYTES;
const _: () = assert!(PAYLOAD_BITS == 3_552 && HELD_BITS == 40_960);

/// Pairs in which every bit of the payload or of the history is set alone, with zeros in front and full.
const PAIR_WITH_ZEROS_IN_FRONT: u32 = 9;
const FULL_PAIR: u32 = 10;

/// Of the bits of a history below pair 10, where none counts, one in so many.
const SAMPLE: usize = 11;

/// Calls with random bytes, for each of five kinds of pair numbers, and calls with bytes that are not random.
const RANDOM_CALLS: u64 = 420;
const _: () = assert!(5 * RANDOM_CALLS >= 2_000);
const OTHER_CALLS: u64 = 100;

/// Pairs of a run from fresh.
const RUN: u32 = 30;

/// A call by the library and by the reference. Both must be accepted and must leave the same in every buffer; the coded pair is lent
/// with other bytes. The history drops its oldest pair and has the coded pair, which is given, as its newest.
fn encode(payload: &[u8], held: &[u8], numbers: Numbers, random: &mut Random) -> Vec<u8> {
    let Numbers { encoder, pair } = numbers;
    let (coded, history) = (random.bytes(PAIR_BYTES), numbers.history(held));
    let (outcome, [kept, coded, history]) = compare(
        [payload, &coded, &history],
        |[payload, coded, history]| (LIBRARY.encode_pair)(payload, coded, history, encoder, pair),
        |[payload, coded, history]| rows::encode_pair(payload, coded, history, encoder, pair),
    );
    assert_eq!(outcome, Outcome::accepted(pair + 1));
    assert_eq!(Numbers::of(&history), numbers.next());
    assert!(kept == payload);
    let (older, newest) = history[FRONT_BYTES..].split_at(HELD_BYTES - PAIR_BYTES);
    assert!(older == &held[PAIR_BYTES..]);
    assert!(newest == coded);
    coded
}

/// Row and bit row of the words of a pair.
fn words(pair: u32) -> impl Iterator<Item = (i64, usize)> {
    let of_row = |row| (0..BIT_ROWS).map(move |r| (row, r));
    rows_of(pair).into_iter().flat_map(of_row)
}

/// The payload bits of the word of (R, r): their numbers in the payload of the pair, and their places.
fn payload_bits(row: i64, r: usize) -> impl Iterator<Item = (usize, Place)> {
    let first = payload_bit(row - row % 2, 0, 0);
    (0..FREE_BITS - BACK).map(move |k| {
        let index = (payload_bit(row, r, k) - first) as usize;
        (index, word_bit(row, r, BACK + k))
    })
}

fn zeros(bytes: usize) -> Vec<u8> {
    vec![0; bytes]
}

/// Zeros with this bit set.
fn single(bytes: usize, index: usize) -> Vec<u8> {
    let mut single = zeros(bytes);
    bits::flip(&mut single, index);
    single
}

/// All bit rows of the pair are zero, but for that of this word, which is not.
fn assert_zero_but_for(coded: &[u8], word: Option<usize>) {
    for (other, bit_row) in coded.chunks(PAIR_BYTES / MARKS).enumerate() {
        assert_eq!(bit_row.iter().any(|&byte| byte != 0), Some(other) == word);
    }
}

fn xor(one: &[u8], other: &[u8]) -> Vec<u8> {
    one.iter().zip(other).map(|(a, b)| a ^ b).collect()
}

/// Every payload bit is set alone in its own place, with check bits of its word and of no other. Over a history of random bytes it flips
/// the same bits, whether front halves count or not.
#[test]
fn every_payload_bit_alone() {
    let mut random = Random::new(3_000);
    for pair in [PAIR_WITH_ZEROS_IN_FRONT, FULL_PAIR] {
        let encoder = any_encoder(&mut random);
        let numbers = Numbers { encoder, pair };
        let (none, any) = (zeros(HELD_BYTES), random.bytes(HELD_BYTES));
        let without = encode(&zeros(PAYLOAD_BYTES), &any, numbers, &mut random);
        let mut seen = vec![false; PAYLOAD_BITS];
        for (word, (row, r)) in words(pair).enumerate() {
            for (index, place) in payload_bits(row, r) {
                let payload = single(PAYLOAD_BYTES, index);
                let coded = encode(&payload, &none, numbers, &mut random);
                assert_zero_but_for(&coded, Some(word));
                let window = Window::new(&none, &coded, pair);
                for (_, other) in payload_bits(row, r) {
                    assert_eq!(window.get(other), other == place);
                }
                let over_any = encode(&payload, &any, numbers, &mut random);
                assert!(xor(&over_any, &without) == coded);
                seen[index] = true;
            }
        }
        assert!(seen.iter().all(|&seen| seen));
    }
}

/// The word for which each bit of a history counts in front, if there is one.
fn front_words(pair: u32) -> Vec<Option<usize>> {
    let mut counts = vec![None; HELD_BITS];
    let mut window = Window::new(&zeros(HELD_BYTES), &zeros(PAIR_BYTES), pair);
    for (word, (row, r)) in words(pair).enumerate() {
        for k in 0..BACK {
            let place = word_bit(row, r, k);
            window.flip(place);
            let byte = window.held().iter().position(|&byte| byte != 0);
            let byte = byte.expect("a bit in front is held");
            let index = 8 * byte + window.held()[byte].leading_zeros() as usize;
            assert_eq!(counts[index], None);
            counts[index] = Some(word);
            window.flip(place);
        }
    }
    counts
}

/// Every bit of the ten pairs: one that front halves read sets check bits of the one word that it counts for, and any other sets none.
#[test]
fn every_history_bit_alone() {
    let mut random = Random::new(3_100);
    let encoder = any_encoder(&mut random);
    let pair = FULL_PAIR;
    let numbers = Numbers { encoder, pair };
    let payload = zeros(PAYLOAD_BYTES);
    let counts = front_words(pair);
    let read = counts.iter().filter(|word| word.is_some()).count();
    assert_eq!(read, MARKS * BACK);
    for (index, &word) in counts.iter().enumerate() {
        let held = single(HELD_BYTES, index);
        let coded = encode(&payload, &held, numbers, &mut random);
        assert_zero_but_for(&coded, word);
        let window = Window::new(&held, &coded, pair);
        if let Some((row, r)) = word.and_then(|word| words(pair).nth(word)) {
            assert!(payload_bits(row, r).all(|(_, place)| !window.get(place)));
        }
    }
}

/// Below pair 10 no bit of the history counts.
#[test]
fn history_bits_below_pair_10() {
    let mut random = Random::new(3_200);
    for index in (0..HELD_BITS).step_by(SAMPLE) {
        let encoder = any_encoder(&mut random);
        let pair = random.between(0, 10) as u32;
        let held = single(HELD_BYTES, index);
        let numbers = Numbers { encoder, pair };
        let coded = encode(&zeros(PAYLOAD_BYTES), &held, numbers, &mut random);
        assert_zero_but_for(&coded, None);
    }
}

/// Bytes that are random, all the same, or a single bit.
fn any_bytes(count: usize, random: &mut Random) -> Vec<u8> {
    match random.between(0, 3) {
        0 => vec![[0, 255, 0x55, 0x0f][random.between(0, 4)]; count],
        1 => single(count, random.between(0, 8 * count)),
        _ => random.bytes(count),
    }
}

/// Each word has its payload bits in their places, and is a code word with its front half as it is held.
fn assert_words(payload: &[u8], held: &[u8], coded: &[u8], pair: u32) {
    let window = Window::new(held, coded, pair);
    for (row, r) in words(pair) {
        let word: [bool; WORD_BITS] = std::array::from_fn(|k| {
            (k >= BACK || row >= FIRST_FULL_ROW) && window.get(word_bit(row, r, k))
        });
        assert!(is_code_word(&word));
        for (index, place) in payload_bits(row, r) {
            assert_eq!(window.get(place), bits::get(payload, index));
        }
    }
}

/// Calls about pair 10 and far from it, with payloads and histories of these bytes.
fn encode_arbitrary(calls: u64, bytes: fn(usize, &mut Random) -> Vec<u8>, random: &mut Random) {
    for _ in 0..calls {
        let large = random.between(11, SPENT as usize) as u32;
        for pair in [0, 9, 10, large, SPENT - 1] {
            let encoder = any_encoder(random);
            let (payload, held) = (bytes(PAYLOAD_BYTES, random), bytes(HELD_BYTES, random));
            let coded = encode(&payload, &held, Numbers { encoder, pair }, random);
            assert_words(&payload, &held, &coded, pair);
        }
    }
}

/// Payloads and histories such as no caller and no encoder makes.
#[test]
fn arbitrary_payloads_and_histories() {
    let mut random = Random::new(3_300);
    encode_arbitrary(
        RANDOM_CALLS,
        |count, random| random.bytes(count),
        &mut random,
    );
    encode_arbitrary(OTHER_CALLS, any_bytes, &mut random);
}

/// Runs from fresh over pair 10, in which the history is what the calls before left.
#[test]
fn runs_from_fresh() {
    let mut random = Random::new(3_400);
    for encoder in ENCODERS {
        let mut held = zeros(HELD_BYTES);
        for pair in 0..RUN {
            let payload = any_bytes(PAYLOAD_BYTES, &mut random);
            let coded = encode(&payload, &held, Numbers { encoder, pair }, &mut random);
            assert_words(&payload, &held, &coded, pair);
            held = Window::new(&held, &coded, pair).next_held().to_vec();
        }
    }
}
