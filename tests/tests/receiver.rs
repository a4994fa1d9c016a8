//! `ofec_receive_pair` against the reference, for a receiver that reads whole bit rows and sums the words of a pair side by side. What it
//! could get wrong is the place that a bit is read from, the word that it counts for, the power that it counts with, or where a flip
//! is stored. Payload, marks and history of every call are compared with those of the reference.

use ofec_tests::chain::calls::LIBRARY;
use ofec_tests::compare::compare;
use ofec_tests::outcome::Outcome;
use ofec_tests::pair_calls::any_encoder;
use ofec_tests::random::Random;
use ofec_tests::rows::{
    self, rows_of, word_bit, Numbers, Window, BIT_ROWS, ENCODERS, FIRST_FULL_ROW, FRONT_BYTES,
    HELD_BYTES, MARKS, PAIR_BYTES, PAYLOAD_BYTES, SPENT,
};
use ofec_tests::word::{BACK, WORD_BITS};

/// Pairs in which every place of every word is flipped alone.
const FULL_PAIRS: [u32; 2] = [10, 23];
const PAIRS_WITH_ZEROS_IN_FRONT: [u32; 2] = [0, 9];
const _: () = assert!(2 * MARKS * WORD_BITS >= 2_000);

/// Pairs whose words have two or three flips each.
const FLIPPED_PAIRS: u64 = 160;
const _: () = assert!(FLIPPED_PAIRS * MARKS as u64 >= 2_000);

/// Calls with bytes that no receiver made, for each of five kinds of pair numbers.
const ARBITRARY_CALLS: u64 = 420;
const _: () = assert!(5 * ARBITRARY_CALLS >= 2_000);

/// Clean pairs that a list of calls has, and those over histories of random bytes.
const CLEAN_RUN: u32 = 40;
const CLEAN_PAIRS: u64 = 200;

/// What a call gives: the pairs held are those that it was lent without the oldest, and then the newest.
struct Received {
    payload: Vec<u8>,
    marks: Vec<u8>,
    held: Vec<u8>,
}

impl Received {
    fn newest(&self) -> &[u8] {
        &self.held[HELD_BYTES - PAIR_BYTES..]
    }

    fn assert_is(&self, payload: &[u8], marks: &[u8], kept: &[u8], newest: &[u8]) {
        assert_eq!(self.marks, marks);
        assert!(self.payload == payload);
        assert!(self.newest() == newest);
        assert!(self.held.starts_with(&kept[PAIR_BYTES..]));
    }
}

/// A call by the library and by the reference, on the pairs held and the coded pair of this window. Both must be accepted and must
/// leave the same in every buffer; payload and marks are lent with other bytes.
fn receive(window: &Window, numbers: Numbers, random: &mut Random) -> Received {
    let Numbers { encoder, pair } = numbers;
    let history = numbers.history(window.held());
    let (payload, marks) = (random.bytes(PAYLOAD_BYTES), random.bytes(MARKS));
    let (outcome, [_, payload, marks, history]) = compare(
        [window.own(), &payload, &marks, &history],
        |[coded, payload, marks, history]| {
            (LIBRARY.receive_pair)(coded, payload, marks, history, encoder, pair)
        },
        |[coded, payload, marks, history]| {
            rows::receive_pair(coded, payload, marks, history, encoder, pair)
        },
    );
    assert_eq!(outcome, Outcome::accepted(pair + 1));
    assert_eq!(Numbers::of(&history), numbers.next());
    Received {
        payload,
        marks,
        held: history[FRONT_BYTES..].to_vec(),
    }
}

/// A pair as it was sent, and the pairs that encoder and receiver held before it.
struct Sent {
    numbers: Numbers,
    held: Vec<u8>,
    payload: Vec<u8>,
    coded: Vec<u8>,
}

impl Sent {
    /// A random payload, encoded over this history.
    fn over(history: &[u8], random: &mut Random) -> Self {
        let numbers = Numbers::of(history);
        let payload = random.bytes(PAYLOAD_BYTES);
        let (mut coded, mut after) = (vec![0; PAIR_BYTES], history.to_vec());
        let Numbers { encoder, pair } = numbers;
        let outcome = rows::encode_pair(&payload, &mut coded, &mut after, encoder, pair);
        assert_eq!(outcome, Outcome::accepted(pair + 1));
        Sent {
            numbers,
            held: history[FRONT_BYTES..].to_vec(),
            payload,
            coded,
        }
    }

    /// The pair of this number, of a run from fresh with random payloads.
    fn of_run(pair: u32, random: &mut Random) -> Self {
        let mut sent = Self::over(&rows::fresh(any_encoder(random)), random);
        while sent.numbers.pair < pair {
            sent = Self::over(&sent.next_history(), random);
        }
        sent
    }

    /// Of a clean run.
    fn next_history(&self) -> Vec<u8> {
        self.numbers.next().history(self.window().next_held())
    }

    fn window(&self) -> Window {
        Window::new(&self.held, &self.coded, self.numbers.pair)
    }
}

/// Row and bit row of the words of a pair, in the order of the marks.
fn words(pair: u32) -> impl Iterator<Item = (i64, usize)> {
    let of_row = |row| (0..BIT_ROWS).map(move |r| (row, r));
    rows_of(pair).into_iter().flat_map(of_row)
}

/// Flips each place of each word alone, in the coded pair or in the pairs held. It counts, and is repaired, in the back half, and in the
/// front half if the front halves count.
fn flip_every_place(sent: &Sent, random: &mut Random) {
    let mut window = sent.window();
    for (word, (row, r)) in words(sent.numbers.pair).enumerate() {
        for k in 0..WORD_BITS {
            let place = word_bit(row, r, k);
            window.flip(place);
            let received = receive(&window, sent.numbers, random);
            let mut marks = [0; MARKS];
            marks[word] = u8::from(k >= BACK || row >= FIRST_FULL_ROW);
            received.assert_is(&sent.payload, &marks, window.held(), &sent.coded);
            window.flip(place);
        }
    }
}

/// Every bit of every word: a bit that is not read, that counts for another word, or whose power belongs to another place, is repaired
/// elsewhere, counted elsewhere or not found. A flip in front is counted and not stored.
#[test]
fn every_place_of_every_full_word_flipped_alone() {
    let mut random = Random::new(2_000);
    for pair in FULL_PAIRS {
        flip_every_place(&Sent::of_run(pair, &mut random), &mut random);
    }
}

/// The same below pair 10. Places in front must not count, whatever the history holds: the pairs before, or random bytes.
#[test]
fn every_place_of_every_word_with_zeros_in_front_flipped_alone() {
    let mut random = Random::new(2_100);
    for pair in PAIRS_WITH_ZEROS_IN_FRONT {
        flip_every_place(&Sent::of_run(pair, &mut random), &mut random);
        let encoder = any_encoder(&mut random);
        let history = Numbers { encoder, pair }.history(&random.bytes(HELD_BYTES));
        flip_every_place(&Sent::over(&history, &mut random), &mut random);
    }
}

/// Different places of a word from `low` on: any, but often the last one, which is in the parity alone.
fn flips(count: usize, low: usize, random: &mut Random) -> Vec<usize> {
    let mut places = random.distinct(count, low, WORD_BITS - 1);
    if random.between(0, 4) == 0 {
        places[0] = WORD_BITS - 1;
    }
    places
}

/// All words of a pair with two or three flips: two are found, however they lie in the halves and whether the last bit is one of them,
/// and both are stored in their places. With three the word is lost, and its back half passes as it came.
#[test]
fn two_and_three_flips_in_every_word() {
    let mut random = Random::new(2_200);
    let mut counts = [[0; 4]; 2];
    for round in 0..FLIPPED_PAIRS {
        let pair = [3, 10, 1_000, SPENT - 1][round as usize % 4];
        let encoder = any_encoder(&mut random);
        let history = Numbers { encoder, pair }.history(&random.bytes(HELD_BYTES));
        let sent = Sent::over(&history, &mut random);
        let mut window = sent.window();
        let mut marks = Vec::new();
        let mut newest = Vec::new();
        for (word, (row, r)) in words(pair).enumerate() {
            let count = random.between(2, 4);
            let full = row >= FIRST_FULL_ROW;
            let low = if full && random.bit() { 0 } else { BACK };
            for k in flips(count, low, &mut random) {
                window.flip(word_bit(row, r, k));
            }
            marks.push(count as u8);
            let back_half = 16 * word..16 * (word + 1);
            newest.extend(match count {
                2 => &sent.coded[back_half],
                _ => &window.own()[back_half],
            });
            counts[usize::from(full)][count] += 1;
        }
        let received = receive(&window, sent.numbers, &mut random);
        assert_eq!(received.marks, marks);
        assert!(received.newest() == newest);
    }
    for count in [2, 3] {
        assert!(
            counts.iter().all(|counts| counts[count] > 400),
            "{counts:?}"
        );
    }
}

/// Bytes of this many pairs: random, all the same, or a single bit in zeros.
fn any_pairs(count: usize, random: &mut Random) -> Vec<u8> {
    let bytes = count * PAIR_BYTES;
    match random.between(0, 8) {
        0 => vec![[0, 255, 0x55, 0x0f][random.between(0, 4)]; bytes],
        1 => {
            let mut bits = vec![0; bytes];
            bits[random.between(0, bytes)] = 1 << random.between(0, 8);
            bits
        }
        _ => random.bytes(bytes),
    }
}

/// Histories and coded pairs of any bytes, such as no encoder and no receiver makes, about pair 10 and far from it: most words are lost or
/// are repaired to words that nobody sent, as the reference has them.
#[test]
fn arbitrary_histories_and_coded_pairs() {
    let mut random = Random::new(2_300);
    let mut counts = [[0; 4]; 2];
    for _ in 0..ARBITRARY_CALLS {
        let large = random.between(12, SPENT as usize) as u32;
        for pair in [0, 9, 10, 11, large] {
            let encoder = any_encoder(&mut random);
            let (held, own) = (any_pairs(10, &mut random), any_pairs(1, &mut random));
            let window = Window::new(&held, &own, pair);
            let received = receive(&window, Numbers { encoder, pair }, &mut random);
            assert!(received.held.starts_with(&held[PAIR_BYTES..]));
            for mark in received.marks {
                counts[usize::from(pair >= 10)][usize::from(mark)] += 1;
            }
        }
    }
    assert!(counts.iter().flatten().all(|&n| n > 20), "{counts:?}");
}

/// A clean pair: no mark is set, and the newest pair of the history is the coded pair as it came, byte for byte.
fn assert_clean(sent: &Sent, random: &mut Random) {
    let received = receive(&sent.window(), sent.numbers, random);
    received.assert_is(&sent.payload, &[0; MARKS], &sent.held, &sent.coded);
}

/// A receiver may pass a pair without a wrong bit on as it came, and must not change it by the way: in runs from fresh over pair 10, and
/// over any history.
#[test]
fn clean_pairs_enter_the_history_as_they_came() {
    let mut random = Random::new(2_400);
    for encoder in ENCODERS {
        let mut history = rows::fresh(encoder);
        for _ in 0..CLEAN_RUN {
            let sent = Sent::over(&history, &mut random);
            assert_clean(&sent, &mut random);
            history = sent.next_history();
        }
    }
    for round in 0..CLEAN_PAIRS {
        let pair = [0, 9, 10, 11, SPENT - 1][round as usize % 5];
        let encoder = any_encoder(&mut random);
        let history = Numbers { encoder, pair }.history(&any_pairs(10, &mut random));
        assert_clean(&Sent::over(&history, &mut random), &mut random);
    }
}
