//! `ofec_encode_pair` and `ofec_receive_pair` against the reference: answer and every buffer of every
//! call. Pairs go from encoder to receiver as coded pairs.

use std::ops::RangeInclusive;

use ofec_tests::bits;
use ofec_tests::capi;
use ofec_tests::chain::calls::{Calls, LIBRARY};
use ofec_tests::chain::places::Rows;
use ofec_tests::compare::{agreed, misfit, misfits, refused_beyond_32_bits};
use ofec_tests::outcome::{Outcome, COUNT_SPENT, MISFIT, STRAY_HISTORY};
use ofec_tests::pair_calls::{
    any_encoder, any_pair, other, Call, EXTREME_ENCODERS, EXTREME_PAIRS, WAYS,
};
use ofec_tests::random::Random;
use ofec_tests::rows::{
    self, word_bit, Numbers, Place, Window, BIT_ROWS, ENCODERS, FIRST_FULL_ROW, FRONT_BYTES,
    HELD_BYTES, HISTORY_BYTES, MARKS, PAIR_BYTES, PAYLOAD_BYTES, SPENT,
};
use ofec_tests::stand_ins;
use ofec_tests::word::{self, BACK, FREE_BITS, WORD_BITS};

const STREAM_PAIRS: u64 = 260;
const STREAMS: u64 = 8;
const ANY_HISTORY_PAIRS: u64 = 400;
const GARBAGE_PAIRS: u64 = 300;
const _: () = assert!(STREAMS * STREAM_PAIRS >= 2_000);

const ENCODE_LENGTHS: [usize; 3] = [PAYLOAD_BYTES, PAIR_BYTES, HISTORY_BYTES];
const RECEIVE_LENGTHS: [usize; 4] = [PAIR_BYTES, PAYLOAD_BYTES, MARKS, HISTORY_BYTES];

/// Lengths that a history might be taken to have: without its front, or with one number or three; and others
/// that are near these.
const HISTORY_MISFITS: [usize; 18] = [
    0, 1, 4, 7, 8, 9, 512, 4_608, 4_616, 5_116, 5_119, 5_120, 5_121, 5_124, 5_127, 5_129, 5_132,
    5_136,
];

type Encoded = (Outcome, [Vec<u8>; 3]);
type Received = (Outcome, [Vec<u8>; 4]);

/// An encoding call, made by the given calls and by the reference; or what differs.
fn encode_by(calls: &Calls, lent: [&[u8]; 3], named: Numbers) -> Result<Encoded, String> {
    let Numbers { encoder, pair } = named;
    agreed(
        lent,
        |[payload, coded, history]| (calls.encode_pair)(payload, coded, history, encoder, pair),
        |[payload, coded, history]| rows::encode_pair(payload, coded, history, encoder, pair),
    )
}

fn receive_by(calls: &Calls, lent: [&[u8]; 4], named: Numbers) -> Result<Received, String> {
    let Numbers { encoder, pair } = named;
    agreed(
        lent,
        |[coded, payload, marks, history]| {
            (calls.receive_pair)(coded, payload, marks, history, encoder, pair)
        },
        |[coded, payload, marks, history]| {
            rows::receive_pair(coded, payload, marks, history, encoder, pair)
        },
    )
}

fn encode(lent: [&[u8]; 3], named: Numbers) -> Encoded {
    encode_by(&LIBRARY, lent, named).unwrap_or_else(|difference| panic!("{named:?}, {difference}"))
}

fn receive(lent: [&[u8]; 4], named: Numbers) -> Received {
    receive_by(&LIBRARY, lent, named).unwrap_or_else(|difference| panic!("{named:?}, {difference}"))
}

/// A call that must be refused with this number, give the pair number back and leave every buffer.
fn refused_encode(refusal: u32, lent: [&[u8]; 3], named: Numbers) {
    let (answer, buffers) = encode(lent, named);
    assert_eq!(answer, Outcome::refused_pair(refusal, named.pair));
    assert!(lent == all(&buffers));
}

fn refused_receive(refusal: u32, lent: [&[u8]; 4], named: Numbers) {
    let (answer, buffers) = receive(lent, named);
    assert_eq!(answer, Outcome::refused_pair(refusal, named.pair));
    assert!(lent == all(&buffers));
}

/// The bytes of lent buffers.
fn all<const N: usize>(lent: &[Vec<u8>; N]) -> [&[u8]; N] {
    lent.each_ref().map(|bytes| &bytes[..])
}

/// The history of one list of calls, and the calls on it.
struct List {
    history: Vec<u8>,
    random: Random,
}

impl List {
    fn fresh(encoder: u32, seed: u64) -> Self {
        List {
            history: rows::fresh(encoder),
            random: Random::new(seed),
        }
    }

    /// A list of either encoder, at this pair.
    fn at(held: &[u8], pair: u32, seed: u64) -> Self {
        let mut random = Random::new(seed);
        let encoder = any_encoder(&mut random);
        List {
            history: Numbers { encoder, pair }.history(held),
            random,
        }
    }

    /// The numbers in front of the history.
    fn numbers(&self) -> Numbers {
        Numbers::of(&self.history)
    }

    /// What an accepted call answered and left.
    fn accept(&mut self, named: Numbers, outcome: Outcome, history: Vec<u8>) {
        assert_eq!(outcome, Outcome::accepted(named.pair + 1));
        let kept = &self.history[FRONT_BYTES + PAIR_BYTES..];
        assert!(history[FRONT_BYTES..].starts_with(kept));
        assert_eq!(Numbers::of(&history).encoder, named.encoder);
        assert_eq!(Numbers::of(&history).pair, named.pair + 1);
        self.history = history;
    }

    /// The coded pair.
    fn encode(&mut self, payload: &[u8]) -> Vec<u8> {
        let coded = self.random.bytes(PAIR_BYTES);
        let named = self.numbers();
        let (outcome, buffers) = encode([payload, &coded, &self.history], named);
        let [_, coded, history] = buffers;
        self.accept(named, outcome, history);
        coded
    }

    /// Payload and marks.
    fn receive(&mut self, coded: &[u8]) -> (Vec<u8>, Vec<u8>) {
        let payload = self.random.bytes(PAYLOAD_BYTES);
        let marks = self.random.bytes(MARKS);
        let named = self.numbers();
        let (outcome, buffers) = receive([coded, &payload, &marks, &self.history], named);
        let [_, payload, marks, history] = buffers;
        self.accept(named, outcome, history);
        (payload, marks)
    }

    /// Buffers of these lengths: random bytes, the last being the list's own history as far as it goes.
    fn lend<const N: usize>(&mut self, lengths: [usize; N]) -> [Vec<u8>; N] {
        lend(lengths, &self.history, &mut self.random)
    }

    /// Misfit, stray history or count spent, alone or together: the first of them, with the buffers lent
    /// and the numbers named.
    fn refusal<const N: usize>(&mut self, right: [usize; N]) -> (u32, [Vec<u8>; N], Numbers) {
        let random = &mut self.random;
        let reasons = Reasons::ALL[random.between(1, Reasons::ALL.len())];
        let way = random.between(0, WAYS.len());
        let own = Numbers::of(&self.history);
        let Call { front, named } = reasons.call(own, way, random);
        let history = front.history(&self.history[FRONT_BYTES..]);
        let lengths = reasons.lengths(right, random);
        let lent = lend(lengths, &history, random);
        (reasons.refusal(), lent, named)
    }

    fn refused_encode(&mut self) {
        let (refusal, lent, named) = self.refusal(ENCODE_LENGTHS);
        refused_encode(refusal, all(&lent), named);
    }

    fn refused_receive(&mut self) {
        let (refusal, lent, named) = self.refusal(RECEIVE_LENGTHS);
        refused_receive(refusal, all(&lent), named);
    }

    /// The newest pair of the history.
    fn newest(&self) -> &[u8] {
        &self.history[HISTORY_BYTES - PAIR_BYTES..]
    }
}

/// Buffers of these lengths: random bytes, the last being the history as far as it goes.
fn lend<const N: usize>(lengths: [usize; N], history: &[u8], random: &mut Random) -> [Vec<u8>; N] {
    let mut buffers = lengths.map(|length| random.bytes(length));
    let last = &mut buffers[N - 1];
    let common = last.len().min(history.len());
    last[..common].copy_from_slice(&history[..common]);
    buffers
}

/// Which refusals apply to a call.
#[derive(Debug, PartialEq, Eq, Clone, Copy)]
struct Reasons {
    misfit: bool,
    stray: bool,
    spent: bool,
}

impl Reasons {
    /// None, each alone, each two, and all three.
    const ALL: [Reasons; 8] = {
        let mut all = [Reasons::of(0); 8];
        let mut number = 0;
        while number < 8 {
            all[number] = Reasons::of(number);
            number += 1;
        }
        all
    };

    const fn of(number: usize) -> Self {
        Reasons {
            misfit: number & 1 != 0,
            stray: number & 2 != 0,
            spent: number & 4 != 0,
        }
    }

    /// The number of the first that applies, or 0.
    fn refusal(self) -> u32 {
        let tests = [
            (self.misfit, MISFIT),
            (self.stray, STRAY_HISTORY),
            (self.spent, COUNT_SPENT),
        ];
        let first = tests.iter().find(|(applies, _)| *applies);
        first.map_or(0, |&(_, refusal)| refusal)
    }

    /// Numbers for the call, from those of a history; stray in this way.
    fn call(self, mut numbers: Numbers, way: usize, random: &mut Random) -> Call {
        if self.spent {
            numbers.pair = SPENT;
        } else if numbers.pair == SPENT {
            numbers.pair -= 1;
        }
        let mut call = Call::of(numbers);
        if self.stray {
            call = WAYS[way](call, random);
        }
        assert_eq!(call.is_stray(), self.stray, "{way}: {call:?}");
        assert_eq!(call.named.pair == SPENT, self.spent, "{way}: {call:?}");
        call
    }

    fn lengths<const N: usize>(self, right: [usize; N], random: &mut Random) -> [usize; N] {
        if !self.misfit {
            return right;
        }
        if random.between(0, 3) != 0 {
            return misfit(right, random);
        }
        let mut lengths = right;
        lengths[N - 1] = HISTORY_MISFITS[random.between(0, HISTORY_MISFITS.len())];
        lengths
    }
}

/// Words by their mark, those with zeros in front and full ones.
#[derive(Default)]
struct Marks([[u64; 4]; 2]);

impl Marks {
    fn count(&mut self, pair: u32, marks: &[u8]) {
        assert_eq!(marks.len(), MARKS);
        let full = 2 * i64::from(pair) >= FIRST_FULL_ROW;
        for &mark in marks {
            self.0[usize::from(full)][usize::from(mark)] += 1;
        }
    }

    fn assert_each_at_least(&self, least: u64) {
        assert!(self.0.iter().flatten().all(|&n| n >= least), "{:?}", self.0);
    }
}

/// What the line does to the pairs of a stream.
struct Damage {
    /// Of a hundred words, those whose back half is damaged.
    words: usize,
    /// Wrong bits in a damaged back half.
    flips: RangeInclusive<usize>,
    /// Of a hundred pairs, those that are replaced by random bytes.
    garbage: usize,
}

impl Damage {
    fn apply(&self, coded: &mut Vec<u8>, random: &mut Random) {
        if random.between(0, 100) < self.garbage {
            *coded = random.bytes(PAIR_BYTES);
        }
        // The back half of a word is the bits of one bit row.
        for word in 0..MARKS {
            if random.between(0, 100) < self.words {
                let flips = random.between(*self.flips.start(), self.flips.end() + 1);
                for bit in random.distinct(flips, 128 * word, 128 * (word + 1)) {
                    bits::flip(coded, bit);
                }
            }
        }
    }
}

#[test]
fn streams_from_fresh_with_refused_calls_in_between() {
    let damages = [
        (0, 0..=0, 0),
        (2, 1..=2, 0),
        (20, 1..=2, 0),
        (100, 0..=2, 0),
        (1, 1..=6, 0),
        (10, 1..=6, 0),
        (100, 0..=6, 0),
        (3, 1..=3, 5),
    ];
    assert_eq!(damages.len() as u64, STREAMS);
    let mut marked = Marks::default();
    let mut refused = 0;
    for (stream, (words, flips, garbage)) in damages.into_iter().enumerate() {
        let damage = Damage {
            words,
            flips,
            garbage,
        };
        let seed = 100 + 10 * stream as u64;
        let mut random = Random::new(seed);
        let number = ENCODERS[stream % 2];
        let mut encoder = List::fresh(number, seed + 1);
        let mut receiver = List::fresh(number, seed + 2);
        for pair in 0..STREAM_PAIRS as u32 {
            if random.between(0, 3) == 0 {
                encoder.refused_encode();
                receiver.refused_receive();
                refused += 2;
            }
            let payload = random.bytes(PAYLOAD_BYTES);
            let mut coded = encoder.encode(&payload);
            assert!(encoder.newest() == coded);
            damage.apply(&mut coded, &mut random);
            let (received, marks) = receiver.receive(&coded);
            marked.count(pair, &marks);
            // At most two wrong bits in a back half and right front halves: all is repaired.
            if words == 0 {
                assert!(received == payload && marks == [0; MARKS]);
            } else if *damage.flips.end() <= 2 {
                assert!(received == payload && !marks.contains(&3));
                assert!(receiver.newest() == encoder.newest());
            }
        }
        let end = Numbers {
            encoder: number,
            pair: STREAM_PAIRS as u32,
        };
        assert_eq!([encoder.numbers(), receiver.numbers()], [end; 2]);
    }
    marked.assert_each_at_least(100);
    assert!(refused > 1_000, "{refused}");
}

/// The ten pairs of a history.
fn any_held(random: &mut Random) -> Vec<u8> {
    match random.between(0, 8) {
        0 => vec![0; HELD_BYTES],
        1 => vec![255; HELD_BYTES],
        _ => random.bytes(HELD_BYTES),
    }
}

/// Each word gets 0 to 6 wrong bits of its own, in the pair and in the history held. Of at most three
/// that count the answer is known: two or fewer are repaired, three are lost.
#[test]
fn histories_in_any_state_and_words_with_zero_to_six_wrong_bits() {
    let mut random = Random::new(200);
    let mut marked = Marks::default();
    let mut known = 0;
    for round in 0..ANY_HISTORY_PAIRS {
        let pair = any_pair(&mut random);
        let held = any_held(&mut random);
        let payload = random.bytes(PAYLOAD_BYTES);
        let mut encoder = List::at(&held, pair, 2 * round);
        let sent = encoder.encode(&payload);
        let mut window = Window::new(&held, &sent, pair);
        let mut wrong = Vec::new();
        for row in rows::rows_of(pair) {
            for r in 0..BIT_ROWS {
                let low = if random.bit() { 0 } else { BACK };
                let flips = random.between(0, 7);
                let places = random.distinct(flips, low, WORD_BITS);
                for &k in &places {
                    window.flip(word_bit(row, r, k));
                }
                let counts = |k: &&usize| **k >= BACK || row >= FIRST_FULL_ROW;
                wrong.push(places.iter().filter(counts).count());
            }
        }

        let mut receiver = List::at(window.held(), pair, 2 * round + 1);
        let (_, marks) = receiver.receive(window.own());
        marked.count(pair, &marks);
        for (word, &wrong) in wrong.iter().enumerate().filter(|(_, &wrong)| wrong <= 3) {
            let back_half = 16 * word..16 * (word + 1);
            let (passed, received) = (receiver.newest(), window.own());
            assert_eq!(usize::from(marks[word]), wrong);
            if wrong <= 2 {
                assert!(passed[back_half.clone()] == sent[back_half]);
            } else {
                assert!(passed[back_half.clone()] == received[back_half]);
            }
            known += 1;
        }
    }
    marked.assert_each_at_least(400);
    assert!(known > 4_000, "{known}");
}

#[test]
fn random_bytes_for_pair_and_history() {
    let mut random = Random::new(300);
    let mut marked = Marks::default();
    for round in 0..GARBAGE_PAIRS {
        let pair = any_pair(&mut random);
        let held = any_held(&mut random);
        let coded = random.bytes(PAIR_BYTES);
        let (_, marks) = List::at(&held, pair, round).receive(&coded);
        marked.count(pair, &marks);
    }
    // A random word is a code word once in 2^17 times, and one flip away from one in 2^9.
    assert!(marked.0[1][1] > 0 && marked.0[1][2] > 500 && marked.0[1][3] > 500);
    assert!(marked.0[0][2] > 100 && marked.0[0][3] > 500);
}

/// The pair that is coded from a history with the bits at these places and from no payload.
fn coded_from(places: &[Place], pair: u32) -> Vec<u8> {
    let mut window = Window::new(&[0; HELD_BYTES], &[0; PAIR_BYTES], pair);
    for &place in places {
        window.flip(place);
    }
    let mut encoder = List::at(window.held(), pair, 400);
    encoder.encode(&[0; PAYLOAD_BYTES])
}

/// The pair with the code word of a single free bit k in the word of row 2P+`row`, bit row `r`.
fn only_word(row: usize, r: usize, k: usize) -> Vec<u8> {
    let free: [bool; FREE_BITS] = std::array::from_fn(|place| place == k);
    let mut coded = vec![0; PAIR_BYTES];
    for (k, &bit) in word::complete(&free)[BACK..].iter().enumerate() {
        let index = 2048 * row + 128 * r + 16 * (k / 16) + ((k % 16) ^ r);
        bits::set(&mut coded, index, bit);
    }
    coded
}

#[test]
fn bench_values_of_front_halves() {
    let v = |row, block, bit_row, column| Place {
        row,
        block,
        bit_row,
        column,
    };
    // Word (20, 0): bit 0 is V(1, 0, 0, 0), bit 127 is V(15, 7, 15, 0).
    assert_eq!(coded_from(&[v(1, 0, 0, 0)], 10), only_word(0, 0, 0));
    assert_eq!(coded_from(&[v(15, 7, 15, 0)], 10), only_word(0, 0, 127));
    // V(14, 7, 2, 5) is bit 119 of word (21, 5).
    assert_eq!(coded_from(&[v(14, 7, 2, 5)], 10), only_word(1, 5, 119));
    // V(13, 7, r, c) is in no front half that counts: rows 14 to 33 have it in their histories.
    let mut block = Vec::new();
    for bit_row in 0..16 {
        block.extend((0..16).map(|column| v(13, 7, bit_row, column)));
    }
    for pair in 7..=16 {
        assert_eq!(coded_from(&block, pair), [0; PAIR_BYTES]);
    }
}

#[test]
fn bench_values_of_payload_bits() {
    // Payload bits 3087 and 3551 are of pair 0; 3552 is the first one of pair 1.
    for (pair, index, (row, r, k)) in [
        (0, 3087, (0, 1, 96)),
        (0, 3551, (1, 15, 110)),
        (1, 3552 - 3552, (0, 0, 0)),
    ] {
        let mut payload = vec![0; PAYLOAD_BYTES];
        bits::flip(&mut payload, index);
        let mut encoder = List::at(&[0; HELD_BYTES], pair, 500);
        let coded = encoder.encode(&payload);
        assert_eq!(coded, only_word(row, r, 128 + k));
        let mut receiver = List::at(&[0; HELD_BYTES], pair, 501);
        assert_eq!(receiver.receive(&coded), (payload, vec![0; MARKS]));
    }
}

/// The history after the last pair: the number that it shows is spent, and every other one is not its own.
#[test]
fn last_pair_passes_and_every_number_after_it_is_refused() {
    let mut random = Random::new(600);
    for round in 0..4 {
        let held = random.bytes(HELD_BYTES);
        let mut encoder = List::at(&held, 4_294_967_294, 2 * round);
        let mut receiver = List::at(&held, 4_294_967_294, 2 * round + 1);
        let payload = random.bytes(PAYLOAD_BYTES);
        let coded = encoder.encode(&payload);
        assert_eq!(receiver.receive(&coded), (payload, vec![0; MARKS]));
        assert_eq!(encoder.numbers().pair, 4_294_967_295);
        assert_eq!(receiver.numbers().pair, 4_294_967_295);

        let others: [_; 20] = std::array::from_fn(|_| other(SPENT, &mut random));
        for pair in EXTREME_PAIRS.into_iter().chain(others) {
            let refusal = match pair {
                SPENT => COUNT_SPENT,
                _ => STRAY_HISTORY,
            };
            let lent = encoder.lend(ENCODE_LENGTHS);
            let named = Numbers {
                pair,
                ..encoder.numbers()
            };
            refused_encode(refusal, all(&lent), named);
            let lent = receiver.lend(RECEIVE_LENGTHS);
            let named = Numbers {
                pair,
                ..receiver.numbers()
            };
            refused_receive(refusal, all(&lent), named);
        }
    }
}

#[test]
fn wrong_lengths_are_refused_before_the_numbers_and_touch_nothing() {
    let mut random = Random::new(700);
    let mut list = List::at(&random.bytes(HELD_BYTES), 7, 701);
    let own = list.numbers();
    // Its own numbers, or others, of which one may be spent.
    let mut named = || {
        let encoder = EXTREME_ENCODERS[random.between(0, EXTREME_ENCODERS.len())];
        let pair = any_pair(&mut random);
        let spent = Numbers { pair: SPENT, ..own };
        [
            own,
            Numbers { pair, ..own },
            Numbers { encoder, ..own },
            spent,
        ]
    };
    let mut random = Random::new(702);
    let mut encoding = misfits(ENCODE_LENGTHS, &mut random);
    encoding.extend(HISTORY_MISFITS.map(|length| [PAYLOAD_BYTES, PAIR_BYTES, length]));
    for lengths in encoding {
        let lent = list.lend(lengths);
        for named in named() {
            refused_encode(MISFIT, all(&lent), named);
        }
    }
    let mut receiving = misfits(RECEIVE_LENGTHS, &mut random);
    receiving.extend(HISTORY_MISFITS.map(|length| [PAIR_BYTES, PAYLOAD_BYTES, MARKS, length]));
    for lengths in receiving {
        let lent = list.lend(lengths);
        for named in named() {
            refused_receive(MISFIT, all(&lent), named);
        }
    }
}

#[test]
fn lengths_beyond_32_bits_are_refused() {
    let refused = Outcome::refused_pair(MISFIT, 10);
    refused_beyond_32_bits(refused, ENCODE_LENGTHS, |[payload, coded, history]| {
        capi::encode_pair(payload, coded, history, 0, 10)
    });
    refused_beyond_32_bits(
        refused,
        RECEIVE_LENGTHS,
        |[coded, payload, marks, history]| {
            capi::receive_pair(coded, payload, marks, history, 0, 10)
        },
    );
}

/// For each set of refusals that apply: calls of each way to be stray, or of none.
const ROUNDS_OF_A_WAY: usize = 25;
const ROUNDS_NOT_STRAY: usize = 250;
const DRAWN: usize = 4 * (WAYS.len() * ROUNDS_OF_A_WAY + ROUNDS_NOT_STRAY);
const _: () = assert!(DRAWN >= 2_000);

/// Histories for drawn calls: every other one is that of a stream from fresh, with its numbers.
struct Histories {
    stream: List,
}

impl Histories {
    fn new() -> Self {
        Histories {
            stream: List::fresh(1, 801),
        }
    }

    fn draw(&mut self, random: &mut Random) -> (Numbers, Vec<u8>) {
        if random.bit() {
            let numbers = Numbers {
                encoder: any_encoder(random),
                pair: any_pair(random),
            };
            return (numbers, any_held(random));
        }
        let numbers = self.stream.numbers();
        let held = self.stream.history[FRONT_BYTES..].to_vec();
        let (mut coded, payload) = (vec![0; PAIR_BYTES], random.bytes(PAYLOAD_BYTES));
        let Numbers { encoder, pair } = numbers;
        let history = &mut self.stream.history;
        let outcome = rows::encode_pair(&payload, &mut coded, history, encoder, pair);
        assert_eq!(outcome.refusal, 0);
        (numbers, held)
    }
}

/// Makes calls with each refusal alone, each two together, all three and none: the first that applies is
/// given, with the pair number as named, and every buffer stays. Gives the number of calls by refusal, or
/// what the first call differs in.
fn drawn<const N: usize>(
    right: [usize; N],
    mut call: impl FnMut([&[u8]; N], Numbers) -> Result<(Outcome, [Vec<u8>; N]), String>,
) -> Result<[usize; 7], String> {
    let mut random = Random::new(800);
    let mut histories = Histories::new();
    let mut counts = [0; 7];
    for reasons in Reasons::ALL {
        let ways = if reasons.stray { WAYS.len() } else { 1 };
        let rounds = [ROUNDS_NOT_STRAY, ROUNDS_OF_A_WAY][usize::from(reasons.stray)];
        for round in 0..ways * rounds {
            let (own, held) = histories.draw(&mut random);
            let Call { front, named } = reasons.call(own, round % ways, &mut random);
            let lengths = reasons.lengths(right, &mut random);
            let lent = lend(lengths, &front.history(&held), &mut random);
            let (outcome, after) = call(all(&lent), named)
                .map_err(|difference| format!("{reasons:?}, {front:?}, {named:?}: {difference}"))?;
            assert_eq!(outcome.refusal, reasons.refusal());
            counts[outcome.refusal as usize] += 1;
            if outcome.refusal != 0 {
                assert_eq!(
                    outcome,
                    Outcome::refused_pair(reasons.refusal(), named.pair)
                );
                assert!(after == lent);
            } else {
                assert_eq!(outcome, Outcome::accepted(named.pair + 1));
                let history = &after[N - 1];
                assert_eq!(Numbers::of(history), named.next());
                let (kept, newest) = history[FRONT_BYTES..].split_at(HELD_BYTES - PAIR_BYTES);
                assert!(*kept == held[PAIR_BYTES..] && newest.len() == PAIR_BYTES);
            }
        }
    }
    assert_eq!(counts.iter().sum::<usize>(), DRAWN);
    Ok(counts)
}

fn drawn_encoding(calls: &Calls) -> Result<[usize; 7], String> {
    drawn(ENCODE_LENGTHS, |lent, named| encode_by(calls, lent, named))
}

fn drawn_receiving(calls: &Calls) -> Result<[usize; 7], String> {
    drawn(RECEIVE_LENGTHS, |lent, named| {
        receive_by(calls, lent, named)
    })
}

#[test]
fn every_refusal_alone_and_together_with_every_other() {
    let [of_a_way, not_stray] = [WAYS.len() * ROUNDS_OF_A_WAY, ROUNDS_NOT_STRAY];
    let mut expected = [0; 7];
    expected[0] = not_stray;
    expected[MISFIT as usize] = 2 * (of_a_way + not_stray);
    expected[STRAY_HISTORY as usize] = 2 * of_a_way;
    expected[COUNT_SPENT as usize] = not_stray;
    assert_eq!(drawn_encoding(&LIBRARY), Ok(expected));
    assert_eq!(drawn_receiving(&LIBRARY), Ok(expected));
}

/// Faults put in on purpose are found by the same calls.
#[test]
fn stand_ins_with_a_slip_about_the_history_are_found() {
    for (slip, calls) in stand_ins::all() {
        assert!(drawn_encoding(&calls).is_err(), "{slip}");
        assert!(drawn_receiving(&calls).is_err(), "{slip}");
    }
}

/// Every extreme number in front of the history with every other one named: accepted only where both are
/// the same, of encoder 0 or 1 and below the largest pair number.
#[test]
fn extreme_numbers_in_front_and_named() {
    let mut random = Random::new(900);
    let held = random.bytes(HELD_BYTES);
    let lent = lend(RECEIVE_LENGTHS, &[], &mut random);
    let [coded, payload, marks, _] = &lent;
    let both = |numbers: &[u32]| -> Vec<[u32; 2]> {
        let beside = |&front: &u32| numbers.iter().map(move |&named| [front, named]);
        numbers.iter().flat_map(beside).collect()
    };
    let mut accepted = Vec::new();
    for encoders in both(&EXTREME_ENCODERS) {
        for pairs in both(&EXTREME_PAIRS) {
            let [front, named] = [0, 1].map(|which| Numbers {
                encoder: encoders[which],
                pair: pairs[which],
            });
            let history = front.history(&held);
            let (encoded, _) = encode([payload, coded, &history], named);
            let (received, _) = receive([coded, payload, marks, &history], named);
            assert_eq!(encoded, received);
            if encoded.refusal == 0 {
                assert_eq!(front, named);
                accepted.push(named);
            }
        }
    }
    let unspent = &EXTREME_PAIRS[..EXTREME_PAIRS.len() - 1];
    let of = |encoder| unspent.iter().map(move |&pair| Numbers { encoder, pair });
    let expected: Vec<_> = ENCODERS.into_iter().flat_map(of).collect();
    assert_eq!(accepted, expected);
}

/// A history with one bit in front of its pairs changed is stray.
#[test]
fn single_bits_of_the_front() {
    let mut random = Random::new(1_000);
    for encoder in ENCODERS {
        for pair in EXTREME_PAIRS {
            let named = Numbers { encoder, pair };
            let own = named.history(&random.bytes(HELD_BYTES));
            for bit in 0..8 * FRONT_BYTES {
                let mut history = own.clone();
                bits::flip(&mut history, bit);
                let lent = lend(ENCODE_LENGTHS, &history, &mut random);
                refused_encode(STRAY_HISTORY, all(&lent), named);
                let lent = lend(RECEIVE_LENGTHS, &history, &mut random);
                refused_receive(STRAY_HISTORY, all(&lent), named);
            }
        }
    }
}

/// What a call of a list names, and whether its buffers fit: mostly what the history shows, otherwise other
/// numbers that are near or far.
fn any_named(shown: Numbers, random: &mut Random) -> (Numbers, bool) {
    let encoder = EXTREME_ENCODERS[random.between(0, EXTREME_ENCODERS.len())];
    let pair = match random.between(0, 3) {
        0 => EXTREME_PAIRS[random.between(0, EXTREME_PAIRS.len())],
        1 => random.between(0, 60) as u32,
        _ => other(shown.pair, random),
    };
    let named = match random.between(0, 8) {
        0 => Numbers { encoder, pair },
        1 => Numbers { encoder, ..shown },
        2 => Numbers {
            encoder: shown.encoder ^ 1,
            ..shown
        },
        3 | 4 => Numbers { pair, ..shown },
        _ => shown,
    };
    (named, random.between(0, 8) != 0)
}

const LISTS: u64 = 6;
const LIST_CALLS: u64 = 400;
const _: () = assert!(LISTS * LIST_CALLS >= 2_000);

/// From a fresh history, passed on from answer to call, whatever the calls name.
#[test]
fn accepted_calls_of_a_list_are_its_encoders_pairs_in_order() {
    for list in 0..LISTS {
        let mut random = Random::new(1_100 + list);
        let encoder = ENCODERS[list as usize % 2];
        let mut sender = rows::fresh(encoder);
        let mut receiver = rows::fresh(encoder);
        let (mut encoded, mut received) = (Vec::new(), Vec::new());
        let (mut payloads, mut line, mut out) = (Vec::new(), Vec::new(), Vec::new());
        let mut refused = [0; 7];
        for _ in 0..LIST_CALLS {
            let (named, fits) = any_named(Numbers::of(&sender), &mut random);
            let reasons = Reasons {
                misfit: !fits,
                ..Reasons::ALL[0]
            };
            let lengths = reasons.lengths(ENCODE_LENGTHS, &mut random);
            let lent = lend(lengths, &sender, &mut random);
            let (outcome, [payload, coded, history]) = encode(all(&lent), named);
            if outcome.refusal == 0 {
                encoded.push(named);
                payloads.extend(payload);
                line.extend(coded);
                sender = history;
            }
            refused[outcome.refusal as usize] += 1;

            // The next pair that the receiver takes, if it is sent already.
            let taken = PAIR_BYTES * received.len();
            let Some(coded) = line.get(taken..taken + PAIR_BYTES) else {
                continue;
            };
            let (named, fits) = any_named(Numbers::of(&receiver), &mut random);
            let reasons = Reasons {
                misfit: !fits,
                ..Reasons::ALL[0]
            };
            let lengths = reasons.lengths(RECEIVE_LENGTHS, &mut random);
            let mut lent = lend(lengths, &receiver, &mut random);
            if fits {
                lent[0].copy_from_slice(coded);
            }
            let (outcome, [_, payload, marks, history]) = receive(all(&lent), named);
            if outcome.refusal == 0 {
                received.push(named);
                out.extend(payload);
                assert_eq!(marks, [0; MARKS]);
                receiver = history;
            }
            refused[outcome.refusal as usize] += 1;
        }
        for (accepted, history) in [(&encoded, &sender), (&received, &receiver)] {
            let pairs = (0..).take(accepted.len());
            let in_order = pairs.map(|pair| Numbers { encoder, pair });
            assert!(accepted.iter().copied().eq(in_order));
            let end = accepted.last().expect("an accepted call").next();
            assert_eq!(Numbers::of(history), end);
            assert!(accepted.len() > 80, "{}", accepted.len());
        }
        assert!(Rows::of(&line) == Rows::sent(&payloads));
        assert!(payloads.starts_with(&out));
        assert!(refused[MISFIT as usize] > 20 && refused[STRAY_HISTORY as usize] > 100);
    }
}

/// A history that is fresh for an encoder that there is not takes no call.
#[test]
fn no_call_is_accepted_on_the_history_of_an_encoder_above_1() {
    let mut random = Random::new(1_200);
    for encoder in EXTREME_ENCODERS.into_iter().filter(|&encoder| encoder > 1) {
        let history = rows::fresh(encoder);
        for round in 0..30 {
            let named = match round {
                0 => Numbers::of(&history),
                _ => any_named(Numbers::of(&history), &mut random).0,
            };
            let lent = lend(ENCODE_LENGTHS, &history, &mut random);
            refused_encode(STRAY_HISTORY, all(&lent), named);
            let lent = lend(RECEIVE_LENGTHS, &history, &mut random);
            refused_receive(STRAY_HISTORY, all(&lent), named);
        }
    }
}

/// Pair 9 has zeros in front and pair 10 is full: the numbers go on, and the pairs held are those before.
#[test]
fn from_pair_9_to_pair_10() {
    let mut random = Random::new(1_300);
    for encoder in ENCODERS {
        let mut sender = List::fresh(encoder, 1_301);
        let mut receiver = List::fresh(encoder, 1_302);
        let mut line = Vec::new();
        for pair in 0..13 {
            let named = Numbers { encoder, pair };
            assert_eq!([sender.numbers(), receiver.numbers()], [named; 2]);
            let payload = random.bytes(PAYLOAD_BYTES);
            let coded = sender.encode(&payload);
            assert_eq!(receiver.receive(&coded), (payload, vec![0; MARKS]));
            line.extend(coded);
            assert!(sender.history == receiver.history);
            let held = [vec![0; HELD_BYTES], line.clone()].concat();
            assert!(sender.history[FRONT_BYTES..] == held[held.len() - HELD_BYTES..]);
            // The call before cannot be made again.
            let lent = sender.lend(ENCODE_LENGTHS);
            refused_encode(STRAY_HISTORY, all(&lent), named);
            let lent = receiver.lend(RECEIVE_LENGTHS);
            refused_receive(STRAY_HISTORY, all(&lent), named);
        }
    }
}
