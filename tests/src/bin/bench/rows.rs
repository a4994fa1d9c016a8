//! Encoding and receiving the pairs of a super-frame.

use ofec_tests::bits;
use ofec_tests::chain::calls::{Encode, Receive, LIBRARY};
use ofec_tests::random::Random;
use ofec_tests::rows::{self, MARKS, PAIR_BYTES, PAYLOAD_BYTES};
use ofec_tests::word::LOST;

use crate::for_speed::pairs;
use crate::same_structure;
use crate::table::{for_speed, row};

/// Pairs of a super-frame of 16-QAM: 21 of each encoder in each of eight buffers.
pub const PAIRS: usize = 336;
/// The encoder whose pairs they are taken to be.
const ENCODER: u32 = 1;

/// Coded pairs as they are received, with a word on their damage.
pub struct Stream {
    damage: String,
    coded: Vec<u8>,
}

/// Pairs as they are encoded, and their streams.
pub struct Pairs {
    payloads: Vec<u8>,
    streams: [Stream; 3],
}

/// Gives the pairs that were encoded and received, and a line about their damage.
pub fn run(random: &mut Random) -> (Pairs, String) {
    let payloads = random.bytes(PAIRS * PAYLOAD_BYTES);
    let coded = row(
        "encode 336 pairs",
        vec![0; PAIRS * PAIR_BYTES],
        [
            &|coded| encode_all(LIBRARY.encode_pair, &payloads, coded),
            &|coded| encode_all(rows::encode_pair, &payloads, coded),
            &|coded| encode_all(same_structure::encode_pair, &payloads, coded),
        ],
    );
    let [one, four] = [1, 4].map(|in_a_thousand| Stream {
        damage: format!("{in_a_thousand} in 1000 bits wrong"),
        coded: damaged(&coded, in_a_thousand, random),
    });
    let clean = Stream {
        damage: "clean".to_string(),
        coded,
    };
    let streams = [clean, one, four];
    let [_, one, four] = streams.each_ref().map(receive);
    let damage = format!("Of 10,752 words, {one}; {four}.");
    (Pairs { payloads, streams }, damage)
}

/// Says how many words were flawed.
fn receive(stream: &Stream) -> String {
    let Stream { damage, coded } = stream;
    let received = row(
        &format!("receive 336 pairs, {damage}"),
        Received::of(PAIRS),
        [
            &|received| receive_all(LIBRARY.receive_pair, coded, received),
            &|received| receive_all(rows::receive_pair, coded, received),
            &|received| receive_all(same_structure::receive_pair, coded, received),
        ],
    );
    let count = |mark| received.marks.iter().filter(|&&m| m == mark).count();
    let (repaired, lost) = (count(1) + count(2), count(LOST as u8));
    format!("with {damage}, {repaired} were repaired and {lost} lost")
}

/// The same works beside Rust code written for speed.
pub fn beside_speed(Pairs { payloads, streams }: &Pairs) {
    for_speed(
        "encode 336 pairs",
        vec![0; PAIRS * PAIR_BYTES],
        [
            &|coded| encode_all(LIBRARY.encode_pair, payloads, coded),
            &|coded| encode_all(same_structure::encode_pair, payloads, coded),
            &|coded| encode_all(pairs::encode_pair, payloads, coded),
        ],
    );
    for Stream { damage, coded } in streams {
        for_speed(
            &format!("receive 336 pairs, {damage}"),
            Received::of(PAIRS),
            [
                &|received| receive_all(LIBRARY.receive_pair, coded, received),
                &|received| receive_all(same_structure::receive_pair, coded, received),
                &|received| receive_all(pairs::receive_pair, coded, received),
            ],
        );
    }
}

/// Each bit is wrong with this probability.
fn damaged(coded: &[u8], in_a_thousand: usize, random: &mut Random) -> Vec<u8> {
    let mut damaged = coded.to_vec();
    for index in 0..8 * coded.len() {
        if random.between(0, 1000) < in_a_thousand {
            bits::flip(&mut damaged, index);
        }
    }
    damaged
}

/// The pairs of one encoder from fresh.
pub fn encode_all(encode: Encode, payloads: &[u8], coded: &mut [u8]) {
    let mut history = rows::fresh(ENCODER);
    let mut pair = 0;
    let pairs = payloads
        .chunks(PAYLOAD_BYTES)
        .zip(coded.chunks_mut(PAIR_BYTES));
    for (payload, coded) in pairs {
        pair = encode(payload, coded, &mut history, ENCODER, pair).value;
    }
    assert_eq!(pair as usize, payloads.len() / PAYLOAD_BYTES);
}

/// What is received of some pairs.
#[derive(Clone, PartialEq)]
pub struct Received {
    pub payloads: Vec<u8>,
    pub marks: Vec<u8>,
}

impl Received {
    /// Buffers for so many pairs.
    pub fn of(pairs: usize) -> Self {
        Received {
            payloads: vec![0; pairs * PAYLOAD_BYTES],
            marks: vec![0; pairs * MARKS],
        }
    }
}

/// The pairs of one receiver from fresh.
pub fn receive_all(receive: Receive, coded: &[u8], received: &mut Received) {
    let mut history = rows::fresh(ENCODER);
    let mut pair = 0;
    let places = received
        .payloads
        .chunks_mut(PAYLOAD_BYTES)
        .zip(received.marks.chunks_mut(MARKS));
    for (coded, (payload, marks)) in coded.chunks(PAIR_BYTES).zip(places) {
        pair = receive(coded, payload, marks, &mut history, ENCODER, pair).value;
    }
    assert_eq!(pair as usize, coded.len() / PAIR_BYTES);
}
