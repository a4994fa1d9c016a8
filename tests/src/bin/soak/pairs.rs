//! Words and pairs.

use ofec_tests::bits;
use ofec_tests::capi;
use ofec_tests::chain::sending::List;
use ofec_tests::compare::agreed;
use ofec_tests::pair_calls::{above, any_encoder, other, Call, WAYS};
use ofec_tests::random::Random;
use ofec_tests::rows::{
    self, Numbers, FRONT_BYTES, HELD_BYTES, MARKS, PAIR_BYTES, PAYLOAD_BYTES, SPENT,
};
use ofec_tests::word::{self, WORD_BITS, WORD_BYTES};

use crate::draw::{any_number, lent, rarely, to_write};
use crate::entry_points::Verdict;
use crate::round::Round;

const MOST_FLIPS: usize = 6;

pub fn repair_word(round: &mut Round) -> Verdict {
    let random = &mut round.random;
    let front = [0, 1, any_number(random)][random.between(0, 3)];
    let bytes = lent(damaged_word(random), random);
    let (outcome, _) = agreed(
        [&bytes],
        |[word]| capi::repair_word(word, front),
        |[word]| word::repair_word(word, front),
    )
    .map_err(|difference| format!("front {front}, word {bytes:02x?}, {difference}"))?;
    Ok(outcome.refusal)
}

/// Any bytes, or a code word with so many flips, in both halves or one.
fn damaged_word(random: &mut Random) -> Vec<u8> {
    if rarely(8, random) {
        return random.bytes(WORD_BYTES);
    }
    let code_word = word::complete(&std::array::from_fn(|_| random.bit()));
    let flips = random.between(0, MOST_FLIPS + 1);
    let (low, high) = [(0, WORD_BITS), (0, 128), (128, WORD_BITS)][random.between(0, 3)];
    let places = random.distinct(flips, low, high);
    word::to_bytes(&word::flipped(&code_word, &places)).to_vec()
}

pub fn encode_pair(round: &mut Round) -> Verdict {
    let random = &mut round.random;
    let goes_on = random.bit();
    let (history, named) = if goes_on {
        going_on(&round.encoder, random)
    } else {
        any_history(random)
    };
    let Numbers { encoder, pair } = named;
    let payload = lent(random.bytes(PAYLOAD_BYTES), random);
    let coded = to_write(PAIR_BYTES, random);
    let history = lent(history, random);
    let (outcome, [_, _, history]) = agreed(
        [&payload, &coded, &history],
        |[payload, coded, history]| capi::encode_pair(payload, coded, history, encoder, pair),
        |[payload, coded, history]| rows::encode_pair(payload, coded, history, encoder, pair),
    )
    .map_err(|difference| format!("encoder {encoder}, pair {pair}, {difference}"))?;
    if goes_on && outcome.refusal == 0 {
        round.encoder.history = history;
        round.encoder.accept(outcome);
    }
    Ok(outcome.refusal)
}

pub fn receive_pair(round: &mut Round) -> Verdict {
    let random = &mut round.random;
    let goes_on = random.bit();
    let mut sender = round.sender.clone();
    let (coded, (history, named)) = if goes_on {
        (
            sent_with_errors(&mut sender, random),
            going_on(&round.receiver, random),
        )
    } else {
        (random.bytes(PAIR_BYTES), any_history(random))
    };
    let Numbers { encoder, pair } = named;
    let coded = lent(coded, random);
    let payload = to_write(PAYLOAD_BYTES, random);
    let marks = to_write(MARKS, random);
    let history = lent(history, random);
    let (outcome, [_, _, _, history]) = agreed(
        [&coded, &payload, &marks, &history],
        |[coded, payload, marks, history]| {
            capi::receive_pair(coded, payload, marks, history, encoder, pair)
        },
        |[coded, payload, marks, history]| {
            rows::receive_pair(coded, payload, marks, history, encoder, pair)
        },
    )
    .map_err(|difference| format!("encoder {encoder}, pair {pair}, {difference}"))?;
    if goes_on && outcome.refusal == 0 {
        round.sender = sender;
        round.receiver.history = history;
        round.receiver.accept(outcome);
    }
    Ok(outcome.refusal)
}

/// The sender's next pair, with up to six wrong bits in some of its words.
fn sent_with_errors(sender: &mut List, random: &mut Random) -> Vec<u8> {
    let mut coded = vec![0; PAIR_BYTES];
    let payload = random.bytes(PAYLOAD_BYTES);
    let Numbers { encoder, pair } = sender.numbers;
    let outcome = rows::encode_pair(&payload, &mut coded, &mut sender.history, encoder, pair);
    sender.accept(outcome);
    for word in 0..MARKS {
        if rarely(3, random) {
            let flips = random.between(0, MOST_FLIPS + 1);
            for place in random.distinct(flips, 128 * word, 128 * (word + 1)) {
                bits::flip(&mut coded, place);
            }
        }
    }
    coded
}

/// The history of a list, and the numbers of its next call; now and then others are named.
fn going_on(list: &List, random: &mut Random) -> (Vec<u8>, Numbers) {
    let mut named = list.numbers;
    if rarely(6, random) {
        named.encoder = [named.encoder ^ 1, above(random)][random.between(0, 2)];
    }
    if rarely(6, random) {
        named.pair = other(named.pair, random);
    }
    (list.history.clone(), named)
}

/// A history of any content, at a pair near the start, at the end, or any; and the numbers that the call
/// names, to which the history is stray every other time.
fn any_history(random: &mut Random) -> (Vec<u8>, Numbers) {
    let held = if random.bit() {
        random.bytes(HELD_BYTES)
    } else {
        vec![0; HELD_BYTES]
    };
    let pair = match random.between(0, 5) {
        0 => random.between(0, 24) as u32,
        1 => SPENT - 1,
        2 => SPENT,
        _ => any_number(random),
    };
    let encoder = any_encoder(random);
    let mut call = Call::of(Numbers { encoder, pair });
    if random.bit() {
        call = WAYS[random.between(0, WAYS.len())](call, random);
    }
    let mut history = call.front.history(&held);
    if rarely(20, random) {
        // Without its front.
        history.drain(..FRONT_BYTES);
    }
    (history, call.named)
}
