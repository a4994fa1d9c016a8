//! That the checks of whole runs tell right from wrong: faults put on purpose into the library's answers
//! of a sound run, each reported as the claim that it breaks. Pairs are received alike in both profiles, so
//! faults of a receiver are shown in one, and those of the line's calls in both.

use std::panic::{catch_unwind, UnwindSafe};
use std::sync::LazyLock;

use ofec_tests::bits;
use ofec_tests::capi;
use ofec_tests::chain::calls::{Calls, Receive, LIBRARY};
use ofec_tests::chain::claims::{check, check_frames, wrong_bits, Breach, Out, LIMIT};
use ofec_tests::chain::damage::Damage;
use ofec_tests::chain::places::{
    flip, in_front, index, on_line, words, words_of, Name, Rows, PAIR_BITS,
};
use ofec_tests::chain::receiving::{receive, take, Received, Taken};
use ofec_tests::chain::sending::{send, Sent};
use ofec_tests::chain::Difference;
use ofec_tests::frames::OVERHEAD_BYTES;
use ofec_tests::outcome::{Outcome, COUNT_SPENT, MISFIT};
use ofec_tests::profile::Profile;
use ofec_tests::random::Random;
use ofec_tests::rows::{
    self, payload_bit, Numbers, Window, FIRST_FULL_ROW, FRONT_BYTES, HISTORY_BYTES, MARKS,
    PAIR_BYTES,
};
use ofec_tests::stand_ins;
use ofec_tests::word::{self, BACK, FREE_BITS, WORD_BITS, WORD_BYTES};

/// Pairs that each receiver takes.
const TAKEN: usize = 30;
/// Bits in front of the pairs of a history.
const FRONT_BITS: usize = 8 * FRONT_BYTES;

/// A run of one super-frame through the library, with up to three wrong bits in many of its words.
struct Sound {
    profile: Profile,
    payloads: [Vec<u8>; 2],
    overhead: Vec<u8>,
    /// What was sent, by the formulas, and what the line delivered.
    sent: [Rows; 2],
    line: [Rows; 2],
    /// The frames before the line.
    frames: Vec<u8>,
    pairs: [Vec<u8>; 2],
    received: [Received; 2],
}

static SOUND: LazyLock<Sound> = LazyLock::new(|| Sound::of(Profile::Qam16));
static SOUND_QPSK: LazyLock<Sound> = LazyLock::new(|| Sound::of(Profile::Qpsk));

/// The sound run of each profile.
fn both() -> [&'static Sound; 2] {
    [&SOUND, &SOUND_QPSK]
}

impl Sound {
    fn of(profile: Profile) -> Self {
        let mut random = Random::new(20_000);
        let payloads = [0; 2].map(|_| random.bytes(profile.payload_bytes()));
        let overhead = random.cells(OVERHEAD_BYTES);
        let lent = payloads.each_ref().map(|payload| &payload[..]);
        let frames = send(&LIBRARY, profile, lent, &overhead, &mut random).frames;
        let sent = lent.map(Rows::sent);
        let mut damaged = frames.clone();
        let damage = Damage::Words {
            count: 4_000,
            wrong: 3,
        };
        damage.apply(profile, &mut damaged, &mut random);
        let pairs = take(&LIBRARY, profile, &damaged, &overhead, &mut random).pairs;
        let lent = pairs.each_ref().map(|pairs| &pairs[..]);
        let received = receive(&LIBRARY, lent, [TAKEN; 2], &mut random);
        let on_line = |encoder| Rows::on_line(profile, encoder, profile.pairs(), &damaged);
        Sound {
            profile,
            sent,
            line: [0, 1].map(on_line),
            payloads,
            overhead,
            frames,
            pairs,
            received,
        }
    }

    fn breaches(&self, receiver: usize) -> Vec<Breach> {
        let received = &self.received[receiver];
        check(&self.sent[receiver], &self.line[receiver], received, LIMIT).breaches
    }

    fn frame_breaches(&self, frames: &[u8]) -> [Vec<Breach>; 2] {
        [0, 1].map(|encoder| check_frames(self.profile, encoder, &self.sent[encoder], frames))
    }

    /// The payload, sent by other calls.
    fn sent_by(&self, calls: Calls) -> Sent {
        let payloads = self.payloads.each_ref().map(|payload| &payload[..]);
        let mut random = Random::new(20_500);
        send(&calls, self.profile, payloads, &self.overhead, &mut random)
    }

    /// The frames before the line, taken by other calls.
    fn taken_by(&self, calls: Calls) -> Taken {
        let mut random = Random::new(20_700);
        take(
            &calls,
            self.profile,
            &self.frames,
            &self.overhead,
            &mut random,
        )
    }
}

fn breaches(receiver: usize, received: &Received) -> Vec<Breach> {
    let (sent, line) = (&SOUND.sent[receiver], &SOUND.line[receiver]);
    check(sent, line, received, LIMIT).breaches
}

/// Where the comparison with the sound answers finds the fault.
fn stage(receiver: usize, received: &Received) -> &'static str {
    let found: Option<Difference> = received.difference(&SOUND.received[receiver]);
    found.expect("a difference").stage
}

fn wrong(receiver: usize, word: Name) -> usize {
    wrong_bits(&SOUND.sent[receiver], &SOUND.line[receiver], word)
}

/// Whether bit k of a word arrived wrong.
fn arrived_wrong(receiver: usize, word: Name, k: usize) -> bool {
    let place = word.bit(k);
    SOUND.sent[receiver].get(place) != SOUND.line[receiver].get(place)
}

fn number(word: Name) -> usize {
    MARKS * word.pair() + word.in_pair()
}

/// A word of each kind that there is: the receiver, the word, its wrong received bits and its mark.
fn samples() -> Vec<(usize, Name, usize, u8)> {
    let mut samples = Vec::new();
    for receiver in [0, 1] {
        let marks = &SOUND.received[receiver].marks;
        for wrong_bits in 0..=3 {
            for mark in 0..=wrong_bits as u8 {
                let word = words(TAKEN)
                    .skip(MARKS)
                    .find(|&word| {
                        marks[number(word)] == mark && wrong(receiver, word) == wrong_bits
                    })
                    .expect("a word of this kind");
                samples.push((receiver, word, wrong_bits, mark));
            }
        }
    }
    samples
}

#[test]
fn sound_run_breaks_no_claim() {
    for sound in both() {
        assert_eq!(sound.frame_breaches(&sound.frames), [[], []]);
        for receiver in [0, 1] {
            assert_eq!(sound.breaches(receiver), []);
        }
    }
}

#[test]
fn changed_mark() {
    for (receiver, word, wrong, mark) in samples() {
        for changed in [0, 1, 2, 3, 4, 255] {
            if changed == mark {
                continue;
            }
            let mut received = SOUND.received[receiver].clone();
            received.marks[number(word)] = changed;
            let mut expected = Vec::new();
            if changed != 3 {
                expected.push(Breach::Mark {
                    word,
                    mark: changed,
                    differing: usize::from(mark),
                });
            } else if wrong <= 2 {
                expected.push(Breach::Lost { word, wrong });
            }
            if mark == 3 {
                for k in (BACK..WORD_BITS).filter(|&k| arrived_wrong(receiver, word, k)) {
                    let outs = [Out::History, Out::Payload];
                    let outs = &outs[..if k < FREE_BITS { 2 } else { 1 }];
                    expected.extend(
                        outs.iter()
                            .map(|&out| Breach::WrongBitLeft { word, k, out }),
                    );
                }
            }
            assert_eq!(breaches(receiver, &received), expected);
            assert_eq!(stage(receiver, &received), "marks");
        }
    }
}

/// What is reported of a back-half bit that comes out flipped.
fn flipped(receiver: usize, word: Name, k: usize, mark: u8, out: Out) -> Vec<Breach> {
    match (arrived_wrong(receiver, word, k), mark) {
        (false, _) => vec![Breach::RightBitChanged { word, k, out }],
        // A wrong bit of a lost word may come out as anything.
        (true, 3) => vec![],
        (true, _) => vec![Breach::WrongBitLeft { word, k, out }],
    }
}

/// Flips bits of every sample, one at a time: at these places, and where a bit below `end` arrived
/// wrong. Each is reported as the claim that it breaks.
fn assert_flips_found(
    (out, out_stage): (Out, &str),
    places: [usize; 4],
    end: usize,
    flip_bit: fn(&mut Received, Name, usize),
) {
    let mut arrived = [0; 2];
    for (receiver, word, _, mark) in samples() {
        let wrong = |&k: &usize| arrived_wrong(receiver, word, k);
        for k in places.into_iter().chain((BACK..end).filter(wrong)) {
            let mut received = SOUND.received[receiver].clone();
            flip_bit(&mut received, word, k);
            let expected = flipped(receiver, word, k, mark, out);
            assert_eq!(breaches(receiver, &received), expected);
            assert_eq!(stage(receiver, &received), out_stage);
            arrived[usize::from(wrong(&k))] += 1;
        }
    }
    assert!(arrived[0] > 40 && arrived[1] > 10, "{arrived:?}");
}

#[test]
fn flipped_bit_of_the_newest_pair_of_a_history() {
    let out = (Out::History, "histories");
    assert_flips_found(out, [128, 238, 239, 255], WORD_BITS, |received, word, k| {
        let newest = 8 * HISTORY_BYTES * word.pair() + FRONT_BITS + 9 * PAIR_BITS;
        let in_pair = index(word.bit(k)) % PAIR_BITS;
        bits::flip(&mut received.histories, newest + in_pair);
    });
}

#[test]
fn flipped_bit_of_payload_out() {
    let out = (Out::Payload, "payload out");
    assert_flips_found(out, [128, 223, 224, 238], FREE_BITS, |received, word, k| {
        let number = payload_bit(word.row, word.r, k - BACK) as usize;
        bits::flip(&mut received.payload, number);
    });
}

/// The claims say nothing of them, but for the mark where the next call reads them.
#[test]
fn flipped_bit_of_an_older_pair_of_a_history() {
    let (pair, word) = (25, words_of(20)[7]);
    let mut read = 0;
    for k in BACK..WORD_BITS {
        let place = word.bit(k);
        let mut received = SOUND.received[0].clone();
        let oldest = 8 * HISTORY_BYTES * pair + FRONT_BITS;
        let in_history = index(place) - PAIR_BITS * (pair - 9);
        bits::flip(&mut received.histories, oldest + in_history);
        let reader = in_front(place).filter(|word| word.pair() == pair + 1);
        let lost = |word: Name| received.marks[number(word)] == 3;
        match reader.filter(|&word| !lost(word)) {
            None => assert_eq!(breaches(0, &received), []),
            Some(reader) => {
                let found = breaches(0, &received);
                let [Breach::Mark { word, .. }] = found[..] else {
                    panic!("{found:?}");
                };
                assert_eq!(word, reader);
                read += 1;
            }
        }
        assert_eq!(stage(0, &received), "histories");
    }
    assert!(read > 0);
}

/// The claims are about bits of pairs: the comparison of histories tells.
#[test]
fn flipped_bit_in_front_of_a_history() {
    for receiver in [0, 1] {
        for (pair, bit) in [(0, 0), (0, 31), (9, 32), (10, 55), (29, 63)] {
            let mut received = SOUND.received[receiver].clone();
            let at = 8 * HISTORY_BYTES * pair + bit;
            bits::flip(&mut received.histories, at);
            assert_eq!(breaches(receiver, &received), []);
            let found = received.difference(&SOUND.received[receiver]);
            let expected = Difference {
                stage: "histories",
                index: at / 8,
            };
            assert_eq!(found, Some(expected));
        }
    }
}

/// Every history that was returned shows its encoder and the number of the next pair.
#[test]
fn numbers_in_front_of_the_histories_of_a_sound_run() {
    for sound in both() {
        let sent = sound.sent_by(LIBRARY);
        for (encoder, sent) in (0..).zip(&sent.histories) {
            let received = &sound.received[encoder as usize].histories;
            for (histories, pairs) in [(sent, sound.profile.pairs()), (received, TAKEN)] {
                let fronts = histories.chunks(HISTORY_BYTES).map(Numbers::of);
                let next = (1..=pairs as u32).map(|pair| Numbers { encoder, pair });
                assert!(fronts.eq(next));
            }
        }
    }
}

/// Both receivers of the sound run, with another receiving call.
fn received_by(receive_pair: Receive) -> [Received; 2] {
    let calls = Calls {
        receive_pair,
        ..LIBRARY
    };
    let pairs = SOUND.pairs.each_ref().map(|pairs| &pairs[..]);
    receive(&calls, pairs, [TAKEN; 2], &mut Random::new(20_100))
}

/// Kinds of breach, in the order of the claims.
fn kinds(breaches: &[Breach]) -> Vec<&'static str> {
    let kind = |breach: &Breach| match breach {
        Breach::Frame { .. } => "frame",
        Breach::RightBitChanged { .. } => "right bit changed",
        Breach::WrongBitLeft { .. } => "wrong bit left",
        Breach::Mark { .. } => "mark",
        Breach::Lost { .. } => "lost",
    };
    let found: Vec<_> = breaches.iter().map(kind).collect();
    let all = [
        "frame",
        "right bit changed",
        "wrong bit left",
        "mark",
        "lost",
    ];
    all.into_iter()
        .filter(|kind| found.contains(kind))
        .collect()
}

/// That both receivers are found to break exactly these kinds of claim.
fn assert_kinds(received: &[Received; 2], expected: &[&str]) {
    for receiver in [0, 1] {
        let found = breaches(receiver, &received[receiver]);
        assert_eq!(kinds(&found), expected, "receiver {receiver}");
    }
}

#[test]
fn receivers_crossed() {
    let pairs = [&SOUND.pairs[1][..], &SOUND.pairs[0]];
    let received = receive(&LIBRARY, pairs, [TAKEN; 2], &mut Random::new(20_200));
    let expected = ["right bit changed", "wrong bit left", "mark", "lost"];
    assert_kinds(&received, &expected);
    // Over an unaltered line, where each takes code words.
    let mut random = Random::new(20_300);
    let pairs = SOUND.taken_by(LIBRARY).pairs;
    let crossed = [&pairs[1][..], &pairs[0]];
    let received = receive(&LIBRARY, crossed, [TAKEN; 2], &mut random);
    for receiver in [0, 1] {
        assert!(received[receiver].marks.iter().all(|&mark| mark == 0));
        let sent = &SOUND.sent[receiver];
        let found = check(sent, sent, &received[receiver], LIMIT).breaches;
        assert_eq!(kinds(&found), ["right bit changed"]);
        assert_eq!(stage(receiver, &received[receiver]), "payload out");
    }
}

/// What a receiving call writes: payload, marks and history.
type Written<'a> = [&'a mut [u8]; 3];

/// Passes every back half as received, with this mark.
fn pass(
    mark: u8,
    coded: &[u8],
    [payload, marks, history]: Written,
    Numbers { encoder, pair }: Numbers,
) -> Outcome {
    let outcome = (LIBRARY.receive_pair)(coded, payload, marks, history, encoder, pair);
    if outcome.refusal == 0 {
        marks.fill(mark);
        history[HISTORY_BYTES - PAIR_BYTES..].copy_from_slice(coded);
        for word in words_of(0) {
            for k in BACK..FREE_BITS {
                let number = payload_bit(word.row, word.r, k - BACK) as usize;
                bits::set(payload, number, bits::get(coded, index(word.bit(k))));
            }
        }
    }
    outcome
}

#[test]
fn repairers_that_01_shuts_out() {
    let all_lost = received_by(|coded, payload, marks, history, encoder, pair| {
        let named = Numbers { encoder, pair };
        pass(3, coded, [payload, marks, history], named)
    });
    assert_kinds(&all_lost, &["lost"]);

    let zero_word = received_by(|coded, payload, marks, history, encoder, pair| {
        let zero = vec![0; coded.len()];
        let named = Numbers { encoder, pair };
        pass(0, &zero, [payload, marks, history], named)
    });
    assert_kinds(&zero_word, &["right bit changed", "wrong bit left", "mark"]);

    let handed_through = received_by(|coded, payload, marks, history, encoder, pair| {
        let named = Numbers { encoder, pair };
        pass(0, coded, [payload, marks, history], named)
    });
    assert_kinds(&handed_through, &["wrong bit left", "mark"]);

    let first_pair_only = received_by(|coded, payload, marks, history, encoder, pair| match pair {
        0 => (LIBRARY.receive_pair)(coded, payload, marks, history, encoder, pair),
        _ => {
            let named = Numbers { encoder, pair };
            pass(0, coded, [payload, marks, history], named)
        }
    });
    assert_kinds(&first_pair_only, &["wrong bit left", "mark"]);
    for receiver in [0, 1] {
        // From the first word of the second pair on that is not as sent.
        let first = words(TAKEN)
            .skip(MARKS)
            .find(|&word| wrong(receiver, word) > 0)
            .expect("a damaged word");
        let found = breaches(receiver, &first_pair_only[receiver]);
        assert!(matches!(found[0], Breach::Mark { word, .. } if word == first));
    }
}

#[test]
fn receivers_with_a_fault_of_their_own() {
    let no_mark = received_by(|coded, payload, marks, history, encoder, pair| {
        let outcome = (LIBRARY.receive_pair)(coded, payload, marks, history, encoder, pair);
        if outcome.refusal == 0 {
            let lost = |mark: u8| if mark == 3 { 3 } else { 0 };
            marks.iter_mut().for_each(|mark| *mark = lost(*mark));
        }
        outcome
    });
    assert_kinds(&no_mark, &["mark"]);

    let never_lost = received_by(|coded, payload, marks, history, encoder, pair| {
        let outcome = (LIBRARY.receive_pair)(coded, payload, marks, history, encoder, pair);
        if outcome.refusal == 0 {
            marks.iter_mut().for_each(|mark| *mark = (*mark).min(2));
        }
        outcome
    });
    assert_kinds(&never_lost, &["wrong bit left", "mark"]);

    // Only the newest pair is kept.
    let forgetful = received_by(|coded, payload, marks, history, encoder, pair| {
        let outcome = (LIBRARY.receive_pair)(coded, payload, marks, history, encoder, pair);
        if outcome.refusal == 0 {
            history[FRONT_BYTES..HISTORY_BYTES - PAIR_BYTES].fill(0);
        }
        outcome
    });
    assert_forgetful(&forgetful);

    // Each pair is received as if it were the first.
    let always_fresh = received_by(|coded, payload, marks, history, encoder, pair| {
        let before = history.to_vec();
        let outcome = (LIBRARY.receive_pair)(coded, payload, marks, history, encoder, pair);
        if outcome.refusal == 0 {
            let mut fresh = rows::fresh(encoder);
            (LIBRARY.receive_pair)(coded, payload, marks, &mut fresh, encoder, 0);
            let [before, fresh] = [before, fresh].map(|history| history[FRONT_BYTES..].to_vec());
            let held = [&before[PAIR_BYTES..], &fresh[9 * PAIR_BYTES..]].concat();
            history[FRONT_BYTES..].copy_from_slice(&held);
        }
        outcome
    });
    assert_forgetful(&always_fresh);
}

/// All is well in rows 0 to 19, whose words have no front half.
fn assert_forgetful(received: &[Received; 2]) {
    for receiver in [0, 1] {
        let found = breaches(receiver, &received[receiver]);
        for kind in ["right bit changed", "mark", "lost"] {
            assert!(kinds(&found).contains(&kind));
        }
        for breach in found {
            let (Breach::RightBitChanged { word, .. }
            | Breach::WrongBitLeft { word, .. }
            | Breach::Mark { word, .. }
            | Breach::Lost { word, .. }) = breach
            else {
                panic!("{breach:?}");
            };
            assert!(word.row >= FIRST_FULL_ROW);
        }
    }
}

/// A word, front as held and back as received, and what the library's repair makes of it.
fn repaired(
    coded: &[u8],
    history: &[u8],
    word: Name,
    before_repair: fn(&mut [u8; WORD_BYTES]),
) -> (word::Word, u32, word::Word) {
    let window = Window::new(&history[FRONT_BYTES..], coded, word.pair() as u32);
    let held = std::array::from_fn(|k| k >= word.first() && window.get(word.bit(k)));
    let mut bytes = word::to_bytes(&held);
    before_repair(&mut bytes);
    let front = u32::from(word.row >= FIRST_FULL_ROW);
    let mark = capi::repair_word(&mut bytes, front).value;
    (held, mark, word::from_bytes(&bytes))
}

/// The library's call, and the words that it received: those of the pair, or none if it is refused.
fn received_words(
    coded: &[u8],
    [payload, marks, history]: Written,
    Numbers { encoder, pair }: Numbers,
) -> (Outcome, Vec<Name>) {
    let outcome = (LIBRARY.receive_pair)(coded, payload, marks, history, encoder, pair);
    let words = match outcome.refusal {
        0 => words_of(pair as usize).to_vec(),
        _ => vec![],
    };
    (outcome, words)
}

#[test]
fn receiver_that_ignores_bit_255() {
    let received = received_by(|coded, payload, marks, history, encoder, pair| {
        let before = history.to_vec();
        let named = Numbers { encoder, pair };
        let (outcome, words) = received_words(coded, [payload, marks, history], named);
        for word in words {
            // A word whose parity alone speaks against it.
            let flip_255 = |bytes: &mut [u8; WORD_BYTES]| bits::flip(bytes, 255);
            let (_, mark, after) = repaired(coded, &before, word, flip_255);
            if marks[word.in_pair()] == 3 && mark < 3 {
                marks[word.in_pair()] = mark as u8;
                for (k, &bit) in after.iter().enumerate().skip(BACK) {
                    let in_pair = index(word.bit(k)) % PAIR_BITS;
                    bits::set(history, FRONT_BITS + 9 * PAIR_BITS + in_pair, bit);
                    if k < FREE_BITS {
                        let number = payload_bit(word.row % 2, word.r, k - BACK) as usize;
                        bits::set(payload, number, bit);
                    }
                }
            }
        }
        outcome
    });
    for receiver in [0, 1] {
        let found = kinds(&breaches(receiver, &received[receiver]));
        assert!(found.contains(&"right bit changed") && found.contains(&"mark"));
    }
}

/// A front bit is met once and no claim reads it again: the comparison of histories tells.
#[test]
fn receiver_that_stores_front_flips() {
    let received = received_by(|coded, payload, marks, history, encoder, pair| {
        let before = history.to_vec();
        let named = Numbers { encoder, pair };
        let (outcome, words) = received_words(coded, [payload, marks, history], named);
        for word in words {
            let (held, _, after) = repaired(coded, &before, word, |_| {});
            for k in (word.first()..BACK).filter(|&k| held[k] != after[k]) {
                let place = word.bit(k);
                // Not in the oldest pair, which has been dropped.
                if let Ok(held) = usize::try_from(place.row / 2 + 9 - i64::from(pair)) {
                    let in_held = held * PAIR_BITS + index(place) % PAIR_BITS;
                    bits::flip(history, FRONT_BITS + in_held);
                }
            }
        }
        outcome
    });
    for receiver in [0, 1] {
        assert_eq!(breaches(receiver, &received[receiver]), []);
        assert_eq!(stage(receiver, &received[receiver]), "histories");
    }
}

#[test]
fn bit_altered_between_line_and_receiver() {
    for receiver in [0, 1] {
        let word = words_of(25)
            .into_iter()
            .find(|&word| wrong(receiver, word) == 0)
            .expect("an undamaged word");
        let mut pairs = SOUND.pairs.clone();
        bits::flip(&mut pairs[receiver], index(word.bit(200)));
        let pairs = pairs.each_ref().map(|pairs| &pairs[..]);
        let received = receive(&LIBRARY, pairs, [TAKEN; 2], &mut Random::new(20_400));
        let expected = Breach::Mark {
            word,
            mark: 1,
            differing: 0,
        };
        assert_eq!(breaches(receiver, &received[receiver]), [expected]);
        assert_eq!(stage(receiver, &received[receiver]), "marks");
    }
}

#[test]
fn single_bits_of_the_frames() {
    let mut random = Random::new(20_600);
    for sound in both().repeat(10) {
        let profile = sound.profile;
        let encoder = random.between(0, 2);
        let word = words_of(random.between(0, profile.pairs()))[random.between(0, MARKS)];
        let place = word.bit(random.between(BACK, WORD_BITS));
        let mut frames = sound.frames.clone();
        flip(profile, &mut frames, on_line(profile, encoder, place));
        let found = sound.frame_breaches(&frames);
        assert_eq!(found[encoder], [Breach::Frame { encoder, place }]);
        assert_eq!(found[1 - encoder], []);
    }
}

#[test]
fn senders_with_a_fault_of_their_own() {
    for sound in both() {
        let by_library = sound.sent_by(LIBRARY);
        assert!(by_library.frames == sound.frames);
        let found_in = |faulty: Calls, stage: &str| {
            let sent = sound.sent_by(faulty);
            let difference = sent.difference(&by_library).expect("a difference");
            assert_eq!(difference.stage, stage);
            sound.frame_breaches(&sent.frames)
        };

        let gives_zeros = Calls {
            encode_pair: |payload, coded, history, encoder, pair| {
                let outcome = (LIBRARY.encode_pair)(payload, coded, history, encoder, pair);
                if outcome.refusal == 0 {
                    coded.fill(0);
                    history[FRONT_BYTES..].fill(0);
                }
                outcome
            },
            ..LIBRARY
        };
        for found in found_in(gives_zeros, "coded pairs of encoder 0") {
            assert!(matches!(found[0], Breach::Frame { place, .. } if place.row == 0));
        }

        let always_fresh = Calls {
            encode_pair: |payload, coded, history, encoder, pair| {
                let outcome = (LIBRARY.encode_pair)(payload, coded, history, encoder, pair);
                if outcome.refusal == 0 {
                    let mut fresh = rows::fresh(encoder);
                    (LIBRARY.encode_pair)(payload, coded, &mut fresh, encoder, 0);
                }
                outcome
            },
            ..LIBRARY
        };
        for found in found_in(always_fresh, "coded pairs of encoder 0") {
            assert!(matches!(found[0], Breach::Frame { place, .. } if place.row == FIRST_FULL_ROW));
        }

        let encoders_crossed = Calls {
            interleave: |pairs0, pairs1, bits| (LIBRARY.interleave)(pairs1, pairs0, bits),
            ..LIBRARY
        };
        let found = found_in(encoders_crossed, "bits");
        assert!(found.iter().all(|found| found.len() > 900));

        let bits_reversed = Calls {
            bits_to_cells: |profile, bits, cells| {
                let reversed: Vec<u8> = bits.iter().map(|byte| byte.reverse_bits()).collect();
                (LIBRARY.bits_to_cells)(profile, &reversed, cells)
            },
            ..LIBRARY
        };
        let lower_half_first = Calls {
            bits_to_cells: |profile, bits, cells| {
                let turned: Vec<u8> = bits.iter().map(|byte| byte.rotate_left(4)).collect();
                (LIBRARY.bits_to_cells)(profile, &turned, cells)
            },
            ..LIBRARY
        };
        for faulty in [bits_reversed, lower_half_first] {
            let found = found_in(faulty, "cells");
            assert!(found.iter().all(|found| found.len() > 900));
        }

        // A training cell more than there are: it falls on encoder 0 in all 47 sub-frames, or on both in turn.
        let overhead_on_payload = Calls {
            frame: |profile, number, payload, overhead, frame| {
                let outcome = (LIBRARY.frame)(profile, number, payload, overhead, frame);
                if outcome.refusal == 0 && number != 0 {
                    frame.copy_within(20..22, 22);
                }
                outcome
            },
            ..LIBRARY
        };
        let found = found_in(overhead_on_payload, "frames");
        assert!(found[0].len() + found[1].len() > 47);
        assert_eq!(found[1].is_empty(), sound.profile == Profile::Qam16);
    }
}

#[test]
fn takers_with_a_fault_of_their_own() {
    let wrong_number = Calls {
        unframe: |profile, number, frame, overhead, payload| {
            let outcome = (LIBRARY.unframe)(profile, number, frame, overhead, payload);
            let wrong = u32::from(outcome.refusal == 0 && number == 17);
            Outcome {
                value: outcome.value + wrong,
                ..outcome
            }
        },
        ..LIBRARY
    };
    let wrong_cell = Calls {
        unframe: |profile, number, frame, overhead, payload| {
            let outcome = (LIBRARY.unframe)(profile, number, frame, overhead, payload);
            if outcome.refusal == 0 && number == 1 {
                payload[9] ^= 3;
            }
            outcome
        },
        ..LIBRARY
    };
    let bits_reversed = Calls {
        cells_to_bits: |profile, cells, bits| {
            let outcome = (LIBRARY.cells_to_bits)(profile, cells, bits);
            if outcome.refusal == 0 {
                bits.iter_mut().for_each(|byte| *byte = byte.reverse_bits());
            }
            outcome
        },
        ..LIBRARY
    };
    let lower_half_first = Calls {
        cells_to_bits: |profile, cells, bits| {
            let outcome = (LIBRARY.cells_to_bits)(profile, cells, bits);
            if outcome.refusal == 0 {
                bits.iter_mut().for_each(|byte| *byte = byte.rotate_left(4));
            }
            outcome
        },
        ..LIBRARY
    };
    let encoders_crossed = Calls {
        deinterleave: |bits, pairs0, pairs1| (LIBRARY.deinterleave)(bits, pairs1, pairs0),
        ..LIBRARY
    };
    for (calls, stage, index) in [
        (wrong_number, "differing cells", Some(17)),
        (wrong_cell, "payload cells", Some(6_980 + 9)),
        (bits_reversed, "bits taken", None),
        (lower_half_first, "bits taken", None),
        (encoders_crossed, "received pairs of encoder 0", None),
    ] {
        for sound in both() {
            let by_library = sound.taken_by(LIBRARY);
            let found = sound.taken_by(calls).difference(&by_library);
            let found = found.expect("a difference");
            assert_eq!(found.stage, stage);
            assert_eq!(found.index, index.unwrap_or(found.index));
        }
    }
}

#[test]
#[should_panic(expected = "a refused call wrote to buffer 2")]
fn encoder_that_touches_the_history_of_a_refused_call() {
    SOUND.sent_by(Calls {
        encode_pair: |payload, coded, history, encoder, pair| {
            let outcome = (LIBRARY.encode_pair)(payload, coded, history, encoder, pair);
            if outcome.refusal == COUNT_SPENT {
                history[HISTORY_BYTES - 1] ^= 1;
            }
            outcome
        },
        ..LIBRARY
    });
}

#[test]
#[should_panic(expected = "answer of a call to be refused")]
fn receiver_that_names_another_refusal() {
    received_by(|coded, payload, marks, history, encoder, pair| {
        let outcome = (LIBRARY.receive_pair)(coded, payload, marks, history, encoder, pair);
        match outcome.refusal {
            COUNT_SPENT => Outcome::refused_pair(MISFIT, pair),
            _ => outcome,
        }
    });
}

/// What a run that must not end well says at its end.
fn ends_with(run: impl FnOnce() + UnwindSafe) -> String {
    let panicked = catch_unwind(run).expect_err("a run that ends well");
    let message = panicked.downcast_ref::<String>();
    message.expect("a message").clone()
}

/// Each is found in a whole run, by an accepted call's answer or history or by a refused call's answer or
/// buffers.
#[test]
fn stand_ins_with_a_slip_about_the_history() {
    const ANSWER: &str = "answer of a call to be refused";
    const HISTORY: &str = "numbers in front of a history moved on";
    const WRITTEN: &str = "a refused call wrote to buffer";
    for (slip, calls) in stand_ins::all() {
        let expected: &[&str] = match slip {
            "6 tested after 3" => &[ANSWER],
            "encoder 2 accepted" => &[ANSWER],
            "next number not stored" => &[HISTORY],
            // Encoder 1 has no call that is accepted, and encoder 0 one.
            "least significant byte first" => &[HISTORY, "answer of a call to be accepted", ANSWER],
            "a refused call stores its number" => &[WRITTEN],
            "the encoder in front not read" => &[ANSWER],
            "the pair number in front not read" => &[ANSWER],
            "a history without a front taken" => &[ANSWER],
            // Whole runs seldom name a number that differs in its upper half alone; single calls do.
            "the number cut to 16 bits" => continue,
            "pairs taken from byte 0" => {
                assert_found_in_pairs(calls);
                continue;
            }
            _ => panic!("{slip}"),
        };
        let sent = ends_with(|| {
            SOUND.sent_by(calls);
        });
        let received = ends_with(|| {
            all_received_by(calls);
        });
        for end in [sent, received] {
            assert!(
                expected.iter().any(|part| end.contains(part)),
                "{slip}: {end}"
            );
        }
    }
}

/// Both receivers take all pairs of the sound run.
fn all_received_by(calls: Calls) -> [Received; 2] {
    let pairs = SOUND.pairs.each_ref().map(|pairs| &pairs[..]);
    let all = [SOUND.profile.pairs(); 2];
    receive(&calls, pairs, all, &mut Random::new(20_900))
}

/// The history's bytes differ from the first pair on, and the pairs from the first one with full words.
fn assert_found_in_pairs(calls: Calls) {
    let sent = SOUND.sent_by(calls);
    let found = sent
        .difference(&SOUND.sent_by(LIBRARY))
        .expect("a difference");
    assert_eq!(found.stage, "coded pairs of encoder 0");
    for found in SOUND.frame_breaches(&sent.frames) {
        assert!(matches!(found[0], Breach::Frame { place, .. } if place.row >= FIRST_FULL_ROW));
    }
    let received = received_by(calls.receive_pair);
    for (receiver, received) in received.iter().enumerate() {
        assert!(!breaches(receiver, received).is_empty());
        assert!(received.difference(&SOUND.received[receiver]).is_some());
    }
}

/// Unframing by the rule of the other profile lets levels of -3 and 3 pass.
#[test]
#[should_panic(expected = "answer of a call to be refused")]
fn unframing_that_takes_16_qam_cells_for_qpsk() {
    SOUND_QPSK.taken_by(Calls {
        unframe: |_, number, frame, overhead, payload| {
            (LIBRARY.unframe)(Profile::Qam16, number, frame, overhead, payload)
        },
        ..LIBRARY
    });
}

/// With four wrong bits a word may be as near to another code word: the limit is three.
#[test]
fn four_wrong_bits_in_a_word_break_the_claims() {
    let mut random = Random::new(20_800);
    let profile = SOUND.profile;
    let mut frames = SOUND.frames.clone();
    let damage = Damage::Words {
        count: 500,
        wrong: 4,
    };
    damage.apply(profile, &mut frames, &mut random);
    let pairs = take(&LIBRARY, profile, &frames, &SOUND.overhead, &mut random).pairs;
    let pairs = pairs.each_ref().map(|pairs| &pairs[..]);
    let received = receive(&LIBRARY, pairs, [TAKEN; 2], &mut random);
    for receiver in [0, 1] {
        let line = Rows::on_line(profile, receiver, profile.pairs(), &frames);
        let within = |limit| check(&SOUND.sent[receiver], &line, &received[receiver], limit);
        let (three, four) = (within(3), within(4));
        assert_eq!(three.breaches, []);
        assert!(three.pairs < four.pairs && four.pairs == TAKEN);
        let expected = ["right bit changed", "wrong bit left", "mark"];
        assert_eq!(kinds(&four.breaches), expected);
    }
}
