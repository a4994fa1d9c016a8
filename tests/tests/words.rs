//! `ofec_repair_word` against the reference: answer and bytes of every call.

use ofec_tests::capi;
use ofec_tests::outcome::{Outcome, MISFIT};
use ofec_tests::random::Random;
use ofec_tests::word::{self, Trial, Word, BACK, LOST, WORD_BITS, WORD_BYTES};

// Words compared by each test, which asserts its number.
const BENCH_VALUES: u64 = 3 * 2;
const DAMAGED_CODE_WORDS: u64 = 7 * 2 * 2_000 * 2;
const ONE_AND_TWO_FLIPS: u64 = 2 * (256 + 32_640) * 2;
const LOCATORS_ADD_UP_TO_ZERO: u64 = 10_795 * 2 * 2;
const RANDOM_WORDS: u64 = 20_000 * 2;
const FRONT_FLAGS: u64 = 100 * (2 + 32 + 7);
const _: () = assert!(
    BENCH_VALUES
        + DAMAGED_CODE_WORDS
        + ONE_AND_TWO_FLIPS
        + LOCATORS_ADD_UP_TO_ZERO
        + RANDOM_WORDS
        + FRONT_FLAGS
        >= 100_000
);

const ZERO: Word = [false; WORD_BITS];

/// Calls the library and the reference on the same words, and counts them.
struct Comparison {
    trial: Trial,
    words: u64,
    /// Words by the number of their answer: flips 0 to 2, or 3 for lost.
    numbers: [u64; 4],
}

impl Comparison {
    fn new() -> Self {
        Comparison {
            trial: Trial::default(),
            words: 0,
            numbers: [0; 4],
        }
    }

    /// The number of the answer and the word that stands afterwards, the same on both sides.
    fn repair(&mut self, word: &Word, front: u32) -> (u32, Word) {
        let lent = word::to_bytes(word);
        let (number, repaired) = self.trial.repair(&lent, front != 0);
        // Bytes around the lent ones show a write outside of them.
        let mut buffer = [0xa5; 3 * WORD_BYTES];
        buffer[WORD_BYTES..2 * WORD_BYTES].copy_from_slice(&lent);
        let mut expected = buffer;
        expected[WORD_BYTES..2 * WORD_BYTES].copy_from_slice(&repaired);

        let outcome = capi::repair_word(&mut buffer[WORD_BYTES..2 * WORD_BYTES], front).into();
        assert_eq!(
            (outcome, buffer),
            (Outcome::accepted(number), expected),
            "front {front}, word {lent:02x?}"
        );
        self.words += 1;
        self.numbers[number as usize] += 1;
        (number, word::from_bytes(&repaired))
    }

    /// A code word with at most three flips, of which the answer is known: two or fewer are
    /// repaired where they are allowed; otherwise the word is lost.
    fn repair_flips(&mut self, code_word: &Word, places: &[usize], front: u32) {
        assert!(places.len() <= 3);
        let word = word::flipped(code_word, places);
        let allowed = front != 0 || places.iter().all(|&place| place >= BACK);
        let expected = if places.len() <= 2 && allowed {
            (places.len() as u32, *code_word)
        } else {
            (LOST, word)
        };
        assert_eq!(self.repair(&word, front), expected);
    }
}

fn random_code_word(random: &mut Random) -> Word {
    word::complete(&std::array::from_fn(|_| random.bit()))
}

#[test]
fn bench_values_of_single_words() {
    let mut comparison = Comparison::new();
    let free = std::array::from_fn(|place| place == 238);
    let parity = [240, 241, 243, 244, 245, 246, 248, 249, 253, 254, 255];
    let bit_238 = word::flipped(&word::flipped(&ZERO, &[238]), &parity);
    assert_eq!(word::complete(&free), bit_238);

    let two = word::flipped(&ZERO, &[0, 255]);
    let three = word::flipped(&ZERO, &[0, 1, 2]);
    assert_eq!(comparison.repair(&bit_238, 1), (0, bit_238));
    assert_eq!(comparison.repair(&bit_238, 0), (0, bit_238));
    assert_eq!(comparison.repair(&two, 1), (2, ZERO));
    assert_eq!(comparison.repair(&two, 0), (LOST, two));
    assert_eq!(comparison.repair(&three, 1), (LOST, three));
    assert_eq!(comparison.repair(&three, 0), (LOST, three));
    assert_eq!(comparison.words, BENCH_VALUES);
}

#[test]
fn code_words_with_zero_to_six_flips() {
    let mut comparison = Comparison::new();
    let mut random = Random::new(10);
    for flips in 0..=6 {
        for low in [0, BACK] {
            for _ in 0..2_000 {
                let code_word = random_code_word(&mut random);
                let places = random.distinct(flips, low, WORD_BITS);
                for front in [1, 0] {
                    if flips <= 3 {
                        comparison.repair_flips(&code_word, &places, front);
                    } else {
                        comparison.repair(&word::flipped(&code_word, &places), front);
                    }
                }
            }
        }
    }
    assert_eq!(comparison.words, DAMAGED_CODE_WORDS);
    assert!(comparison.numbers.iter().all(|&n| n > 4_000));
}

#[test]
fn every_pattern_of_one_and_two_flips() {
    let mut comparison = Comparison::new();
    for code_word in [ZERO, random_code_word(&mut Random::new(20))] {
        for front in [1, 0] {
            for i in 0..WORD_BITS {
                comparison.repair_flips(&code_word, &[i], front);
                for j in i + 1..WORD_BITS {
                    comparison.repair_flips(&code_word, &[i, j], front);
                }
            }
        }
    }
    assert_eq!(comparison.words, ONE_AND_TWO_FLIPS);
}

/// Three flips whose locators add up to zero: S1 is 0, and S3, the product of the three, is not.
/// A decoder that does not count its roots repairs those whose S3 is a cube.
#[test]
fn three_flips_whose_locators_add_up_to_zero_are_lost() {
    // The locator of bit k is a^(254-k), a being a root of y^8+y^4+y^3+y^2+1.
    let mut locators = [0; 255];
    let mut power = 1;
    for k in (0..255).rev() {
        locators[k] = power;
        power *= 2;
        if power >= 256 {
            power ^= 0x11d;
        }
    }
    assert_eq!(power, 1);

    let mut comparison = Comparison::new();
    let mut random = Random::new(30);
    let mut cubes = 0;
    for i in 0..255 {
        for j in i + 1..255 {
            for k in j + 1..255 {
                if locators[i] ^ locators[j] ^ locators[k] == 0 {
                    let code_word = random_code_word(&mut random);
                    for places in [vec![i, j, k], vec![i, j, k, 255]] {
                        let word = word::flipped(&code_word, &places);
                        for front in [1, 0] {
                            assert_eq!(comparison.repair(&word, front), (LOST, word));
                        }
                    }
                    // The product of the locators is a^(3×254-i-j-k).
                    cubes += u64::from((i + j + k) % 3 == 0);
                }
            }
        }
    }
    assert_eq!(comparison.words, LOCATORS_ADD_UP_TO_ZERO);
    assert!(cubes > 3_000, "{cubes}");
}

#[test]
fn random_words() {
    let mut comparison = Comparison::new();
    let mut random = Random::new(40);
    for _ in 0..20_000 {
        let word = std::array::from_fn(|_| random.bit());
        for front in [1, 0] {
            comparison.repair(&word, front);
        }
    }
    assert_eq!(comparison.words, RANDOM_WORDS);
    assert!(comparison.numbers[2] > 4_000 && comparison.numbers[3] > 4_000);
}

#[test]
fn wrong_lengths_are_refused_and_touch_nothing() {
    let mut random = Random::new(50);
    // 288, 65,568 and 16,777,248 are 32 when cut to 8, 16 or 24 bits.
    let large = [256, 288, 4_096, 65_536, 65_568, 1_048_576, 16_777_248];
    for length in (0..=70).filter(|&n| n != WORD_BYTES).chain(large) {
        for flips in 0..=3 {
            // Full words stand before, at and behind the lent place, so that a library that takes
            // 32 bytes all the same finds one there.
            let code_word = random_code_word(&mut random);
            let places = random.distinct(flips, BACK, WORD_BITS);
            let word = word::to_bytes(&word::flipped(&code_word, &places));
            let mut buffer = word.repeat(length / WORD_BYTES + 3);
            let expected = buffer.clone();
            for front in [1, 0] {
                let lent = &mut buffer[WORD_BYTES..WORD_BYTES + length];
                let outcome = Outcome::from(capi::repair_word(lent, front));
                assert_eq!(outcome, Outcome::refused(MISFIT), "length {length}");
                assert!(
                    buffer == expected,
                    "length {length}: the buffer was touched"
                );
            }
        }
    }
}

#[test]
fn front_flag_is_off_at_zero_and_on_at_any_other_number() {
    let mut comparison = Comparison::new();
    let mut random = Random::new(60);
    for round in 0..100 {
        let code_word = random_code_word(&mut random);
        let mut places = random.distinct(1, 0, BACK);
        if round % 2 == 1 {
            places.extend(random.distinct(1, BACK, WORD_BITS));
        }
        let mut flags = vec![0, u32::MAX];
        flags.extend((0..32).map(|power| 1 << power));
        flags.extend((0..7).map(|_| random.next_u64() as u32 | 1 << random.between(0, 32)));
        for front in flags {
            comparison.repair_flips(&code_word, &places, front);
        }
    }
    assert_eq!(comparison.words, FRONT_FLAGS);
    assert_eq!(comparison.numbers[LOST as usize], 100);
}
