//! The reference by itself.

use ofec_tests::cells;
use ofec_tests::chain::places::{self, in_back, in_front, on_line, words_of, Name};
use ofec_tests::frames::{self, SUBFRAMES, SUBFRAME_CELLS};
use ofec_tests::interleaver::{source, BUFFER_BITS, PAIRS_BYTES};
use ofec_tests::profile::{Profile, PROFILES};
use ofec_tests::random::Random;
use ofec_tests::rows::{
    self, Numbers, Place, BIT_ROWS, FIRST_FULL_ROW, HELD_BYTES, HISTORY_BYTES, PAIR_BYTES,
};
use ofec_tests::word::{self, Trial, Word, BACK, FREE_BITS, GENERATOR, WORD_BITS};

#[test]
fn generator_is_the_product_of_its_two_factors() {
    let factors = [vec![8, 4, 3, 2, 0], vec![8, 6, 5, 4, 2, 1, 0]];
    let mut product = [false; 17];
    for i in &factors[0] {
        for j in &factors[1] {
            product[i + j] ^= true;
        }
    }
    let powers: Vec<usize> = (0..17).rev().filter(|&power| product[power]).collect();
    assert_eq!(powers, GENERATOR);
}

#[test]
fn generator_at_every_shift_leaves_no_remainder() {
    for shift in 0..FREE_BITS {
        let mut word = [false; WORD_BITS];
        for power in GENERATOR {
            word[254 - shift - power] = true;
        }
        word[255] = true;
        assert!(word::is_code_word(&word));
        assert!(!word::is_code_word(&word::flipped(&word, &[255])));
    }
}

#[test]
fn completion_is_a_code_word_and_keeps_the_free_bits() {
    let mut random = Random::new(1);
    for _ in 0..1000 {
        let free = std::array::from_fn(|_| random.bit());
        let word = word::complete(&free);
        assert!(word::is_code_word(&word));
        assert_eq!(word[..FREE_BITS], free);
    }
}

#[test]
fn fast_trial_agrees_with_flipping_and_dividing_afresh() {
    let trial = Trial::default();
    let mut random = Random::new(2);
    let mut words: Vec<Word> = Vec::new();
    for flips in 0..=6 {
        for low in [0, 128] {
            let word = word::complete(&std::array::from_fn(|_| random.bit()));
            words.push(word::flipped(&word, &random.distinct(flips, low, 256)));
        }
    }
    for places in [vec![255], vec![0, 255], vec![127, 128], vec![128, 255]] {
        words.push(word::flipped(&[false; WORD_BITS], &places));
    }
    words.extend((0..12).map(|_| std::array::from_fn(|_| random.bit())));
    assert_eq!(words.len(), 30);

    let mut numbers = [0; 4];
    for word in &words {
        for front in [true, false] {
            let flips = word::flips_by_division(word, front);
            assert_eq!(trial.flips(word, front), flips);
            numbers[flips.map_or(3, |places| places.len())] += 1;
        }
    }
    assert!(numbers.iter().all(|&n| n > 0), "{numbers:?}");
}

#[test]
fn payload_bits_of_a_pair_are_3552_in_a_row() {
    assert_eq!(rows::payload_bit(0, 1, 96), 3087);
    assert_eq!(rows::payload_bit(1, 15, 110), 3551);
    assert_eq!(rows::payload_bit(2, 0, 0), 3552);
    for pair in [0, 1, 10, 4_294_967_294] {
        let mut numbers = Vec::new();
        for row in rows::rows_of(pair) {
            for r in 0..BIT_ROWS {
                numbers.extend((0..=110).map(|k| rows::payload_bit(row, r, k)));
            }
        }
        numbers.sort();
        let first = 3552 * i64::from(pair);
        assert!(numbers.into_iter().eq(first..first + 3552));
    }
}

#[test]
fn numbers_in_front_of_a_history_have_their_most_significant_byte_first() {
    let numbers = Numbers {
        encoder: 0x0102_0304,
        pair: 0x8090_a0b0,
    };
    let bytes = [1, 2, 3, 4, 0x80, 0x90, 0xa0, 0xb0];
    assert_eq!(numbers.to_bytes(), bytes);
    let history = numbers.history(&[7; HELD_BYTES]);
    assert_eq!(Numbers::of(&history), numbers);
    assert_eq!(history, [&bytes[..], &[7; 10 * PAIR_BYTES]].concat());
    assert_eq!(history.len(), HISTORY_BYTES);

    let mut fresh = [0; HISTORY_BYTES];
    assert_eq!(rows::fresh(0), fresh);
    fresh[3] = 1;
    assert_eq!(rows::fresh(1), fresh);
}

#[test]
fn words_of_a_pair_share_no_bit() {
    let mut places = Vec::new();
    for row in rows::rows_of(10) {
        for r in 0..BIT_ROWS {
            for k in 0..WORD_BITS {
                let place = rows::word_bit(row, r, k);
                places.push((place.row, place.block, place.bit_row, place.column));
            }
        }
    }
    places.sort();
    assert_eq!(places.len(), 2 * 16 * 256);
    assert!(places.windows(2).all(|two| two[0] != two[1]));
    assert!(places.iter().all(|place| (0..22).contains(&place.0)));
}

#[test]
fn output_bits_come_from_every_place_once() {
    let mut seen = vec![false; BUFFER_BITS];
    for n in 0..BUFFER_BITS {
        let from = source(n);
        seen[BUFFER_BITS / 2 * from.encoder + from.index()] = true;
    }
    assert!(seen.into_iter().all(|seen| seen));
}

#[test]
fn cells_are_legal_and_tell_their_byte() {
    for profile in PROFILES {
        let symbols = 1 << profile.symbol_bits();
        for symbol in (0..=255).take(symbols) {
            let cell = cells::cell(profile, symbol);
            assert_eq!(cells::first_illegal(profile, &cell), None);
            assert_eq!(cells::symbol(profile, cell), symbol);
        }
        // Every legal cell is one of them.
        assert_eq!(cells::legal_bytes(profile).len().pow(2), symbols);
    }
    assert_eq!(cells::legal_bytes(Profile::Qpsk), [5, 6, 9, 10]);
}

/// What is stated for a profile follows from its bits a symbol.
#[test]
fn sizes_of_the_profiles() {
    for profile in PROFILES {
        let symbols = profile.buffer_symbols();
        assert_eq!(profile.symbol_bits() * symbols, BUFFER_BITS);
        assert_eq!(profile.cells_bytes(), 2 * symbols);
        assert_eq!(profile.buffers() * symbols, 172_032);
        let pairs = profile.pairs();
        assert_eq!(pairs * rows::PAIR_BYTES, profile.buffers() * PAIRS_BYTES);
        assert_eq!(profile.payload_bytes(), pairs * rows::PAYLOAD_BYTES);
    }
}

#[test]
fn cells_of_a_super_frame_are_as_many_as_stated() {
    let (mut overhead, mut payload) = (0, 0);
    for number in 0..SUBFRAMES {
        let cells = 0..SUBFRAME_CELLS;
        let own = cells
            .filter(|&cell| frames::is_overhead(number, cell))
            .count();
        assert_eq!(own, frames::overhead_cells(number));
        assert_eq!(2 * (SUBFRAME_CELLS - own), frames::payload_bytes(number));
        assert_eq!(
            frames::own_overhead(number),
            2 * overhead..2 * (overhead + own)
        );
        overhead += own;
        payload += SUBFRAME_CELLS - own;
    }
    assert_eq!((overhead, payload), (6_144, 172_032));
}

#[test]
fn output_bit_of_a_place_is_the_one_that_comes_from_it() {
    for n in 0..BUFFER_BITS {
        let from = source(n);
        let place = Place {
            row: 0,
            block: from.block,
            bit_row: from.bit_row,
            column: from.column,
        };
        assert_eq!(places::output_bit(from.encoder, from.row, place), n);
    }
}

#[test]
fn bits_of_a_super_frame_fill_its_payload_cells() {
    for profile in PROFILES {
        let mut seen = vec![0_u8; SUBFRAMES as usize * SUBFRAME_CELLS];
        for word in places::words(profile.pairs()) {
            for place in (BACK..WORD_BITS).map(|k| word.bit(k)) {
                for encoder in [0, 1] {
                    let at = on_line(profile, encoder, place);
                    assert_eq!(seen[at.cell] >> at.bit & 1, 0);
                    seen[at.cell] |= 1 << at.bit;
                    // The same in the super-frame after the next.
                    let later = Place {
                        row: place.row + 4 * profile.pairs() as i64,
                        ..place
                    };
                    let then = on_line(profile, encoder, later);
                    assert_eq!(then.cell, at.cell + 2 * seen.len());
                    assert_eq!(then.bit, at.bit);
                }
            }
        }
        let all = ((1 << profile.symbol_bits()) - 1) as u8;
        for (cell, &bits) in seen.iter().enumerate() {
            let number = (cell / SUBFRAME_CELLS) as u32;
            let overhead = frames::is_overhead(number, cell % SUBFRAME_CELLS);
            assert_eq!(bits, if overhead { 0 } else { all });
        }
    }
}

#[test]
fn words_that_hold_a_bit() {
    for word in (0..30).flat_map(words_of) {
        for k in BACK..WORD_BITS {
            assert_eq!(in_back(word.bit(k)), word);
        }
        for k in 0..BACK {
            if word.row >= FIRST_FULL_ROW {
                assert_eq!(in_front(word.bit(k)), Some(word));
            }
        }
    }
    let v = |row, block, bit_row, column| Place {
        row,
        block,
        bit_row,
        column,
    };
    let word = Name { row: 21, r: 5 };
    assert_eq!(in_front(v(14, 7, 2, 5)), Some(word));
    assert_eq!(word.bit(119), v(14, 7, 2, 5));
    for (bit_row, column) in (0..256).map(|both| (both / 16, both % 16)) {
        assert_eq!(in_front(v(13, 7, bit_row, column)), None);
    }
}
