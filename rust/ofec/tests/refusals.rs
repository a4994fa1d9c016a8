//! A refused call says why, and leaves every buffer and every history as it was.

mod common;

use common::BOTH;
use ofec::frame::{FRAME_BYTES, OVERHEAD_BYTES, SUPERFRAME_BYTES, frame};
use ofec::interleaver::{BITS_BYTES, PAIRS_BYTES, deinterleave, interleave};
use ofec::line_file::{HEADER_BYTES, write_header};
use ofec::pair::{CODED_BYTES, HISTORY_BYTES, PAYLOAD_BYTES};
use ofec::word::{Reach, WORD_BYTES, repair};
use ofec::{Encoder, History, LineFile, Mark, Profile, Receiver, Refusal};

/// What stands in a buffer before a call.
const LEFT: u8 = 0xa5;

/// Makes a call once for each of its written buffers, which then is one byte too long, and sees
/// that it is a misfit and writes nothing.
fn misfits<const N: usize, T: std::fmt::Debug>(
    lengths: [usize; N],
    mut call: impl FnMut([&mut [u8]; N]) -> Result<T, Refusal>,
) {
    for wrong in 0..N {
        let mut lent = lengths.map(|length| vec![LEFT; length]);
        lent[wrong].push(LEFT);
        let answer = call(lent.each_mut().map(|buffer| &mut buffer[..]));
        assert_eq!(answer.unwrap_err(), Refusal::Misfit);
        assert!(lent.iter().flatten().all(|&byte| byte == LEFT));
    }
}

#[test]
fn a_misfit_leaves_every_buffer() {
    misfits([WORD_BYTES], |[word]| repair(word, Reach::WholeWord));
    misfits([PAYLOAD_BYTES, CODED_BYTES], |[payload, coded]| {
        let mut encoder = Encoder::new(0);
        let answer = encoder.encode(payload, coded);
        assert_eq!(encoder, Encoder::new(0));
        answer
    });
    misfits([CODED_BYTES, PAYLOAD_BYTES], |[coded, payload]| {
        let mut receiver = Receiver::new(1);
        let answer = receiver.receive(coded, payload);
        assert_eq!(receiver, Receiver::new(1));
        answer
    });
    misfits(
        [PAIRS_BYTES, PAIRS_BYTES, BITS_BYTES],
        |[pairs0, pairs1, bits]| interleave(pairs0, pairs1, bits),
    );
    misfits(
        [BITS_BYTES, PAIRS_BYTES, PAIRS_BYTES],
        |[bits, pairs0, pairs1]| deinterleave(bits, pairs0, pairs1),
    );
    for calls in BOTH {
        let cells_bytes = calls.profile.cells_bytes();
        misfits([BITS_BYTES, cells_bytes], |[bits, cells]| {
            (calls.bits_to_cells)(bits, cells)
        });
        misfits([cells_bytes, BITS_BYTES], |[cells, bits]| {
            (calls.cells_to_bits)(cells, bits)
        });
        misfits(
            [7_172, OVERHEAD_BYTES, FRAME_BYTES],
            |[payload, list, to]| (calls.frame)(1, payload, list, to),
        );
        misfits(
            [FRAME_BYTES, OVERHEAD_BYTES, 6_980],
            |[from, list, payload]| (calls.unframe)(0, from, list, payload),
        );
    }
    misfits([HEADER_BYTES], |[header]| write_header(1, header));
}

/// A history with these numbers in front of ones.
fn history(encoder: u32, pair: u32) -> History {
    let mut bytes = [1; HISTORY_BYTES];
    bytes[..4].copy_from_slice(&encoder.to_be_bytes());
    bytes[4..8].copy_from_slice(&pair.to_be_bytes());
    let history = History::from(bytes);
    assert_eq!((history.encoder(), history.next_pair()), (encoder, pair));
    assert_eq!(history.as_bytes(), &bytes);
    history
}

#[test]
fn a_fresh_history_has_its_encoder_and_zeros() {
    for encoder in [0_u32, 1, 2, 0x0102_0304] {
        let mut bytes = [0; HISTORY_BYTES];
        bytes[..4].copy_from_slice(&encoder.to_be_bytes());
        let fresh = History::fresh(encoder);
        assert_eq!(fresh.as_bytes(), &bytes);
        assert_eq!((fresh.encoder(), fresh.next_pair()), (encoder, 0));
        assert_eq!(fresh.pairs(), &bytes[8..]);
        assert_eq!(Encoder::new(encoder).history(), &fresh);
        assert_eq!(Encoder::new(encoder).number(), encoder);
        assert_eq!(Receiver::new(encoder).history(), &fresh);
        assert_eq!(Receiver::new(encoder).number(), encoder);
    }
}

/// An encoder or receiver, and the history that it is given: all of them stray.
const STRAY: [(u32, u32); 9] = [
    (0, 1),
    (1, 0),
    (0, 2),
    (2, 0),
    (2, 2),
    (256, 256),
    (0, 1 << 24),
    (1 << 24, 1 << 24),
    (u32::MAX, u32::MAX),
];

#[test]
fn a_stray_history_is_refused_before_a_spent_count_and_after_a_misfit() {
    for (number, owner) in STRAY {
        for pair in [0, 9, 10, u32::MAX - 1, u32::MAX] {
            let given = history(owner, pair);
            let (mut payload, mut coded) = ([LEFT; PAYLOAD_BYTES], [LEFT; CODED_BYTES]);
            let mut encoder = Encoder::resume(number, given.clone());
            let mut receiver = Receiver::resume(number, given.clone());
            for (coded_bytes, expected) in [
                (CODED_BYTES, Refusal::StrayHistory),
                (CODED_BYTES - 1, Refusal::Misfit),
            ] {
                let coded = &mut coded[..coded_bytes];
                assert_eq!(encoder.encode(&payload, coded), Err(expected));
                assert_eq!(receiver.receive(coded, &mut payload), Err(expected));
            }
            assert_eq!((encoder.history(), encoder.number()), (&given, number));
            assert_eq!((receiver.history(), receiver.number()), (&given, number));
            assert!(payload.iter().chain(&coded).all(|&byte| byte == LEFT));
        }
    }
}

#[test]
fn a_spent_count_is_refused() {
    let before = history(1, u32::MAX - 1);
    let (payload, mut coded) = ([2; PAYLOAD_BYTES], [LEFT; CODED_BYTES]);
    let mut encoder = Encoder::resume(1, before.clone());
    encoder.encode(&payload, &mut coded).expect("the last pair");
    let (last, last_coded) = (encoder.clone(), coded);
    assert_eq!(last.history().next_pair(), u32::MAX);
    assert_eq!(
        encoder.encode(&payload, &mut coded),
        Err(Refusal::CountSpent)
    );
    assert_eq!((encoder, coded), (last, last_coded));

    let mut out = [LEFT; PAYLOAD_BYTES];
    let mut receiver = Receiver::resume(1, before);
    receiver.receive(&coded, &mut out).expect("the last pair");
    assert_eq!(out, payload);
    let last = receiver.clone();
    let mut out = [LEFT; PAYLOAD_BYTES];
    assert_eq!(receiver.receive(&coded, &mut out), Err(Refusal::CountSpent));
    assert_eq!((receiver, out), (last, [LEFT; PAYLOAD_BYTES]));
}

#[test]
fn refusals_come_in_their_order() {
    let mut to = [LEFT; FRAME_BYTES];
    let (mut payload, mut list) = ([0; 7_172], [0; OVERHEAD_BYTES]);
    (payload[3], list[OVERHEAD_BYTES - 1]) = (16, 16);
    let mut refused = |number, payload: &[u8], list: &[u8]| {
        let refusal = frame(number, payload, list, &mut to).unwrap_err();
        assert_eq!(to, [LEFT; FRAME_BYTES]);
        refusal
    };
    assert_eq!(refused(48, &[], &list[1..]), Refusal::Misfit);
    assert_eq!(refused(48, &[], &list), Refusal::NoSuchFrame);
    let in_list = Refusal::OffGrid {
        index: OVERHEAD_BYTES - 1,
    };
    assert_eq!(refused(47, &payload, &list), in_list);
    // The last bytes of the list belong to sub-frame 47 and to no other.
    assert_eq!(refused(46, &payload, &list), Refusal::OffGrid { index: 3 });
}

#[test]
fn a_header_rule_that_fails() {
    for superframes in [0, 65, u32::MAX] {
        let mut header = [LEFT; HEADER_BYTES];
        assert_eq!(
            write_header(superframes, &mut header),
            Err(Refusal::BadHeader)
        );
        assert_eq!(header, [LEFT; HEADER_BYTES]);
    }
    let mut file = vec![0; 368_656];
    write_header(1, &mut file[..HEADER_BYTES]).expect("one super-frame");
    assert!(LineFile::open(&file).is_ok());
    file.push(0);
    assert_eq!(LineFile::open(&file).unwrap_err(), Refusal::BadHeader);
    assert_eq!(LineFile::open(&[]).unwrap_err(), Refusal::Misfit);
}

#[test]
fn numbers_and_names() {
    let table = [
        (Refusal::Misfit, 1, "refusal 1: misfit"),
        (Refusal::StrayHistory, 6, "refusal 6: stray history"),
        (Refusal::BadHeader, 2, "refusal 2: bad header"),
        (Refusal::CountSpent, 3, "refusal 3: count spent"),
        (Refusal::NoSuchFrame, 4, "refusal 4: no such frame"),
        (
            Refusal::OffGrid { index: 9 },
            5,
            "refusal 5: off grid at byte 9",
        ),
    ];
    for (refusal, number, line) in table {
        assert_eq!(refusal.number(), number);
        assert_eq!(refusal.to_string(), line);
    }
}

#[test]
fn from_48_on_the_payload_is_not_measured() {
    let (list, mut line) = ([0; OVERHEAD_BYTES], [LEFT; FRAME_BYTES]);
    for length in [0, 1, 6_980, 7_172, 10_000] {
        let mut payload = vec![LEFT; length];
        for number in [48, u32::MAX] {
            for calls in BOTH {
                let refused = (calls.frame)(number, &payload, &list, &mut line);
                assert_eq!(refused, Err(Refusal::NoSuchFrame));
                let refused = (calls.unframe)(number, &line, &list, &mut payload);
                assert_eq!(refused, Err(Refusal::NoSuchFrame));
            }
            assert!(payload.iter().chain(&line).all(|&byte| byte == LEFT));
        }
    }
}

#[test]
fn a_super_frame_that_is_a_misfit() {
    for calls in BOTH {
        let profile = calls.profile;
        let (payload_bytes, coded_bytes) = (profile.payload_bytes(), profile.coded_bytes());
        misfits([payload_bytes, coded_bytes], |[payload, coded]| {
            let mut encoder = Encoder::new(1);
            let answer = (calls.encode)(&mut encoder, payload, coded);
            assert_eq!(encoder, Encoder::new(1));
            answer
        });
        let right = profile.words();
        for words in [right - 1, right, right + 1] {
            // Where the number of marks is wrong, one of the two calls fits but for that.
            let length = if words == right {
                coded_bytes
            } else {
                coded_bytes - 1
            };
            misfits([length, payload_bytes], |[coded, payload]| {
                let (mut receiver, mut marks) = (Receiver::new(0), vec![Mark::TwoFlips; words]);
                let answer = (calls.receive)(&mut receiver, coded, payload, &mut marks);
                assert_eq!(receiver, Receiver::new(0));
                assert!(marks.iter().all(|&mark| mark == Mark::TwoFlips));
                answer
            });
        }
        misfits(
            [coded_bytes, coded_bytes, OVERHEAD_BYTES, SUPERFRAME_BYTES],
            |[coded0, coded1, list, frames]| (calls.make)([coded0, coded1], list, frames),
        );
        misfits(
            [SUPERFRAME_BYTES, OVERHEAD_BYTES, coded_bytes, coded_bytes],
            |[frames, list, coded0, coded1]| (calls.take_apart)(frames, list, [coded0, coded1]),
        );
    }
}

#[test]
fn a_super_frame_over_a_stray_history() {
    for calls in BOTH {
        let profile = calls.profile;
        let mut payload = vec![LEFT; profile.payload_bytes()];
        let mut coded = vec![LEFT; profile.coded_bytes()];
        let mut marks = vec![Mark::TwoFlips; profile.words()];
        for (number, owner) in STRAY {
            // Also where too few pairs are left.
            for pair in [0, u32::MAX - 1, u32::MAX] {
                let given = history(owner, pair);
                let mut encoder = Encoder::resume(number, given.clone());
                let refused = (calls.encode)(&mut encoder, &payload, &mut coded);
                assert_eq!(refused, Err(Refusal::StrayHistory));
                assert_eq!(encoder, Encoder::resume(number, given.clone()));
                let refused = (calls.encode)(&mut encoder, &payload, &mut coded[1..]);
                assert_eq!(refused, Err(Refusal::Misfit));
                let mut receiver = Receiver::resume(number, given.clone());
                let refused = (calls.receive)(&mut receiver, &coded, &mut payload, &mut marks);
                assert_eq!(refused, Err(Refusal::StrayHistory));
                assert_eq!(receiver, Receiver::resume(number, given));
                let refused = (calls.receive)(&mut receiver, &coded, &mut payload, &mut marks[1..]);
                assert_eq!(refused, Err(Refusal::Misfit));
            }
        }
        assert!(payload.iter().chain(&coded).all(|&byte| byte == LEFT));
        assert!(marks.iter().all(|&mark| mark == Mark::TwoFlips));
    }
}

#[test]
fn a_super_frame_with_too_few_pairs_left() {
    for calls in BOTH {
        let profile = calls.profile;
        let last = u32::MAX - profile.pairs() as u32;
        let mut payload = vec![LEFT; profile.payload_bytes()];
        let mut coded = vec![LEFT; profile.coded_bytes()];
        let mut marks = vec![Mark::TwoFlips; profile.words()];
        for pair in [last + 1, u32::MAX] {
            let mut encoder = Encoder::resume(1, history(1, pair));
            let refused = (calls.encode)(&mut encoder, &payload, &mut coded);
            assert_eq!(refused, Err(Refusal::CountSpent));
            assert_eq!(encoder.history(), &history(1, pair));
            let mut receiver = Receiver::resume(0, history(0, pair));
            let refused = (calls.receive)(&mut receiver, &coded, &mut payload, &mut marks);
            assert_eq!(refused, Err(Refusal::CountSpent));
            assert_eq!(receiver.history(), &history(0, pair));
        }
        assert!(payload.iter().chain(&coded).all(|&byte| byte == LEFT));
        assert!(marks.iter().all(|&mark| mark == Mark::TwoFlips));

        let mut encoder = Encoder::resume(1, history(1, last));
        (calls.encode)(&mut encoder, &payload, &mut coded).expect("the last pairs");
        assert_eq!(encoder.history().next_pair(), u32::MAX);
    }
}

#[test]
fn a_super_frame_with_an_illegal_byte() {
    for calls in BOTH {
        let profile = calls.profile;
        let (coded, mut list) = (vec![0; profile.coded_bytes()], [0; OVERHEAD_BYTES]);
        let mut frames = vec![LEFT; SUPERFRAME_BYTES];
        list[12_287] = 16;
        let off_grid = |index| Err(Refusal::OffGrid { index });
        let refused = (calls.make)([&coded, &coded], &list, &mut frames);
        assert_eq!(refused, off_grid(12_287));
        assert!(frames.iter().all(|&byte| byte == LEFT));

        let [mut coded0, mut coded1] = [0; 2].map(|_| vec![LEFT; profile.coded_bytes()]);
        frames.fill(5);
        (frames[356_351], frames[200_000]) = (255, 16);
        for (byte, index) in [(16, 12_287), (15, 200_000)] {
            list[12_287] = byte;
            let refused = (calls.take_apart)(&frames, &list, [&mut coded0, &mut coded1]);
            assert_eq!(refused.map(|_| ()), off_grid(index));
        }
        assert!(coded0.iter().chain(&coded1).all(|&byte| byte == LEFT));
        // A level of 3: in an overhead cell, and then in a payload cell, which is legal in 16-QAM.
        (frames[356_351], frames[200_000], frames[7_424]) = (5, 5, 15);
        frames[7_424 + 2 * 11] = 15;
        let answer = (calls.take_apart)(&frames, &list, [&mut coded0, &mut coded1]);
        if profile == Profile::Qpsk {
            assert_eq!(answer.map(|_| ()), off_grid(7_424 + 2 * 11));
            assert!(coded0.iter().chain(&coded1).all(|&byte| byte == LEFT));
            frames[7_424 + 2 * 11] = 5;
            let answer = (calls.take_apart)(&frames, &list, [&mut coded0, &mut coded1]);
            assert_eq!(answer, Ok(6_144));
        } else {
            assert_eq!(answer, Ok(6_144));
        }
    }
}

#[test]
fn a_level_of_3_in_a_payload_cell() {
    let (list, mut line) = ([12; OVERHEAD_BYTES], [LEFT; FRAME_BYTES]);
    for calls in BOTH {
        let expected = match calls.profile {
            Profile::Qam16 => Ok(()),
            Profile::Qpsk => Err(Refusal::OffGrid { index: 4_321 }),
        };
        let mut cells = vec![10; calls.profile.cells_bytes()];
        let mut payload = [10; 7_172];
        (cells[4_321], payload[4_321]) = (2, 2);
        let answer = (calls.cells_to_bits)(&cells, &mut [0; BITS_BYTES]);
        assert_eq!(answer, expected);
        let answer = (calls.frame)(9, &payload, &list, &mut line);
        assert_eq!(answer, expected);
    }
}
