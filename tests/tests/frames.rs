//! `ofec_frame`, `ofec_unframe` and their QPSK twins against the reference: answer and every buffer.

use ofec_tests::cells::{is_legal, GRID};
use ofec_tests::compare::{compare, compare_refused, misfit, misfits, refused_beyond_32_bits};
use ofec_tests::frames::{
    self, is_overhead, overhead_cells, own_overhead, payload_bytes, rule, FRAME_BYTES, OVERHEAD,
    OVERHEAD_BYTES, SUBFRAMES, SUBFRAME_CELLS,
};
use ofec_tests::library;
use ofec_tests::outcome::{Outcome, MISFIT, NO_SUCH_FRAME};
use ofec_tests::profile::{Profile, PROFILES};
use ofec_tests::random::Random;

fn frame_lengths(number: u32) -> [usize; 3] {
    [payload_bytes(number), OVERHEAD_BYTES, FRAME_BYTES]
}

fn unframe_lengths(number: u32) -> [usize; 3] {
    [FRAME_BYTES, OVERHEAD_BYTES, payload_bytes(number)]
}

/// The frame that stands after the call, the same on both sides.
fn frame(
    profile: Profile,
    number: u32,
    payload: &[u8],
    overhead: &[u8],
    random: &mut Random,
) -> Vec<u8> {
    let (outcome, [_, _, frame]) = compare(
        [payload, overhead, &random.bytes(FRAME_BYTES)],
        |[payload, overhead, frame]| library::frame(profile, number, payload, overhead, frame),
        |[payload, overhead, frame]| frames::frame(profile, number, payload, overhead, frame),
    );
    assert_eq!(outcome, Outcome::accepted(0));
    frame
}

/// The number of differing cells and the payload that stands after the call, the same on both sides.
fn unframe(
    profile: Profile,
    number: u32,
    frame: &[u8],
    overhead: &[u8],
    random: &mut Random,
) -> (u32, Vec<u8>) {
    let (outcome, [_, _, payload]) = compare(
        [frame, overhead, &random.bytes(payload_bytes(number))],
        |[frame, overhead, payload]| library::unframe(profile, number, frame, overhead, payload),
        |[frame, overhead, payload]| frames::unframe(profile, number, frame, overhead, payload),
    );
    assert_eq!(outcome, Outcome::accepted(outcome.value));
    (outcome.value, payload)
}

fn refused_frame(profile: Profile, refused: Outcome, number: u32, lent: [&[u8]; 3]) {
    compare_refused(
        refused,
        lent,
        |[payload, overhead, frame]| library::frame(profile, number, payload, overhead, frame),
        |[payload, overhead, frame]| frames::frame(profile, number, payload, overhead, frame),
    );
}

fn refused_unframe(profile: Profile, refused: Outcome, number: u32, lent: [&[u8]; 3]) {
    compare_refused(
        refused,
        lent,
        |[frame, overhead, payload]| library::unframe(profile, number, frame, overhead, payload),
        |[frame, overhead, payload]| frames::unframe(profile, number, frame, overhead, payload),
    );
}

/// An illegal byte for the byte at `first`, and for some others from there to the end, each by its rule.
fn spoil(bytes: &mut [u8], first: usize, rule: impl Fn(usize) -> Profile, random: &mut Random) {
    bytes[first] = random.illegal(rule(first));
    for _ in 0..random.between(0, 3) {
        let place = random.between(first, bytes.len());
        bytes[place] = random.illegal(rule(place));
    }
}

/// The ends of a buffer and some places between.
fn places(start: usize, end: usize, random: &mut Random) -> Vec<usize> {
    let mut places = vec![start, start + 1, end - 2, end - 1];
    places.extend((0..6).map(|_| random.between(start, end)));
    places
}

/// Another legal byte of an overhead cell.
fn other(byte: u8, random: &mut Random) -> u8 {
    (byte + random.between(1, 16) as u8) % GRID
}

/// Both profiles, each with all of these.
fn both<T: Clone>(each: impl IntoIterator<Item = T> + Clone) -> impl Iterator<Item = (Profile, T)> {
    let with = move |profile| each.clone().into_iter().map(move |one| (profile, one));
    PROFILES.into_iter().flat_map(with)
}

#[test]
fn super_frames_there_and_back() {
    let mut random = Random::new(3_000);
    for profile in PROFILES.repeat(4) {
        let payload = random.payload(profile, 2 * 172_032);
        let overhead = random.cells(OVERHEAD_BYTES);
        let mut rest = &payload[..];
        let mut payload_out: Vec<u8> = Vec::new();
        let mut overhead_out: Vec<u8> = Vec::new();
        for number in 0..SUBFRAMES {
            let own;
            (own, rest) = rest.split_at(payload_bytes(number));
            let frame = frame(profile, number, own, &overhead, &mut random);
            let back = unframe(profile, number, &frame, &overhead, &mut random);
            assert!(back == (0, own.to_vec()));
            for (cell, bytes) in frame.chunks(2).enumerate() {
                if is_overhead(number, cell) {
                    overhead_out.extend(bytes);
                } else {
                    payload_out.extend(bytes);
                }
            }
        }
        assert!(rest.is_empty() && payload_out == payload && overhead_out == overhead);
    }
}

#[test]
fn differing_overhead_cells_are_counted_and_leave_the_payload() {
    let mut random = Random::new(3_100);
    for (profile, number) in both(0..SUBFRAMES) {
        let cells = overhead_cells(number);
        let overhead = random.cells(OVERHEAD_BYTES);
        let payload = random.payload(profile, payload_bytes(number));
        let sent = frame(profile, number, &payload, &overhead, &mut random);
        let places: Vec<usize> = (0..SUBFRAME_CELLS)
            .filter(|&cell| is_overhead(number, cell))
            .collect();
        for count in [0, 1, 2, random.between(3, cells), cells - 1, cells] {
            // On the line: in X, in Y or in both.
            let mut received = sent.clone();
            let mut list = overhead.clone();
            for cell in random.distinct(count, 0, cells) {
                let bytes = [&[0][..], &[1], &[0, 1]][random.between(0, 3)];
                for byte in bytes {
                    let in_frame = 2 * places[cell] + byte;
                    received[in_frame] = other(received[in_frame], &mut random);
                    let in_list = own_overhead(number).start + 2 * cell + byte;
                    list[in_list] = other(list[in_list], &mut random);
                }
            }
            let expected = (count as u32, payload.clone());
            assert!(unframe(profile, number, &received, &overhead, &mut random) == expected);
            // In the list, the rest of which may be anything legal.
            for index in (0..OVERHEAD_BYTES).filter(|i| !own_overhead(number).contains(i)) {
                list[index] = random.between(0, 16) as u8;
            }
            assert!(unframe(profile, number, &sent, &list, &mut random) == expected);
        }
        // Payload cells do not count, whatever the line puts for them.
        let received = random.frame(profile, number);
        let (_, payload) = unframe(profile, number, &received, &overhead, &mut random);
        let received = frame(profile, number, &payload, &overhead, &mut random);
        let back = unframe(profile, number, &received, &overhead, &mut random);
        assert!(back == (0, payload));
    }
}

/// Overhead cells with levels of -3 and 3 in both bytes, in the list and on the line.
#[test]
fn overhead_cells_may_have_any_level_in_both_profiles() {
    let mut random = Random::new(3_150);
    for (profile, number) in both(0..SUBFRAMES) {
        let payload = random.payload(profile, payload_bytes(number));
        for byte in [0, 3, 12, 15] {
            let list = [byte; OVERHEAD_BYTES];
            let mut received = frame(profile, number, &payload, &list, &mut random);
            let back = unframe(profile, number, &received, &list, &mut random);
            assert!(back == (0, payload.clone()));
            // On the line alone, in each overhead cell.
            for (index, place) in received.iter_mut().enumerate() {
                if is_overhead(number, index / 2) {
                    *place = 15 - byte;
                }
            }
            let back = unframe(profile, number, &received, &list, &mut random);
            assert!(back == (overhead_cells(number) as u32, payload.clone()));
            // The first payload cell that has the byte is the one that QPSK refuses, and not an overhead cell before it.
            if profile == Profile::Qpsk {
                let in_payload = random.between(0, payload.len());
                let mut spoiled = payload.clone();
                spoiled[in_payload] = byte;
                let out = random.bytes(FRAME_BYTES);
                let refused = Outcome::off_grid(in_payload);
                refused_frame(profile, refused, number, [&spoiled, &list, &out]);
                let in_frame = (0..FRAME_BYTES)
                    .filter(|index| !is_overhead(number, index / 2))
                    .nth(in_payload)
                    .expect("a payload cell");
                received[in_frame] = byte;
                let out = random.bytes(payload.len());
                let refused = Outcome::off_grid(in_frame);
                refused_unframe(profile, refused, number, [&received, &list, &out]);
            }
        }
    }
}

#[test]
fn illegal_bytes_in_the_list_come_first_and_only_those_of_the_sub_frame() {
    let mut random = Random::new(3_200);
    for (profile, number) in both(0..SUBFRAMES) {
        let own = own_overhead(number);
        let payload = random.payload(profile, payload_bytes(number));
        let received = random.frame(profile, number);
        // What stands in the list for the other sub-frames is not read.
        let mut overhead = random.bytes(OVERHEAD_BYTES);
        for (index, byte) in overhead.iter_mut().enumerate() {
            if own.contains(&index) {
                *byte %= GRID;
            } else if index + 4 >= own.start && index < own.end + 4 {
                *byte |= GRID;
            }
        }
        frame(profile, number, &payload, &overhead, &mut random);
        unframe(profile, number, &received, &overhead, &mut random);

        for index in places(own.start, own.end, &mut random) {
            let mut list = overhead.clone();
            spoil(&mut list, index, |_| OVERHEAD, &mut random);
            // The other buffer is legal, or illegal from its first byte on.
            for first in [None, Some(0)] {
                let (mut payload, mut received) = (payload.clone(), received.clone());
                if let Some(first) = first {
                    spoil(&mut payload, first, |_| profile, &mut random);
                    let rule = |index| rule(profile, number, index / 2);
                    spoil(&mut received, first, rule, &mut random);
                }
                let refused = Outcome::off_grid(index);
                let out = random.bytes(FRAME_BYTES);
                refused_frame(profile, refused, number, [&payload, &list, &out]);
                let out = random.bytes(payload_bytes(number));
                refused_unframe(profile, refused, number, [&received, &list, &out]);
            }
        }
    }
}

#[test]
fn illegal_bytes_in_the_other_buffer_are_refused_at_the_first_of_them() {
    let mut random = Random::new(3_300);
    let mut in_overhead_cells = [0; 2];
    for (profile, number) in both(0..SUBFRAMES) {
        let overhead = random.cells(OVERHEAD_BYTES);
        let payload = random.payload(profile, payload_bytes(number));
        let received = random.frame(profile, number);
        for index in places(0, payload.len(), &mut random) {
            let mut payload = payload.clone();
            spoil(&mut payload, index, |_| profile, &mut random);
            let out = random.bytes(FRAME_BYTES);
            let lent: [&[u8]; 3] = [&payload, &overhead, &out];
            refused_frame(profile, Outcome::off_grid(index), number, lent);
        }
        // Payload and overhead cells of the frame alike.
        let mut indices = places(0, FRAME_BYTES, &mut random);
        indices.extend([64, 65, 3_680 * 2, 3_680 * 2 + 1]);
        for index in indices {
            in_overhead_cells[profile as usize] += u32::from(is_overhead(number, index / 2));
            let mut received = received.clone();
            let rule = |index| rule(profile, number, index / 2);
            spoil(&mut received, index, rule, &mut random);
            let out = random.bytes(payload_bytes(number));
            let lent: [&[u8]; 3] = [&received, &overhead, &out];
            refused_unframe(profile, Outcome::off_grid(index), number, lent);
        }
    }
    assert!(in_overhead_cells.into_iter().all(|number| number > 200));
}

/// In the payload, in a payload cell of the frame, in an overhead cell of the frame and in the list.
#[test]
fn every_byte_in_every_kind_of_cell() {
    let mut random = Random::new(3_350);
    for (profile, byte) in both(0..=255) {
        let number = random.between(0, 48) as u32;
        let overhead = random.cells(OVERHEAD_BYTES);
        let mut payload = random.payload(profile, payload_bytes(number));
        let index = random.between(0, payload.len());
        payload[index] = byte;
        if is_legal(profile, byte) {
            frame(profile, number, &payload, &overhead, &mut random);
        } else {
            let out = random.bytes(FRAME_BYTES);
            let refused = Outcome::off_grid(index);
            refused_frame(profile, refused, number, [&payload, &overhead, &out]);
        }

        let legal = random.frame(profile, number);
        for overhead_cell in [false, true] {
            let mut received = legal.clone();
            let places: Vec<usize> = (0..FRAME_BYTES)
                .filter(|index| is_overhead(number, index / 2) == overhead_cell)
                .collect();
            let index = places[random.between(0, places.len())];
            received[index] = byte;
            if is_legal(if overhead_cell { OVERHEAD } else { profile }, byte) {
                unframe(profile, number, &received, &overhead, &mut random);
            } else {
                let out = random.bytes(payload_bytes(number));
                let refused = Outcome::off_grid(index);
                refused_unframe(profile, refused, number, [&received, &overhead, &out]);
            }
        }

        let own = own_overhead(number);
        let index = random.between(own.start, own.end);
        let mut overhead = overhead;
        overhead[index] = byte;
        if is_legal(OVERHEAD, byte) {
            unframe(profile, number, &legal, &overhead, &mut random);
        } else {
            let out = random.bytes(payload_bytes(number));
            let refused = Outcome::off_grid(index);
            refused_unframe(profile, refused, number, [&legal, &overhead, &out]);
        }
    }
}

/// Numbers above 47; some are below 48 when cut to 8 or 16 bits.
fn numbers_above_47(random: &mut Random) -> Vec<u32> {
    let mut numbers = vec![
        48,
        49,
        63,
        64,
        96,
        128,
        255,
        256,
        257,
        303,
        304,
        65_536,
        65_583,
        0x0100_0000,
        0x7fff_ffff,
        0x8000_0000,
        0x8000_002f,
        0xffff_ffff,
    ];
    numbers.extend((0..20).map(|_| random.next_u64() as u32 | 64));
    numbers
}

#[test]
fn numbers_above_47_are_refused_whatever_the_payload() {
    let mut random = Random::new(3_400);
    for (profile, number) in both(numbers_above_47(&mut random)) {
        let any = random.between(0, 10_000);
        for payload in [0, 1, 6_980, 7_172, any] {
            let refused = Outcome::refused(NO_SUCH_FRAME);
            let payload = random.payload(profile, payload);
            let overhead = random.cells(OVERHEAD_BYTES);
            let other = random.payload(profile, FRAME_BYTES);
            refused_frame(profile, refused, number, [&payload, &overhead, &other]);
            refused_unframe(profile, refused, number, [&other, &overhead, &payload]);

            // Illegal bytes come after that.
            let payload = random.bytes(payload.len());
            let overhead = vec![random.illegal(OVERHEAD); OVERHEAD_BYTES];
            let other = vec![random.illegal(profile); FRAME_BYTES];
            refused_frame(profile, refused, number, [&payload, &overhead, &other]);
            refused_unframe(profile, refused, number, [&other, &overhead, &payload]);

            // Misfit of frame or list comes before.
            let [overhead, other] = misfit([OVERHEAD_BYTES, FRAME_BYTES], &mut random);
            let (overhead, other) = (random.cells(overhead), random.bytes(other));
            let refused = Outcome::refused(MISFIT);
            refused_frame(profile, refused, number, [&payload, &overhead, &other]);
            refused_unframe(profile, refused, number, [&other, &overhead, &payload]);
        }
    }
}

#[test]
fn wrong_lengths_are_refused_before_illegal_bytes_and_touch_nothing() {
    let mut random = Random::new(3_500);
    let refused = Outcome::refused(MISFIT);
    let any = random.between(2, 47) as u32;
    for (profile, number) in both([0, 1, any, 47]) {
        // The length of a sub-frame 0 for another one, and the reverse.
        let not_its_own = payload_bytes(u32::from(number == 0));
        let mut lists = misfits(frame_lengths(number), &mut random);
        lists.push([not_its_own, OVERHEAD_BYTES, FRAME_BYTES]);
        for lengths in lists {
            let [payload, overhead, out] = lengths.map(|length| random.payload(profile, length));
            refused_frame(profile, refused, number, [&payload, &overhead, &out]);
            let [payload, overhead, out] = lengths.map(|length| random.bytes(length));
            refused_frame(profile, refused, number, [&payload, &overhead, &out]);
        }
        let mut lists = misfits(unframe_lengths(number), &mut random);
        lists.push([FRAME_BYTES, OVERHEAD_BYTES, not_its_own]);
        for lengths in lists {
            let [frame, overhead, out] = lengths.map(|length| random.payload(profile, length));
            refused_unframe(profile, refused, number, [&frame, &overhead, &out]);
            let [frame, overhead, out] = lengths.map(|length| random.bytes(length));
            refused_unframe(profile, refused, number, [&frame, &overhead, &out]);
        }
    }
}

#[test]
fn lengths_beyond_32_bits_are_refused() {
    let refused = Outcome::refused(MISFIT);
    for (profile, number) in both([0, 47]) {
        let lengths = frame_lengths(number);
        refused_beyond_32_bits(refused, lengths, |[payload, overhead, frame]| {
            library::frame(profile, number, payload, overhead, frame)
        });
        let lengths = unframe_lengths(number);
        refused_beyond_32_bits(refused, lengths, |[frame, overhead, payload]| {
            library::unframe(profile, number, frame, overhead, payload)
        });
    }
    // The payload of a number above 47 is not measured.
    let payload = &mut vec![0; (1 << 32) + 7_172][..];
    let (overhead, other) = (&[0; OVERHEAD_BYTES], &mut [0; FRAME_BYTES]);
    let refused = Outcome::refused(NO_SUCH_FRAME);
    for profile in PROFILES {
        let framed = library::frame(profile, 48, payload, overhead, other);
        let unframed = library::unframe(profile, 48, other, overhead, payload);
        assert_eq!([framed, unframed], [refused; 2]);
    }
}
