//! Two payload streams through a line file with errors, and back, in both profiles: call by call, and
//! super-frame by super-frame.

mod common;

use common::{BOTH, Calls};
use ofec::frame::{FRAME_BYTES, OVERHEAD_BYTES, SUBFRAMES, SUPERFRAME_BYTES, payload_bytes};
use ofec::interleaver::{BITS_BYTES, PAIRS_BYTES, deinterleave, interleave};
use ofec::line_file::{HEADER_BYTES, write_header};
use ofec::pair::{CODED_BYTES, PAYLOAD_BYTES};
use ofec::{Encoder, LineFile, Mark, Profile, Receiver, Refusal};

/// One cell in so many has a wrong bit of X: few enough that every word can be repaired.
const CELLS_PER_ERROR: usize = 499;

/// Bytes that look random, the same in every run.
fn bytes(seed: u32, count: usize) -> Vec<u8> {
    let mut x = seed;
    let mut next = || {
        x = x.wrapping_mul(1_664_525).wrapping_add(1_013_904_223);
        (x >> 24) as u8
    };
    (0..count).map(|_| next()).collect()
}

fn encode(profile: Profile, number: u32, payload: &[u8]) -> Result<Vec<u8>, Refusal> {
    let mut encoder = Encoder::new(number);
    let mut coded = vec![0; profile.coded_bytes()];
    for (payload, place) in payload
        .chunks(PAYLOAD_BYTES)
        .zip(coded.chunks_mut(CODED_BYTES))
    {
        encoder.encode(payload, place)?;
    }
    Ok(coded)
}

fn send(calls: Calls, payloads: [&[u8]; 2], overhead: &[u8]) -> Result<Vec<u8>, Refusal> {
    let profile = calls.profile;
    let coded = [
        encode(profile, 0, payloads[0])?,
        encode(profile, 1, payloads[1])?,
    ];
    let mut cells = vec![0; profile.buffers() * profile.cells_bytes()];
    for (buffer, place) in cells.chunks_mut(profile.cells_bytes()).enumerate() {
        let [pairs0, pairs1] = [0, 1].map(|e| &coded[e][buffer * PAIRS_BYTES..][..PAIRS_BYTES]);
        let mut bits = [0; BITS_BYTES];
        interleave(pairs0, pairs1, &mut bits)?;
        (calls.bits_to_cells)(&bits, place)?;
    }

    let mut file = vec![0; HEADER_BYTES];
    write_header(1, &mut file)?;
    file.extend(overhead);
    let mut rest = &cells[..];
    for number in 0..SUBFRAMES {
        let (payload, after) = rest.split_at(payload_bytes(number).expect("below 48"));
        let mut place = [0; FRAME_BYTES];
        (calls.frame)(number, payload, overhead, &mut place)?;
        file.extend(place);
        rest = after;
    }
    Ok(file)
}

/// The payloads, the flips and the overhead cells that differ.
fn receive(calls: Calls, line: LineFile) -> Result<([Vec<u8>; 2], u32, u32), Refusal> {
    let (mut cells, mut differing) = (Vec::new(), 0);
    for number in 0..SUBFRAMES {
        let mut payload = vec![0; payload_bytes(number).expect("below 48")];
        let stretch = line.subframe(0, number)?;
        differing += (calls.unframe)(number, stretch, line.overhead(), &mut payload)?;
        cells.extend(payload);
    }

    let mut receivers = [Receiver::new(0), Receiver::new(1)];
    let (mut payloads, mut flips) = ([Vec::new(), Vec::new()], 0);
    for cells in cells.chunks(calls.profile.cells_bytes()) {
        let mut bits = [0; BITS_BYTES];
        (calls.cells_to_bits)(cells, &mut bits)?;
        let [mut pairs0, mut pairs1] = [[0; PAIRS_BYTES]; 2];
        deinterleave(&bits, &mut pairs0, &mut pairs1)?;
        for (encoder, pairs) in [pairs0, pairs1].iter().enumerate() {
            for coded in pairs.chunks(CODED_BYTES) {
                let mut payload = [0; PAYLOAD_BYTES];
                let marks = receivers[encoder].receive(coded, &mut payload)?;
                flips += marks
                    .map(|mark| mark.flips().expect("no word is lost"))
                    .iter()
                    .sum::<u32>();
                payloads[encoder].extend(payload);
            }
        }
    }
    Ok((payloads, flips, differing))
}

#[test]
fn payloads_come_back_over_a_line_with_errors() -> Result<(), Refusal> {
    for calls in BOTH {
        let payloads = [1, 2].map(|seed| bytes(seed, calls.profile.payload_bytes()));
        let overhead: Vec<u8> = bytes(3, OVERHEAD_BYTES)
            .iter()
            .map(|byte| byte >> 4)
            .collect();
        let mut file = send(calls, [&payloads[0], &payloads[1]], &overhead)?;

        let (back, flips, differing) = receive(calls, LineFile::open(&file)?)?;
        assert!(back == payloads);
        assert_eq!((flips, differing), (0, 0));

        let mut wrong = 0;
        for cells in file[HEADER_BYTES + OVERHEAD_BYTES..].chunks_mut(2 * CELLS_PER_ERROR) {
            cells[0] ^= 3; // Q with the other sign
            wrong += 1;
        }
        let (back, flips, differing) = receive(calls, LineFile::open(&file)?)?;
        assert!(back == payloads);
        assert!(flips + differing == wrong && differing > 0);
    }
    Ok(())
}

/// The payloads, the flips and the overhead cells that differ, by the calls for a super-frame.
fn receive_superframe(calls: Calls, line: LineFile) -> Result<([Vec<u8>; 2], u32, u32), Refusal> {
    let profile = calls.profile;
    let [mut coded0, mut coded1] = [0xa5, 0x5a].map(|left| vec![left; profile.coded_bytes()]);
    let coded = [&mut coded0[..], &mut coded1[..]];
    let differing = (calls.take_apart)(line.superframe(0)?, line.overhead(), coded)?;
    let (mut payloads, mut flips) = ([Vec::new(), Vec::new()], 0);
    for ((number, payload), coded) in (0..).zip(&mut payloads).zip([coded0, coded1]) {
        let mut marks = vec![Mark::Lost; profile.words()];
        *payload = vec![0xa5; profile.payload_bytes()];
        (calls.receive)(&mut Receiver::new(number), &coded, payload, &mut marks)?;
        flips += marks.iter().filter_map(|mark| mark.flips()).sum::<u32>();
        assert!(!marks.contains(&Mark::Lost));
    }
    Ok((payloads, flips, differing))
}

#[test]
fn a_super_frame_at_once_is_its_calls_one_by_one() -> Result<(), Refusal> {
    for calls in BOTH {
        let profile = calls.profile;
        let payloads = [4, 5].map(|seed| bytes(seed, profile.payload_bytes()));
        let mut overhead = bytes(6, OVERHEAD_BYTES);
        overhead.iter_mut().for_each(|byte| *byte >>= 4);
        let mut file = send(calls, [&payloads[0], &payloads[1]], &overhead)?;

        let mut coded = [0; 2].map(|_| vec![0xa5; profile.coded_bytes()]);
        for ((number, payload), coded) in (0..).zip(&payloads).zip(&mut coded) {
            let mut encoder = Encoder::new(number);
            (calls.encode)(&mut encoder, payload, coded)?;
            assert!(*coded == encode(profile, number, payload)?);
            let history = encoder.history();
            assert_eq!(history.encoder(), number);
            assert_eq!(history.next_pair() as usize, profile.pairs());
            assert!(coded.ends_with(history.pairs()));
        }
        let mut frames = vec![0xa5; SUPERFRAME_BYTES];
        (calls.make)([&coded[0], &coded[1]], &overhead, &mut frames)?;
        assert!(frames == file[HEADER_BYTES + OVERHEAD_BYTES..]);

        for cells in file[HEADER_BYTES + OVERHEAD_BYTES..].chunks_mut(2 * CELLS_PER_ERROR) {
            cells[1] ^= 12; // I with the other sign
        }
        let line = LineFile::open(&file)?;
        assert!(receive_superframe(calls, line)? == receive(calls, line)?);
    }
    Ok(())
}
