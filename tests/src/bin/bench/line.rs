//! The calls of the line, each by itself.

use ofec_tests::capi;
use ofec_tests::cells;
use ofec_tests::chain::calls::Framing;
use ofec_tests::frames::{self, payload_bytes, FRAME_BYTES, OVERHEAD_BYTES, SUBFRAMES};
use ofec_tests::interleaver::{self, BUFFER_BYTES, PAIRS_BYTES};
use ofec_tests::library;
use ofec_tests::outcome::Outcome;
use ofec_tests::profile::{Profile, PROFILES};
use ofec_tests::random::Random;

use crate::for_speed::interleaver::{by_rows, packed};
use crate::table::{for_speed, row};
use crate::{for_speed as fast, same_structure};

pub fn run(random: &mut Random) {
    let pairs = [0; 2].map(|_| random.bytes(PAIRS_BYTES));
    row(
        "interleave a buffer",
        vec![0; BUFFER_BYTES],
        [
            &|bits| done(capi::interleave(&pairs[0], &pairs[1], bits)),
            &|bits| done(interleaver::interleave(&pairs[0], &pairs[1], bits)),
            &|bits| done(same_structure::interleave(&pairs[0], &pairs[1], bits)),
        ],
    );

    let bits = random.bytes(BUFFER_BYTES);
    row(
        "take a buffer apart",
        [0; 2].map(|_| vec![0; PAIRS_BYTES]),
        [
            &|[pairs0, pairs1]| done(capi::deinterleave(&bits, pairs0, pairs1)),
            &|[pairs0, pairs1]| done(interleaver::deinterleave(&bits, pairs0, pairs1)),
            &|[pairs0, pairs1]| done(same_structure::deinterleave(&bits, pairs0, pairs1)),
        ],
    );

    for profile in PROFILES {
        let stages = Stages::new(profile, random);
        row(
            &stages.name("bits to cells, a buffer"),
            vec![0; profile.cells_bytes()],
            [
                &|cells| done(library::bits_to_cells(profile, &stages.bits, cells)),
                &|cells| done(cells::bits_to_cells(profile, &stages.bits, cells)),
                &|cells| done(same_structure::bits_to_cells(profile, &stages.bits, cells)),
            ],
        );
        row(
            &stages.name("cells to bits, a buffer"),
            vec![0; BUFFER_BYTES],
            [
                &|bits| done(library::cells_to_bits(profile, &stages.cells, bits)),
                &|bits| done(cells::cells_to_bits(profile, &stages.cells, bits)),
                &|bits| done(same_structure::cells_to_bits(profile, &stages.cells, bits)),
            ],
        );
        row(
            &stages.name("frame a super-frame"),
            vec![0; SUBFRAMES as usize * FRAME_BYTES],
            [
                &|frames| stages.frame_all(library::frame, frames),
                &|frames| stages.frame_all(frames::frame, frames),
                &|frames| stages.frame_all(same_structure::frame, frames),
            ],
        );
        let received = stages.received(random);
        row(
            &stages.name("unframe a super-frame"),
            (vec![0; stages.payload.len()], 0),
            [
                &|out| stages.unframe_all(&received, library::unframe, out),
                &|out| stages.unframe_all(&received, frames::unframe, out),
                &|out| stages.unframe_all(&received, same_structure::unframe, out),
            ],
        );
    }
}

/// What the stages from bits to frames read, of one profile.
struct Stages {
    profile: Profile,
    bits: Vec<u8>,
    cells: Vec<u8>,
    /// The payload cells and the overhead list of a super-frame.
    payload: Vec<u8>,
    overhead: Vec<u8>,
}

impl Stages {
    fn new(profile: Profile, random: &mut Random) -> Self {
        Stages {
            profile,
            bits: random.bytes(BUFFER_BYTES),
            cells: random.payload(profile, profile.cells_bytes()),
            overhead: random.cells(OVERHEAD_BYTES),
            payload: random.payload(profile, profile.buffers() * profile.cells_bytes()),
        }
    }

    /// The frames of a super-frame with other cells, made when they are read: what lies beside the payload changes its times.
    fn received(&self, random: &mut Random) -> Vec<u8> {
        (0..SUBFRAMES)
            .flat_map(|number| random.frame(self.profile, number))
            .collect()
    }

    /// The name of a row.
    fn name(&self, work: &str) -> String {
        match self.profile {
            Profile::Qam16 => work.to_string(),
            Profile::Qpsk => format!("{work}, QPSK"),
        }
    }

    fn frame_all(&self, frame: Framing, frames: &mut [u8]) {
        let mut payload = &self.payload[..];
        for (number, place) in (0..).zip(frames.chunks_mut(FRAME_BYTES)) {
            let own;
            (own, payload) = payload.split_at(payload_bytes(number));
            done(frame(self.profile, number, own, &self.overhead, place));
        }
    }

    /// The payload of a super-frame, and how many of its overhead cells differ.
    fn unframe_all(&self, received: &[u8], unframe: Framing, out: &mut (Vec<u8>, u32)) {
        let (payload, differing) = out;
        let mut payload = &mut payload[..];
        *differing = 0;
        for (number, frame) in (0..).zip(received.chunks(FRAME_BYTES)) {
            let own;
            (own, payload) = payload.split_at_mut(payload_bytes(number));
            let answer = unframe(self.profile, number, frame, &self.overhead, own);
            assert_eq!(answer.refusal, 0);
            *differing += answer.value;
        }
    }
}

/// The calls for which there is Rust code written for speed.
pub fn beside_speed(random: &mut Random) {
    let pairs = [0; 2].map(|_| random.bytes(PAIRS_BYTES));
    let [pairs0, pairs1]: [&[u8; PAIRS_BYTES]; 2] = [sized(&pairs[0]), sized(&pairs[1])];
    for_speed(
        "interleave a buffer",
        vec![0; BUFFER_BYTES],
        [
            &|bits| done(capi::interleave(pairs0, pairs1, bits)),
            &|bits| done(same_structure::interleave(pairs0, pairs1, bits)),
            &|bits| by_rows::interleave(pairs0, pairs1, sized_mut(bits)),
            &|bits| packed::interleave(pairs0, pairs1, sized_mut(bits)),
        ],
    );

    let bits = random.bytes(BUFFER_BYTES);
    let bits: &[u8; BUFFER_BYTES] = sized(&bits);
    for_speed(
        "take a buffer apart",
        [0; 2].map(|_| vec![0; PAIRS_BYTES]),
        [
            &|[pairs0, pairs1]| done(capi::deinterleave(bits, pairs0, pairs1)),
            &|[pairs0, pairs1]| done(same_structure::deinterleave(bits, pairs0, pairs1)),
            &|[pairs0, pairs1]| by_rows::deinterleave(bits, sized_mut(pairs0), sized_mut(pairs1)),
            &|[pairs0, pairs1]| packed::deinterleave(bits, sized_mut(pairs0), sized_mut(pairs1)),
        ],
    );

    for profile in PROFILES {
        let stages = Stages::new(profile, random);
        for_speed(
            &stages.name("bits to cells, a buffer"),
            vec![0; profile.cells_bytes()],
            [
                &|cells| done(library::bits_to_cells(profile, &stages.bits, cells)),
                &|cells| done(same_structure::bits_to_cells(profile, &stages.bits, cells)),
                &|cells| done(fast::cells::bits_to_cells(profile, &stages.bits, cells)),
            ],
        );
        for_speed(
            &stages.name("cells to bits, a buffer"),
            vec![0; BUFFER_BYTES],
            [
                &|bits| done(library::cells_to_bits(profile, &stages.cells, bits)),
                &|bits| done(same_structure::cells_to_bits(profile, &stages.cells, bits)),
                &|bits| done(fast::cells::cells_to_bits(profile, &stages.cells, bits)),
            ],
        );
        for_speed(
            &stages.name("frame a super-frame"),
            vec![0; SUBFRAMES as usize * FRAME_BYTES],
            [
                &|frames| stages.frame_all(library::frame, frames),
                &|frames| stages.frame_all(same_structure::frame, frames),
                &|frames| stages.frame_all(fast::frames::frame, frames),
            ],
        );
        let received = stages.received(random);
        for_speed(
            &stages.name("unframe a super-frame"),
            (vec![0; stages.payload.len()], 0),
            [
                &|out| stages.unframe_all(&received, library::unframe, out),
                &|out| stages.unframe_all(&received, same_structure::unframe, out),
                &|out| stages.unframe_all(&received, fast::frames::unframe, out),
            ],
        );
    }
}

fn sized<const N: usize>(bytes: &[u8]) -> &[u8; N] {
    bytes.try_into().expect("of its length")
}

fn sized_mut<const N: usize>(bytes: &mut [u8]) -> &mut [u8; N] {
    bytes.try_into().expect("of its length")
}

fn done(answer: impl Into<Outcome>) {
    assert_eq!(answer.into().refusal, 0);
}
