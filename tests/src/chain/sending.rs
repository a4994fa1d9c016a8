//! From payload to frames: two lists of encoding calls, interleaving, cells, framing.

use crate::chain::calls::Calls;
use crate::chain::refused::{refused_framing, refused_misfit, refused_pair};
use crate::chain::{difference, Difference, SUPERFRAME_BYTES};
use crate::frames::{payload_bytes, FRAME_BYTES, SUBFRAMES};
use crate::interleaver::{BUFFER_BYTES, PAIRS_BYTES};
use crate::outcome::{Outcome, MISFIT};
use crate::profile::Profile;
use crate::random::Random;
use crate::rows::{fresh, Numbers, PAIR_BYTES, PAYLOAD_BYTES};

/// What one side made of two streams of payload, stage by stage.
pub struct Sent {
    /// The coded pairs of each encoder.
    pub coded: [Vec<u8>; 2],
    /// The history that each accepted call of an encoder returned.
    pub histories: [Vec<u8>; 2],
    pub bits: Vec<u8>,
    pub cells: Vec<u8>,
    pub frames: Vec<u8>,
}

impl Sent {
    pub fn difference(&self, other: &Sent) -> Option<Difference> {
        let coded = [0, 1].map(|e| [&self.coded[e][..], &other.coded[e]]);
        let histories = [0, 1].map(|e| [&self.histories[e][..], &other.histories[e]]);
        [
            ("coded pairs of encoder 0", coded[0]),
            ("coded pairs of encoder 1", coded[1]),
            ("histories of encoder 0", histories[0]),
            ("histories of encoder 1", histories[1]),
            ("bits", [&self.bits, &other.bits]),
            ("cells", [&self.cells, &other.cells]),
            ("frames", [&self.frames, &other.frames]),
        ]
        .into_iter()
        .find_map(|(stage, [own, other])| difference(stage, own, other))
    }
}

/// Sends both payloads, whole super-frames of equal number. What is lent for writing, the refused calls
/// and the order of the two lists' calls are random.
pub fn send(
    calls: &Calls,
    profile: Profile,
    payloads: [&[u8]; 2],
    overhead: &[u8],
    random: &mut Random,
) -> Sent {
    let pairs = payloads.map(|payload| payload.len() / PAYLOAD_BYTES);
    let mut coded = pairs.map(|pairs| random.bytes(PAIR_BYTES * pairs));
    let mut histories = [Vec::new(), Vec::new()];
    let mut lists = [List::fresh(0), List::fresh(1)];
    for encoder in order(pairs, random) {
        let [list, other] = and_other(&mut lists, encoder);
        let Numbers { encoder: own, pair } = list.numbers;
        let place = pair as usize;
        let payload = &payloads[encoder][PAYLOAD_BYTES * place..][..PAYLOAD_BYTES];
        let place = &mut coded[encoder][PAIR_BYTES * place..][..PAIR_BYTES];
        list.refused_encoding(other, calls, payload, place, random);
        let outcome = (calls.encode_pair)(payload, place, &mut list.history, own, pair);
        list.accept(outcome);
        histories[encoder].extend(&list.history);
    }
    for encoder in [0, 1] {
        let [list, other] = and_other(&mut lists, encoder);
        let (payload, mut place) = (random.bytes(PAYLOAD_BYTES), random.bytes(PAIR_BYTES));
        list.refused_encoding(other, calls, &payload, &mut place, random);
    }
    let bits = interleave(calls, &coded, random);
    let cells = bits_to_cells(calls, profile, &bits, random);
    let frames = frame(calls, profile, &cells, overhead, random);
    Sent {
        coded,
        histories,
        bits,
        cells,
        frames,
    }
}

/// The history of one list of calls, and the numbers that its next call names.
#[derive(Clone)]
pub struct List {
    pub history: Vec<u8>,
    pub numbers: Numbers,
}

impl List {
    pub fn fresh(encoder: u32) -> Self {
        List {
            history: fresh(encoder),
            numbers: Numbers { encoder, pair: 0 },
        }
    }

    /// The accepted calls of a list from fresh are its encoder's pairs 0, 1, 2 and on.
    pub fn accept(&mut self, outcome: Outcome) {
        let next = self.numbers.next();
        let expected = Outcome::accepted(next.pair);
        assert_eq!(outcome, expected, "answer of a call to be accepted");
        let front = Numbers::of(&self.history);
        assert_eq!(front, next, "numbers in front of a history moved on");
        self.numbers = next;
    }

    /// None, one or several.
    fn refused_encoding(
        &mut self,
        other: &mut List,
        calls: &Calls,
        payload: &[u8],
        coded: &mut [u8],
        random: &mut Random,
    ) {
        while random.between(0, 4) == 0 {
            let own = [&mut payload.to_vec(), &mut *coded, &mut self.history];
            refused_pair(
                self.numbers,
                own,
                &mut other.history,
                random,
                |[payload, coded, history], Numbers { encoder, pair }| {
                    (calls.encode_pair)(payload, coded, history, encoder, pair)
                },
            );
        }
    }
}

/// A list of two, and the other one.
pub fn and_other(lists: &mut [List; 2], chosen: usize) -> [&mut List; 2] {
    let [list0, list1] = lists;
    match chosen {
        0 => [list0, list1],
        _ => [list1, list0],
    }
}

/// So many calls of each of two lists, in any order.
pub fn order(mut calls: [usize; 2], random: &mut Random) -> Vec<usize> {
    let mut order = Vec::new();
    while calls != [0, 0] {
        let list = usize::from(random.between(0, calls[0] + calls[1]) >= calls[0]);
        calls[list] -= 1;
        order.push(list);
    }
    order
}

fn interleave(calls: &Calls, coded: &[Vec<u8>; 2], random: &mut Random) -> Vec<u8> {
    let buffers = coded[0].len() / PAIRS_BYTES;
    let mut bits = random.bytes(BUFFER_BYTES * buffers);
    for (buffer, place) in bits.chunks_mut(BUFFER_BYTES).enumerate() {
        let [pairs0, pairs1] = [0, 1].map(|e| &coded[e][PAIRS_BYTES * buffer..][..PAIRS_BYTES]);
        if random.bit() {
            let own = [&mut pairs0.to_vec(), &mut pairs1.to_vec(), &mut *place];
            let expected = Outcome::refused(MISFIT);
            refused_misfit(expected, own, random, |[pairs0, pairs1, bits]| {
                (calls.interleave)(pairs0, pairs1, bits)
            });
        }
        let outcome = (calls.interleave)(pairs0, pairs1, place);
        assert_eq!(outcome, Outcome::accepted(0));
    }
    bits
}

fn bits_to_cells(calls: &Calls, profile: Profile, bits: &[u8], random: &mut Random) -> Vec<u8> {
    let buffers = bits.chunks(BUFFER_BYTES);
    let mut cells = random.bytes(profile.cells_bytes() * buffers.len());
    for (bits, place) in buffers.zip(cells.chunks_mut(profile.cells_bytes())) {
        if random.bit() {
            let own = [&mut bits.to_vec(), &mut *place];
            let expected = Outcome::refused(MISFIT);
            refused_misfit(expected, own, random, |[bits, cells]| {
                (calls.bits_to_cells)(profile, bits, cells)
            });
        }
        let outcome = (calls.bits_to_cells)(profile, bits, place);
        assert_eq!(outcome, Outcome::accepted(0));
    }
    cells
}

fn frame(
    calls: &Calls,
    profile: Profile,
    cells: &[u8],
    overhead: &[u8],
    random: &mut Random,
) -> Vec<u8> {
    let superframes = cells.len() / (profile.buffers() * profile.cells_bytes());
    let mut frames = random.bytes(SUPERFRAME_BYTES * superframes);
    let mut rest = cells;
    for (number, place) in numbered(superframes).zip(frames.chunks_mut(FRAME_BYTES)) {
        let own;
        (own, rest) = rest.split_at(payload_bytes(number));
        if random.bit() {
            let call = |number, [payload, overhead, frame]: [&mut [u8]; 3]| {
                (calls.frame)(profile, number, payload, overhead, frame)
            };
            refused_framing(call, |_| profile, number, [own, overhead], place, random);
        }
        let outcome = (calls.frame)(profile, number, own, overhead, place);
        assert_eq!(outcome, Outcome::accepted(0));
    }
    assert!(rest.is_empty());
    frames
}

/// The numbers of the sub-frames, one super-frame after another.
pub fn numbered(superframes: usize) -> impl Iterator<Item = u32> {
    (0..superframes).flat_map(|_| 0..SUBFRAMES)
}
