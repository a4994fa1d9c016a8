//! From frames to payload: unframing, bits, taking apart, two lists of receiving calls.

use crate::bits;
use crate::chain::calls::Calls;
use crate::chain::places::{index, PAIR_BITS};
use crate::chain::refused::{refused, refused_framing, refused_misfit, refused_pair, spoil};
use crate::chain::sending::{and_other, numbered, order, List};
use crate::chain::{difference, Difference, SUPERFRAME_BYTES};
use crate::frames::{payload_bytes, rule, FRAME_BYTES};
use crate::interleaver::{BUFFER_BYTES, PAIRS_BYTES};
use crate::outcome::{Outcome, MISFIT};
use crate::profile::Profile;
use crate::random::Random;
use crate::rows::{Numbers, Place, FRONT_BYTES, HISTORY_BYTES, MARKS, PAIR_BYTES, PAYLOAD_BYTES};

/// What one side took off the line, stage by stage.
pub struct Taken {
    /// The number of overhead cells that differ from the list, of each sub-frame.
    pub differing: Vec<u32>,
    /// The payload cells.
    pub cells: Vec<u8>,
    pub bits: Vec<u8>,
    /// The received pairs of each encoder.
    pub pairs: [Vec<u8>; 2],
}

impl Taken {
    pub fn difference(&self, other: &Taken) -> Option<Difference> {
        let pairs = [0, 1].map(|e| [&self.pairs[e][..], &other.pairs[e]]);
        difference("differing cells", &self.differing, &other.differing)
            .or_else(|| difference("payload cells", &self.cells, &other.cells))
            .or_else(|| difference("bits taken", &self.bits, &other.bits))
            .or_else(|| difference("received pairs of encoder 0", pairs[0][0], pairs[0][1]))
            .or_else(|| difference("received pairs of encoder 1", pairs[1][0], pairs[1][1]))
    }
}

/// Takes whole super-frames off the line.
pub fn take(
    calls: &Calls,
    profile: Profile,
    frames: &[u8],
    overhead: &[u8],
    random: &mut Random,
) -> Taken {
    let (differing, cells) = unframe(calls, profile, frames, overhead, random);
    let bits = cells_to_bits(calls, profile, &cells, random);
    let pairs = deinterleave(calls, &bits, random);
    Taken {
        differing,
        cells,
        bits,
        pairs,
    }
}

fn unframe(
    calls: &Calls,
    profile: Profile,
    frames: &[u8],
    overhead: &[u8],
    random: &mut Random,
) -> (Vec<u32>, Vec<u8>) {
    let superframes = frames.len() / SUPERFRAME_BYTES;
    let mut cells = random.bytes(superframes * profile.buffers() * profile.cells_bytes());
    let mut differing = Vec::new();
    let mut rest = &mut cells[..];
    for (number, frame) in numbered(superframes).zip(frames.chunks(FRAME_BYTES)) {
        let place;
        (place, rest) = rest.split_at_mut(payload_bytes(number));
        if random.bit() {
            let call = |number, [frame, overhead, payload]: [&mut [u8]; 3]| {
                (calls.unframe)(profile, number, frame, overhead, payload)
            };
            let rule = |index| rule(profile, number, index / 2);
            refused_framing(call, rule, number, [frame, overhead], place, random);
        }
        let outcome = (calls.unframe)(profile, number, frame, overhead, place);
        assert_eq!(outcome, Outcome::accepted(outcome.value));
        differing.push(outcome.value);
    }
    assert!(rest.is_empty());
    (differing, cells)
}

fn cells_to_bits(calls: &Calls, profile: Profile, cells: &[u8], random: &mut Random) -> Vec<u8> {
    let buffers = cells.chunks(profile.cells_bytes());
    let mut bits = random.bytes(BUFFER_BYTES * buffers.len());
    for (cells, place) in buffers.zip(bits.chunks_mut(BUFFER_BYTES)) {
        let call = |[cells, bits]: [&mut [u8]; 2]| (calls.cells_to_bits)(profile, cells, bits);
        let mut copy = cells.to_vec();
        match random.between(0, 3) {
            0 => {
                let own = [&mut copy, &mut *place];
                refused_misfit(Outcome::refused(MISFIT), own, random, call);
            }
            1 => {
                let expected = spoil(&mut copy, |_| profile, random);
                refused(expected, [&mut copy, &mut *place], call);
            }
            _ => {}
        }
        let outcome = (calls.cells_to_bits)(profile, cells, place);
        assert_eq!(outcome, Outcome::accepted(0));
    }
    bits
}

fn deinterleave(calls: &Calls, bits: &[u8], random: &mut Random) -> [Vec<u8>; 2] {
    let [mut pairs0, mut pairs1] = [0; 2].map(|_| random.bytes(bits.len() / 2));
    let places = pairs0
        .chunks_mut(PAIRS_BYTES)
        .zip(pairs1.chunks_mut(PAIRS_BYTES));
    for (bits, (place0, place1)) in bits.chunks(BUFFER_BYTES).zip(places) {
        if random.bit() {
            let own = [&mut bits.to_vec(), &mut *place0, &mut *place1];
            let expected = Outcome::refused(MISFIT);
            refused_misfit(expected, own, random, |[bits, pairs0, pairs1]| {
                (calls.deinterleave)(bits, pairs0, pairs1)
            });
        }
        let outcome = (calls.deinterleave)(bits, place0, place1);
        assert_eq!(outcome, Outcome::accepted(0));
    }
    [pairs0, pairs1]
}

/// What the accepted calls of one receiver gave, one after another.
#[derive(Clone, Default)]
pub struct Received {
    pub payload: Vec<u8>,
    pub marks: Vec<u8>,
    pub histories: Vec<u8>,
}

impl Received {
    pub fn difference(&self, other: &Received) -> Option<Difference> {
        difference("payload out", &self.payload, &other.payload)
            .or_else(|| difference("marks", &self.marks, &other.marks))
            .or_else(|| difference("histories", &self.histories, &other.histories))
    }

    /// The number of pairs taken.
    pub fn pairs(&self) -> usize {
        self.marks.len() / MARKS
    }

    /// A bit of the history that the call of a pair returned: that pair and the nine before it.
    pub fn returned_bit(&self, pair: usize, place: Place) -> bool {
        let history = &self.histories[HISTORY_BYTES * pair..][..HISTORY_BYTES];
        let held = &history[FRONT_BYTES..];
        bits::get(held, index(place) + PAIR_BITS * 9 - PAIR_BITS * pair)
    }
}

/// Both receivers from fresh; each takes the first so many of its pairs. Random as in `send`.
pub fn receive(
    calls: &Calls,
    pairs: [&[u8]; 2],
    count: [usize; 2],
    random: &mut Random,
) -> [Received; 2] {
    let mut received = [Received::default(), Received::default()];
    let mut lists = [List::fresh(0), List::fresh(1)];
    for receiver in order(count, random) {
        let out = &mut received[receiver];
        let [list, other] = and_other(&mut lists, receiver);
        let Numbers { encoder, pair } = list.numbers;
        let coded = &pairs[receiver][PAIR_BYTES * pair as usize..][..PAIR_BYTES];
        let mut payload = random.bytes(PAYLOAD_BYTES);
        let mut marks = random.bytes(MARKS);
        let written: [&mut [u8]; 2] = [&mut payload, &mut marks];
        refused_receiving([list, other], calls, coded, written, random);
        let outcome = (calls.receive_pair)(
            coded,
            &mut payload,
            &mut marks,
            &mut list.history,
            encoder,
            pair,
        );
        list.accept(outcome);
        out.payload.extend(payload);
        out.marks.extend(marks);
        out.histories.extend(&list.history);
    }
    for receiver in [0, 1] {
        let both = and_other(&mut lists, receiver);
        let coded = random.bytes(PAIR_BYTES);
        let (mut payload, mut marks) = (random.bytes(PAYLOAD_BYTES), random.bytes(MARKS));
        refused_receiving(both, calls, &coded, [&mut payload, &mut marks], random);
    }
    received
}

/// None, one or several of the first list.
fn refused_receiving(
    [list, other]: [&mut List; 2],
    calls: &Calls,
    coded: &[u8],
    [payload, marks]: [&mut [u8]; 2],
    random: &mut Random,
) {
    while random.between(0, 4) == 0 {
        let own = [
            &mut coded.to_vec(),
            &mut *payload,
            &mut *marks,
            &mut list.history,
        ];
        refused_pair(
            list.numbers,
            own,
            &mut other.history,
            random,
            |[coded, payload, marks, history], Numbers { encoder, pair }| {
                (calls.receive_pair)(coded, payload, marks, history, encoder, pair)
            },
        );
    }
}
