//! Calls on several threads at once: the library has no state, so each thread finds what it finds alone.

use std::thread;

use ofec::pair::{CODED_BYTES, PAYLOAD_BYTES};
use ofec::{Encoder, Receiver};

const THREADS: usize = 8;
const PAIRS: u8 = 200;

/// The coded pairs of this stream, of either encoder; each is received again, with a wrong bit that is
/// repaired.
fn stream(seed: u8) -> Vec<u8> {
    let number = u32::from(seed / 2 % 2);
    let (mut encoder, mut receiver) = (Encoder::new(number), Receiver::new(number));
    let mut line = Vec::new();
    for number in 0..PAIRS {
        let payload = [number.wrapping_mul(seed); PAYLOAD_BYTES];
        let (mut coded, mut received) = ([0; CODED_BYTES], [0; PAYLOAD_BYTES]);
        encoder.encode(&payload, &mut coded).expect("a pair");
        line.extend(coded);
        coded[usize::from(number)] ^= 1;
        receiver.receive(&coded, &mut received).expect("a pair");
        assert_eq!(received, payload);
    }
    line
}

#[test]
fn streams_on_threads_do_not_meet() {
    let seeds = [1, 3, 5, 7, 11, 13, 17, 19];
    let alone = seeds.map(stream);
    for _ in 0..4 {
        let threads: [_; THREADS] = seeds.map(|seed| thread::spawn(move || stream(seed)));
        let together = threads.map(|thread| thread.join().expect("a thread"));
        assert!(together == alone);
    }
}
