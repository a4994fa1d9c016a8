//! How times grow with the number of super-frames.

use ofec_tests::chain::calls::{Encode, Receive, LIBRARY};
use ofec_tests::random::Random;
use ofec_tests::rows::{self, PAIR_BYTES, PAYLOAD_BYTES};

use crate::files::{program, Files};
use crate::for_speed::pairs;
use crate::rows::{encode_all, receive_all, Received, PAIRS};
use crate::table::{medians, milliseconds, ratio};

pub const SUPERFRAMES: [usize; 4] = [1, 2, 4, 8];
const ROUNDS: usize = 5;

pub fn run(random: &mut Random) {
    println!(
        "\nGrowth with n, the number of super-frames of 336 pairs; medians of {ROUNDS} runs.\n"
    );
    println!("| work | n = 1 | n = 2 | n = 4 | n = 8 | n = 8 to n = 1 |");
    println!("|---|---:|---:|---:|---:|---:|");
    let payloads = SUPERFRAMES.map(|n| random.bytes(n * PAIRS * PAYLOAD_BYTES));
    let mut coded = SUPERFRAMES.map(|n| vec![0; n * PAIRS * PAIR_BYTES]);
    let sides: [(&str, Encode); 3] = [
        ("library", LIBRARY.encode_pair),
        ("written apart", rows::encode_pair),
        ("for speed", pairs::encode_pair),
    ];
    for (side, encode) in sides {
        row(&format!("encode, {side}"), |i| {
            encode_all(encode, &payloads[i], &mut coded[i])
        });
    }
    let mut received = SUPERFRAMES.map(|n| Received::of(n * PAIRS));
    let sides: [(&str, Receive); 3] = [
        ("library", LIBRARY.receive_pair),
        ("written apart", rows::receive_pair),
        ("for speed", pairs::receive_pair),
    ];
    for (side, receive) in sides {
        row(&format!("receive clean pairs, {side}"), |i| {
            receive_all(receive, &coded[i], &mut received[i]);
            assert!(received[i].payloads == payloads[i]);
        });
    }
    if let Some(linemake) = program("linemake") {
        let files = SUPERFRAMES.map(|n| Files::new(n, random));
        row("linemake", |i| files[i].make_by_program(&linemake));
        row("linemake, written apart", |i| files[i].make_apart());
        files.iter().for_each(Files::assert_same);
    }
}

/// The time of a work for each number of super-frames, which is told by its place in the list.
fn row(name: &str, work: impl FnMut(usize)) {
    let times = medians::<4>(ROUNDS, work);
    let cells = times.map(milliseconds).join(" | ");
    println!("| {name} | {cells} | {:.2} |", ratio(times[3], times[0]));
}
