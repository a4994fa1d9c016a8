//! Random calls of every entry point, legal and illegal, each made by the library and by the code
//! written apart, and compared in answer and every buffer.
//!
//!     cargo run --release --bin soak -- SECONDS [SEED]
//!
//! The exit status is 1 at the first difference. A run of 10 seconds or more goes on until every entry
//! point was done, and refused with each number that it can give, and fails where ten minutes more do
//! not suffice. Calls come in rounds, each from fresh and with a seed of its own, so that the seed that
//! is printed at a difference repeats it at once.

use std::process::ExitCode;
use std::time::{Duration, Instant, SystemTime, UNIX_EPOCH};

use ofec_tests::random::Random;

use entry_points::ENTRY_POINTS;
use round::Round;
use tally::Tally;

mod draw;
mod entry_points;
mod file;
mod line;
mod pairs;
mod round;
mod tally;

const CALLS_PER_ROUND: usize = 1_000;
const PROGRESS: Duration = Duration::from_secs(10);
/// A run of this length must have met every refusal.
const FULL: Duration = Duration::from_secs(10);
/// So much longer it may take for that on a slow machine: some seconds suffice on any other.
const PATIENCE: Duration = Duration::from_secs(600);

fn main() -> ExitCode {
    let Some((seconds, seed)) = arguments() else {
        eprintln!("soak SECONDS [SEED]");
        return ExitCode::FAILURE;
    };
    println!("soak: {seconds} s, seed {seed}");
    let duration = Duration::from_secs(seconds);
    let mut tally = Tally::default();
    if let Err(difference) = soak(duration, seed, &mut tally) {
        println!("{tally}\nDIFFERENCE: {difference}");
        return ExitCode::FAILURE;
    }
    println!("{tally}");
    let missing = tally.missing();
    if duration >= FULL && !missing.is_empty() {
        println!("NEVER MET: {}", missing.join(", "));
        return ExitCode::FAILURE;
    }
    println!("soak: {} calls, 0 differences", tally.calls());
    ExitCode::SUCCESS
}

/// Seconds and seed; without one, the seed is taken from the clock.
fn arguments() -> Option<(u64, u64)> {
    let numbers: Result<Vec<u64>, _> = std::env::args().skip(1).map(|a| a.parse()).collect();
    match numbers.ok()?[..] {
        [seconds, seed] => Some((seconds, seed)),
        [seconds] => {
            let now = SystemTime::now().duration_since(UNIX_EPOCH).ok()?;
            Some((seconds, now.as_millis() as u64))
        }
        _ => None,
    }
}

/// Calls until the time is over and, in a full run, every refusal was met; or what differed.
fn soak(duration: Duration, seed: u64, tally: &mut Tally) -> Result<(), String> {
    let start = Instant::now();
    let mut next_line = PROGRESS;
    for seed in (0..).map(|round| seed.wrapping_add(round)) {
        let mut round = Round::new(Random::new(seed));
        for call in 0..CALLS_PER_ROUND {
            let chosen = round.random.between(0, ENTRY_POINTS.len());
            let refusal = (ENTRY_POINTS[chosen].call)(&mut round).map_err(|difference| {
                format!(
                    "{}, {difference}; call {call} of seed {seed}",
                    ENTRY_POINTS[chosen].name
                )
            })?;
            tally.count(chosen, refusal);
            let elapsed = start.elapsed();
            let over = elapsed >= duration;
            if over
                && (duration < FULL || elapsed >= duration + PATIENCE || tally.missing().is_empty())
            {
                return Ok(());
            }
            if elapsed >= next_line {
                println!(
                    "{:>6} s {:>10} calls, at seed {seed}",
                    elapsed.as_secs(),
                    tally.calls()
                );
                next_line += PROGRESS;
            }
        }
    }
    unreachable!("the rounds have no end")
}
