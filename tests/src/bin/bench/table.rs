//! Medians, and the rows of the table.

use std::time::{Duration, Instant};

const ROUNDS: usize = 15;

/// Of works that take microseconds.
const SHORT_ROUNDS: usize = 1001;

/// The most sides that the first table has, and that of short works.
const SIDES: usize = 3;
const SHORT_SIDES: usize = 4;

/// Medians of so many runs of each of N works, which take turns; `run` is told which.
pub fn medians<const N: usize>(rounds: usize, mut run: impl FnMut(usize)) -> [Duration; N] {
    let mut times = [const { Vec::new() }; N];
    for _ in 0..rounds {
        for (work, times) in times.iter_mut().enumerate() {
            let start = Instant::now();
            run(work);
            times.push(start.elapsed());
        }
    }
    times.map(|mut times| {
        times.sort();
        times[times.len() / 2]
    })
}

pub fn head() {
    println!("Medians of {ROUNDS} runs, which take turns; a ratio is the library's time to that of the column before.\n");
    println!("| work | library | written apart | ratio | same structure | ratio |");
    println!("|---|---:|---:|---:|---:|---:|");
}

/// The row of a work, by the library and then by those other sides that do it, in the order of the columns: each in a copy of `out`.
/// Gives what they all wrote.
pub fn row<T: Clone + PartialEq, const N: usize>(
    name: &str,
    out: T,
    works: [&dyn Fn(&mut T); N],
) -> T {
    timed_row(name, ROUNDS, SIDES, milliseconds, out, works)
}

/// The head of the table of short works beside Rust code of the library's structure and Rust code written for speed.
pub fn head_for_speed() {
    println!("\nBeside Rust code written for speed; medians of {SHORT_ROUNDS} runs, which take turns; a ratio is the library's time to that of the column before.\n");
    println!("| work | library | same structure | ratio | for speed | ratio | packed | ratio |");
    println!("|---|---:|---:|---:|---:|---:|---:|---:|");
}

/// The same as `row` for the table of short works.
pub fn for_speed<T: Clone + PartialEq, const N: usize>(
    name: &str,
    out: T,
    works: [&dyn Fn(&mut T); N],
) -> T {
    timed_row(name, SHORT_ROUNDS, SHORT_SIDES, microseconds, out, works)
}

fn timed_row<T: Clone + PartialEq, const N: usize>(
    name: &str,
    rounds: usize,
    sides: usize,
    written: fn(Duration) -> String,
    out: T,
    works: [&dyn Fn(&mut T); N],
) -> T {
    let (times, out) = agreed(name, rounds, out, works);
    print!("| {name} | {} ", written(times[0]));
    for other in &times[1..] {
        print!("| {} | {:.2} ", written(*other), ratio(times[0], *other));
    }
    println!("|{}", " | |".repeat(sides - N));
    out
}

/// Times of works that are found to write the same before they are timed, and what they write.
fn agreed<T: Clone + PartialEq, const N: usize>(
    name: &str,
    rounds: usize,
    out: T,
    works: [&dyn Fn(&mut T); N],
) -> ([Duration; N], T) {
    let mut outs = [(); N].map(|()| out.clone());
    for (work, out) in works.iter().zip(&mut outs) {
        work(out);
    }
    assert!(outs.iter().all(|out| *out == outs[0]), "{name}");
    let times = medians(rounds, |side| works[side](&mut outs[side]));
    let out = outs.into_iter().next().expect("a side");
    (times, out)
}

pub fn ratio(one: Duration, other: Duration) -> f64 {
    one.as_secs_f64() / other.as_secs_f64()
}

fn microseconds(time: Duration) -> String {
    format!("{:.2} μs", time.as_secs_f64() * 1e6)
}

pub fn milliseconds(time: Duration) -> String {
    format!("{:.3} ms", time.as_secs_f64() * 1e3)
}
