//! The most memory that a program holds at once, as the system counts it while the program runs.

use std::fs;
use std::io::Write;
use std::path::Path;
use std::process::{Command, Stdio};
use std::thread::sleep;
use std::time::Duration;

use ofec_tests::random::Random;

use crate::files::{program, Files};
use crate::growth::SUPERFRAMES;

/// Time for a program to take what is left in its input.
const TO_READ_ON: Duration = Duration::from_millis(50);

pub fn run(random: &mut Random) {
    println!("\nPeak resident memory.\n");
    println!("| program | n = 1 | n = 2 | n = 4 | n = 8 |");
    println!("|---|---:|---:|---:|---:|");
    let files = SUPERFRAMES.map(|n| Files::new(n, random));
    if let Some(linemake) = program("linemake") {
        row(
            "linemake",
            files.each_ref().map(|files| peak(files.command(&linemake))),
        );
    }
    if let Some(linehead) = program("linehead") {
        let peaks = files.each_ref().map(|files| {
            files.make_apart();
            peak_at_end_of_input(&linehead, &files.read("line-apart"))
        });
        row("linehead", peaks);
    }
}

/// Of a program that runs for some milliseconds at least; looked at again and again.
fn peak(mut command: Command) -> u64 {
    let mut peak = 0;
    let mut child = command
        .stdout(Stdio::null())
        .spawn()
        .expect("the program starts");
    while child.try_wait().expect("a child").is_none() {
        peak = peak.max(high_water_mark(child.id()).unwrap_or(0));
    }
    peak
}

/// Of a program that has read its whole standard input and waits for the end of it.
fn peak_at_end_of_input(program: &Path, input: &[u8]) -> u64 {
    let mut command = Command::new(program);
    command.stdin(Stdio::piped()).stdout(Stdio::null());
    let mut child = command.spawn().expect("the program starts");
    let mut pipe = child.stdin.take().expect("a pipe");
    pipe.write_all(input).expect("the program reads");
    sleep(TO_READ_ON);
    let peak = high_water_mark(child.id()).expect("the program runs");
    drop(pipe);
    child.wait().expect("a child");
    peak
}

/// In kilobytes; nothing once the program has ended.
fn high_water_mark(process: u32) -> Option<u64> {
    let status = fs::read_to_string(format!("/proc/{process}/status")).ok()?;
    let line = status
        .lines()
        .find_map(|line| line.strip_prefix("VmHWM:"))?;
    line.trim().strip_suffix(" kB")?.parse().ok()
}

fn row(name: &str, peaks: [u64; 4]) {
    println!(
        "| {name} | {} |",
        peaks.map(|peak| format!("{peak} kB")).join(" | ")
    );
}
