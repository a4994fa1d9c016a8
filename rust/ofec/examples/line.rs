//! A line file of two super-frames made from two payload streams, damaged, and received again.
//!
//!     bash .ci/build library
//!     cargo run --release --example line
//!
//! It prints what stands in line.expected.

use ofec::frame::{OVERHEAD_BYTES, SUPERFRAME_BYTES};
use ofec::line_file::{HEADER_BYTES, write_header};
use ofec::superframe::{CODED_BYTES, PAYLOAD_BYTES, WORDS, encode, make, receive, take_apart};
use ofec::{Encoder, LineFile, Mark, Receiver, Refusal};

const SUPERFRAMES: u32 = 2;
/// One cell in so many gets a wrong bit.
const CELLS_PER_ERROR: usize = 41;

/// The payload of an encoder in a super-frame.
fn payload(encoder: usize, superframe: usize) -> Vec<u8> {
    (0..PAYLOAD_BYTES)
        .map(|i| (i * i / 7 + 100 * encoder + superframe) as u8)
        .collect()
}

/// The line file: header, overhead list, super-frames.
fn send(overhead: &[u8]) -> Result<Vec<u8>, Refusal> {
    let mut file = vec![0; HEADER_BYTES];
    write_header(SUPERFRAMES, &mut file)?;
    file.extend(overhead);
    let mut encoders = [Encoder::new(0), Encoder::new(1)];
    let mut coded = [vec![0; CODED_BYTES], vec![0; CODED_BYTES]];
    for superframe in 0..SUPERFRAMES as usize {
        for (number, encoder) in encoders.iter_mut().enumerate() {
            encode(encoder, &payload(number, superframe), &mut coded[number])?;
        }
        let mut frames = vec![0; SUPERFRAME_BYTES];
        make([&coded[0], &coded[1]], overhead, &mut frames)?;
        file.extend(frames);
    }
    Ok(file)
}

/// Cells that differ, marks from 0 to 3 and payload bytes that differ from what was sent.
#[derive(Default)]
struct Found {
    overhead_cells: u32,
    marks: [u32; 4],
    payload_bytes: usize,
}

fn receive_all(line: LineFile) -> Result<Found, Refusal> {
    let mut found = Found::default();
    let mut receivers = [Receiver::new(0), Receiver::new(1)];
    let [mut coded0, mut coded1] = [vec![0; CODED_BYTES], vec![0; CODED_BYTES]];
    for superframe in 0..line.superframes() {
        let frames = line.superframe(superframe)?;
        found.overhead_cells += take_apart(frames, line.overhead(), [&mut coded0, &mut coded1])?;
        for (number, coded) in [&coded0, &coded1].into_iter().enumerate() {
            let (mut received, mut marks) = (vec![0; PAYLOAD_BYTES], [Mark::Lost; WORDS]);
            receive(&mut receivers[number], coded, &mut received, &mut marks)?;
            for mark in marks {
                found.marks[usize::from(mark.number())] += 1;
            }
            let sent = payload(number, superframe as usize);
            found.payload_bytes += sent.iter().zip(&received).filter(|(a, b)| a != b).count();
        }
    }
    Ok(found)
}

fn main() -> Result<(), Refusal> {
    let overhead = [5; OVERHEAD_BYTES];
    let mut file = send(&overhead)?;
    println!("line file: {} bytes", file.len());

    let frames = &mut file[HEADER_BYTES + OVERHEAD_BYTES..];
    for cells in frames.chunks_mut(2 * CELLS_PER_ERROR) {
        cells[0] ^= 1; // the neighbouring level of Q of X: one bit
    }
    println!(
        "damage: {} cells",
        frames.len().div_ceil(2 * CELLS_PER_ERROR)
    );

    let found = receive_all(LineFile::open(&file)?)?;
    println!("overhead cells that differ: {}", found.overhead_cells);
    let [sound, one, two, lost] = found.marks;
    println!("words: {sound} sound, {one} with one flip, {two} with two, {lost} lost");
    println!("payload bytes that differ: {}", found.payload_bytes);
    Ok(())
}
