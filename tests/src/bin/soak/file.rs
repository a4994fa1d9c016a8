//! The line file.

use ofec_tests::capi;
use ofec_tests::compare::agreed;
use ofec_tests::frames::{OVERHEAD_BYTES, SUBFRAMES};
use ofec_tests::line_file::{self, Header, HEADER_BYTES, MOST_SUPERFRAMES, SUPERFRAME_BYTES};
use ofec_tests::outcome::Line;
use ofec_tests::random::Random;

use crate::draw::{any_number, lent, rarely, to_write};
use crate::entry_points::Verdict;
use crate::round::Round;

/// Longer gaps take time and show nothing new.
const LONGEST_GAP: usize = 1_000;
/// Files have one super-frame or two, but one in so many has 64 or 65.
const LONG_FILES: usize = 200;

pub fn open_line(Round { random, .. }: &mut Round) -> Verdict {
    let (header, file) = any_file(random);
    let (line, _) = agreed(
        [&file],
        |[file]| capi::open_line(file),
        |[file]| line_file::open_line(file),
    )
    .map_err(|difference| format!("{header:?}, {difference}"))?;
    Ok(line.refusal)
}

pub fn read_line(Round { random, .. }: &mut Round) -> Verdict {
    let (header, file) = any_file(random);
    let line = any_numbers(header, random);
    let superframe = match random.between(0, 6) {
        0 => any_number(random),
        1 => header.superframes,
        _ => random.between(0, header.superframes.clamp(1, MOST_SUPERFRAMES) as usize) as u32,
    };
    let subframe = match random.between(0, 6) {
        0 => any_number(random),
        1 => SUBFRAMES,
        _ => random.between(0, SUBFRAMES as usize) as u32,
    };
    let (outcome, _) = agreed(
        [&file],
        |[file]| capi::read_line(file, line.into(), superframe, subframe),
        |[file]| line_file::read_line(file, line, superframe, subframe),
    )
    .map_err(|difference| {
        format!(
            "{header:?}, {line:?}, super-frame {superframe}, sub-frame {subframe}, {difference}"
        )
    })?;
    Ok(outcome.refusal)
}

pub fn write_header(Round { random, .. }: &mut Round) -> Verdict {
    let superframes = if rarely(4, random) {
        any_number(random)
    } else {
        random.between(0, MOST_SUPERFRAMES as usize + 2) as u32
    };
    let header = to_write(HEADER_BYTES, random);
    let (outcome, _) = agreed(
        [&header],
        |[header]| capi::write_header(superframes, header),
        |[header]| line_file::write_header(superframes, header),
    )
    .map_err(|difference| format!("super-frames {superframes}, {difference}"))?;
    Ok(outcome.refusal)
}

/// A file with its header, of which now and then a number, a byte or the file's length is another.
fn any_file(random: &mut Random) -> (Header, Vec<u8>) {
    let superframes = if rarely(LONG_FILES, random) {
        MOST_SUPERFRAMES + random.between(0, 2) as u32
    } else {
        random.between(1, 3) as u32
    };
    let overhead = HEADER_BYTES + any_gap(random);
    let frames = overhead + OVERHEAD_BYTES + any_gap(random);
    let mut header = Header::with_sum(superframes, overhead as u32, frames as u32);
    let mut file = vec![0; header.total as usize];
    if rarely(4, random) {
        header = broken(header, random);
    }
    file[..HEADER_BYTES].copy_from_slice(&header.to_bytes());
    if rarely(8, random) {
        file.truncate(random.between(0, 2 * HEADER_BYTES));
    }
    (header, lent(file, random))
}

fn any_gap(random: &mut Random) -> usize {
    if random.bit() {
        random.between(0, LONGEST_GAP)
    } else {
        0
    }
}

/// One bit or one number is another, or one rule alone fails, also where sums wrap at 32 bits.
fn broken(header: Header, random: &mut Random) -> Header {
    let mut bytes = header.to_bytes();
    let at = random.between(0, HEADER_BYTES);
    match random.between(0, 3) {
        0 => bytes[at] ^= 1 << random.between(0, 8),
        1 => bytes[at / 4 * 4..][..4].copy_from_slice(&any_number(random).to_be_bytes()),
        _ => return one_rule_fails(header, random),
    }
    Header::from_bytes(&bytes)
}

fn one_rule_fails(header: Header, random: &mut Random) -> Header {
    let with_overhead = |overhead| Header { overhead, ..header };
    let beyond = (SUPERFRAME_BYTES * u64::from(MOST_SUPERFRAMES)) as u32;
    match random.between(0, 5) {
        0 => with_overhead(HEADER_BYTES as u32 - 1),
        1 => with_overhead(header.frames - OVERHEAD_BYTES as u32 + 1),
        2 => with_overhead(u32::MAX - random.between(0, OVERHEAD_BYTES) as u32),
        3 => Header {
            superframes: 0,
            frames: header.total,
            ..header
        },
        _ => Header {
            superframes: MOST_SUPERFRAMES,
            frames: header.total.wrapping_sub(beyond),
            ..header
        },
    }
}

/// The numbers of the header, of which now and then one is another.
fn any_numbers(header: Header, random: &mut Random) -> Line {
    let mut line = header.line();
    if rarely(6, random) {
        let number = [&mut line.superframes, &mut line.overhead, &mut line.frames];
        *number[random.between(0, 3)] ^= 1 << random.between(0, 32);
    }
    line
}
