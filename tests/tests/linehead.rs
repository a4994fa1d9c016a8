//! The program `linehead`: what it prints for a file on standard input.

use std::fs::{File, OpenOptions};
use std::io::{Seek, Write};
use std::process::{Child, Command, Stdio};
use std::sync::atomic::{AtomicU32, Ordering};
use std::thread::sleep;
use std::time::Duration;

use ofec_tests::line_file::{self, Header, HEADER_BYTES};
use ofec_tests::programs::program;
use ofec_tests::random::Random;

const EXAMPLE: &str = "superframes 1 overhead 16 frames 12304 total 368656\n";

/// What the program prints before it ends.
fn output(child: Child) -> String {
    let output = child.wait_with_output().expect("the program runs");
    assert!(output.status.code().is_some(), "{}", output.status);
    String::from_utf8(output.stdout).expect("text")
}

/// What is printed for these pieces, written to a pipe one after the other.
fn printed_of_pieces(pieces: &[&[u8]]) -> String {
    let mut child = Command::new(program("linehead"))
        .stdin(Stdio::piped())
        .stdout(Stdio::piped())
        .stderr(Stdio::null())
        .spawn()
        .expect("the program starts");
    let mut input = child.stdin.take().expect("a pipe");
    for (number, piece) in pieces.iter().enumerate() {
        if number > 0 {
            // Time for the program to read the piece before.
            sleep(Duration::from_millis(20));
        }
        // A program that has seen enough may close its input.
        let _ = input.write_all(piece);
    }
    drop(input);
    output(child)
}

fn printed(bytes: &[u8]) -> String {
    printed_of_pieces(&[bytes])
}

/// A file of this length, zeros behind the header, that takes no room and has no name.
fn sparse(start: &[u8], length: u64) -> File {
    static NUMBER: AtomicU32 = AtomicU32::new(0);
    let number = NUMBER.fetch_add(1, Ordering::Relaxed);
    let name = format!("ofec-linehead-{}-{number}", std::process::id());
    let path = std::env::temp_dir().join(name);
    let mut file = OpenOptions::new()
        .read(true)
        .write(true)
        .create_new(true)
        .open(&path)
        .expect("a temporary file");
    std::fs::remove_file(&path).expect("its name is removed, the open file stays");
    file.set_len(length).expect("a sparse file");
    let common = length.min(start.len() as u64) as usize;
    file.write_all(&start[..common]).expect("its first bytes");
    file.rewind().expect("back to the start");
    file
}

/// What is printed for a file of zeros behind a header.
fn printed_of_sparse(header: Header, length: u64) -> String {
    let child = Command::new(program("linehead"))
        .stdin(sparse(&header.to_bytes(), length))
        .stdout(Stdio::piped())
        .stderr(Stdio::null())
        .spawn()
        .expect("the program starts");
    output(child)
}

/// What is said on standard error for a file of this length behind these bytes, with these arguments.
fn said(start: &[u8], length: u64, arguments: &[&str]) -> String {
    let child = Command::new(program("linehead"))
        .args(arguments)
        .stdin(sparse(start, length))
        .stdout(Stdio::null())
        .stderr(Stdio::piped())
        .spawn()
        .expect("the program starts");
    let output = child.wait_with_output().expect("the program runs");
    String::from_utf8(output.stderr).expect("text")
}

/// As the reference says, and this line.
fn assert_printed(header: Header, length: u64, line: &str) {
    let expected = line_file::linehead(&header.to_bytes(), length);
    assert_eq!(expected, line);
    let given = printed_of_sparse(header, length);
    assert_eq!(given, line, "{header:?} on {length} bytes");
}

#[test]
fn the_example() {
    let header = [0, 0, 0, 1, 0, 0, 0, 16, 0, 0, 0x30, 0x10, 0, 5, 0xa0, 0x10];
    let mut random = Random::new(5_000);
    let mut file = random.bytes(368_656);
    file[..HEADER_BYTES].copy_from_slice(&header);
    assert_eq!(printed(&file), EXAMPLE);
    assert_eq!(
        printed_of_sparse(Header::from_bytes(&header), 368_656),
        EXAMPLE
    );
}

#[test]
fn input_that_comes_in_pieces() {
    let mut file = vec![0; 368_656];
    file[..HEADER_BYTES].copy_from_slice(&Header::written(1).to_bytes());
    for cuts in [vec![1], vec![7, 15], vec![15], vec![16], vec![17, 100_001]] {
        let mut pieces = Vec::new();
        let mut start = 0;
        for cut in cuts.into_iter().chain([file.len()]) {
            pieces.push(&file[start..cut]);
            start = cut;
        }
        assert_eq!(printed_of_pieces(&pieces), EXAMPLE);
    }
    assert_eq!(
        printed_of_pieces(&[&file[..8], &file[8..15]]),
        "refused 1\n"
    );
    assert_eq!(
        printed_of_pieces(&[&file[..8], &file[8..16]]),
        "refused 2\n"
    );
}

#[test]
fn short_inputs() {
    for header in [Header::written(1), Header::written(0)] {
        let header = header.to_bytes();
        for length in 0..HEADER_BYTES {
            assert_eq!(printed(&header[..length]), "refused 1\n");
        }
        assert_eq!(printed(&header), "refused 2\n");
    }
    let header = Header {
        total: 16,
        ..Header::written(1)
    };
    assert_eq!(printed(&header.to_bytes()), "refused 2\n");
}

#[test]
fn numbers_of_super_frames() {
    for superframes in [1, 2, 63, 64] {
        let header = Header::written(superframes);
        let total = header.total;
        let line = format!("superframes {superframes} overhead 16 frames 12304 total {total}\n");
        assert_printed(header, u64::from(total), &line);
    }
    for superframes in [0, 65, 66, 256, 257] {
        let header = Header::with_sum(superframes, 16, 12_304);
        assert_printed(header, u64::from(header.total), "refused 2\n");
    }
}

#[test]
fn gaps() {
    for (overhead, frames) in [
        (17, 12_305),
        (16, 12_305),
        (1_000_000, 1_012_288),
        (100, 65_536),
    ] {
        let header = Header::with_sum(3, overhead, frames);
        let total = header.total;
        let line = format!("superframes 3 overhead {overhead} frames {frames} total {total}\n");
        assert_printed(header, u64::from(total), &line);
    }
}

#[test]
fn each_header_rule_broken() {
    let good = Header::written(2);
    let length = u64::from(good.total);
    let mut vectors = vec![
        (good, length - 1),
        (good, length + 1),
        (good, length - 7_424),
        (good, 2 * length),
    ];
    for total in [good.total - 1, good.total + 1, 0, u32::MAX] {
        let header = Header { total, ..good };
        vectors.extend([
            (header, length),
            (header, u64::from(total).clamp(16, 2 * length)),
        ]);
    }
    for header in [
        Header::with_sum(2, 15, 12_304),
        Header::with_sum(2, 0, 12_304),
        Header::with_sum(2, 16, 12_303),
        Header::with_sum(2, 17, 12_304),
        Header::with_sum(2, 16, 0),
        // Sums that keep the rules when cut to 32 bits.
        Header::with_sum(2, 0xffff_fff0, 12_304),
        Header::with_sum(2, 0xffff_d010, 12_304),
        Header::with_sum(0x0010_0002, 16, 12_304),
        Header::with_sum(1, 16, 0u32.wrapping_sub(356_352) + 20_000),
        Header::with_sum(64, 16, 0u32.wrapping_sub(64 * 356_352) + 16),
    ] {
        vectors.push((header, u64::from(header.total)));
    }
    for (header, length) in vectors {
        assert_printed(header, length, "refused 2\n");
    }
}

/// Files around 2^32 bytes, with 64 MiB of memory in all.
#[test]
fn files_of_almost_and_of_more_than_4_gib() {
    let longest = Header::with_sum(1, 16, u32::MAX - 356_352);
    let turn = 1 << 32;
    // One sparse file serves all runs: the system reads it much faster again than for the first time.
    let mut file = sparse(&[], 0);
    for (header, length, line) in [
        (
            longest,
            turn - 1,
            "superframes 1 overhead 16 frames 4294610943 total 4294967295\n",
        ),
        // A count that stays at 2^32 - 1 would find this total.
        (longest, turn + 5, "refused 2\n"),
        // A count that begins again at 2^32 would find this one.
        (Header::written(1), turn + 368_656, "refused 2\n"),
    ] {
        file.set_len(length).expect("a sparse file");
        file.rewind().expect("back to the start");
        file.write_all(&header.to_bytes()).expect("its header");
        file.rewind().expect("back to the start");
        let child = Command::new("sh")
            .args(["-c", "ulimit -v 65536 && exec \"$0\""])
            .arg(program("linehead"))
            .stdin(file.try_clone().expect("the same open file"))
            .stdout(Stdio::piped())
            .stderr(Stdio::piped())
            .spawn()
            .expect("the shell starts");
        let output = child.wait_with_output().expect("the program runs");
        assert_eq!(String::from_utf8(output.stdout).expect("text"), line);
        let why = "standard input: more than 4294967295 bytes, expected ";
        let said = String::from_utf8(output.stderr).expect("text");
        assert_eq!(said.starts_with(why), length >= turn, "{said}");
    }
}

/// One line on standard error for each refusal: the numbers that differ.
#[test]
fn why_it_refuses() {
    let good = Header::written(2);
    let length = u64::from(good.total);
    let bytes = good.to_bytes();
    assert_eq!(said(&bytes, length, &[]), "");
    for (header, length, why) in [
        (good, 0, "0 bytes, expected at least 16"),
        (good, 15, "15 bytes, expected at least 16"),
        (
            Header::with_sum(0, 16, 12_304),
            16,
            "0 super-frames, expected at least 1",
        ),
        (
            Header::with_sum(65, 16, 12_304),
            16,
            "65 super-frames, expected at most 64",
        ),
        (
            Header::with_sum(2, 15, 12_304),
            16,
            "overhead at 15, expected at least 16",
        ),
        (
            Header::with_sum(2, 17, 12_304),
            16,
            "frames at 12304, expected at least 12305",
        ),
        (Header { total: 7, ..good }, 16, "total 7, expected 725008"),
        (good, 16, "16 bytes, expected 725008"),
        (good, length - 1, "725007 bytes, expected 725008"),
        (good, length + 1, "725009 bytes, expected 725008"),
    ] {
        let line = format!("standard input: {why}\n");
        assert_eq!(said(&header.to_bytes(), length, &[]), line);
    }
}

/// Standard input that cannot be read.
#[test]
fn no_file_to_read() {
    for (input, why) in [
        ("< .", "Is a directory"),
        ("<&-", "Bad file descriptor"),
        ("< /dev/null", "0 bytes, expected at least 16"),
    ] {
        let output = Command::new("sh")
            .args(["-c", &format!("exec \"$0\" {input}")])
            .arg(program("linehead"))
            .output()
            .expect("the shell runs");
        assert_eq!(output.stdout, b"refused 1\n");
        let said = String::from_utf8(output.stderr).expect("text");
        assert_eq!(said, format!("standard input: {why}\n"));
    }
}

/// An argument is named as one too many, and all else is as before.
#[test]
fn an_argument() {
    let good = Header::written(1);
    let note = "linehead takes no argument: it reads a line file on standard input\n";
    assert_eq!(said(&good.to_bytes(), good.total.into(), &["line"]), note);
    let both = format!("{note}standard input: 3 bytes, expected at least 16\n");
    assert_eq!(said(&good.to_bytes(), 3, &["", "x"]), both);
    let child = Command::new(program("linehead"))
        .arg("line")
        .stdin(sparse(&good.to_bytes(), good.total.into()))
        .stdout(Stdio::piped())
        .spawn()
        .expect("the program starts");
    assert_eq!(output(child), EXAMPLE);
}

/// Standard output that cannot be written.
#[test]
fn no_room_for_the_output() {
    for length in [3, 368_656] {
        let child = Command::new("sh")
            .args(["-c", "exec \"$0\" > /dev/full"])
            .arg(program("linehead"))
            .stdin(sparse(&Header::written(1).to_bytes(), length))
            .stderr(Stdio::piped())
            .spawn()
            .expect("the shell starts");
        let output = child.wait_with_output().expect("the program runs");
        let text = String::from_utf8(output.stderr).expect("text");
        assert!(text.starts_with("standard output: No space left"), "{text}");
    }
}

/// 128 KiB of stack, its arguments and environment included, are enough.
#[test]
fn stack() {
    let good = Header::written(1);
    let child = Command::new("sh")
        .args(["-c", "ulimit -s 128 && exec \"$0\""])
        .arg(program("linehead"))
        .env_clear()
        .stdin(sparse(&good.to_bytes(), good.total.into()))
        .stdout(Stdio::piped())
        .spawn()
        .expect("the shell starts");
    assert_eq!(output(child), EXAMPLE);
}
