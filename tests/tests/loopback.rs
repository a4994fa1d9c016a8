//! The program `loopback`: what it prints within a limit of stack, write by write, and what it says where it cannot print.

use std::fs::File;
use std::io::{pipe, ErrorKind, Read, Write};
use std::os::fd::{AsRawFd, OwnedFd};
use std::os::unix::fs::OpenOptionsExt;
use std::os::unix::net::UnixDatagram;
use std::process::Command;
use std::thread;

use ofec_tests::programs::program;

/// What the program prints, as the gate compares it.
const COUNTS: &str = include_str!("../../crates/loopback/stdout");

/// A megabyte of stack (1,048,576 bytes), its arguments and environment included, is enough.
#[test]
fn stack() {
    let output = Command::new("sh")
        .args(["-c", "ulimit -s 1024 && exec \"$0\""])
        .arg(program("loopback"))
        .env_clear()
        .output()
        .expect("the shell starts");
    assert!(output.status.success(), "{}", output.status);
    assert_eq!(String::from_utf8(output.stdout).expect("text"), COUNTS);
}

/// Standard error says that standard output cannot be written.
#[test]
fn standard_output_that_is_full() {
    let full = File::options().write(true).open("/dev/full");
    let output = Command::new(program("loopback"))
        .stdout(full.expect("a device that is full"))
        .output()
        .expect("it starts");
    let said = String::from_utf8(output.stderr).expect("text");
    assert!(
        said.starts_with("standard output: "),
        "what it said: {said}"
    );
}

/// What an encoder did, as the program prints it: `#` stands for a count.
const ENCODER: &str = "encoder: pairs #, calls done #, refused by number # # # # #\n";

const LINE: &str = "\
line: refused by number # # # # #
overhead cells that differ #
";

const RECEIVER: &str = "\
receiver: pairs #, calls done #, refused by number # # # # #
words with 0 wrong bits: marked 0 #, 1 #, 2 #, lost #
words with 1: # # # #
words with 2: # # # #
words with 3: # # # #
words with more: # # # #
bits in words not lost: right #, mended #, spoilt #, wrong #
bits in lost words: right #, mended #, spoilt #, wrong #
payload bits: right #, wrong #; in lost words: right #, wrong #
";

/// The texts of a run.
const TEXTS: [&str; 11] = [
    ENCODER, ENCODER, LINE, RECEIVER, RECEIVER, "qpsk\n", ENCODER, ENCODER, LINE, RECEIVER,
    RECEIVER,
];

/// What the program prints, write by write: the bytes of the texts, and the counts.
fn writes() -> Vec<&'static str> {
    let mut rest = COUNTS;
    let mut writes = Vec::new();
    for c in TEXTS.concat().chars() {
        let n = match c {
            '#' => rest.find([' ', ',', ';', '\n']).expect("a line ends"),
            _ => 1,
        };
        let (write, behind) = rest.split_at(n);
        writes.push(write);
        rest = behind;
    }
    assert_eq!(rest, "");
    writes
}

/// Each byte of a text is a write of its own, and each count: a socket of datagrams keeps them apart.
#[test]
fn each_write() {
    let (ours, its) = UnixDatagram::pair().expect("a pair");
    let reader = thread::spawn(move || {
        let mut got = Vec::new();
        loop {
            let mut bytes = [0; 4096];
            let n = ours.recv(&mut bytes).expect("a datagram");
            // Nobody but the end below sends an empty one.
            if n == 0 {
                return got;
            }
            got.push(String::from_utf8(bytes[..n].to_vec()).expect("text"));
        }
    });
    let end = its.try_clone().expect("another end");
    let output = Command::new(program("loopback"))
        .stdout(OwnedFd::from(its))
        .output()
        .expect("it starts");
    end.send(&[]).expect("the end");
    let got = reader.join().expect("the reader");
    assert_eq!(String::from_utf8(output.stderr).expect("text"), "");
    assert_eq!(got[..3], ["e", "n", "c"]);
    assert_eq!(got, writes());
}

/// What the program prints into a pipe that has so many bytes free, is read by nobody, and refuses what it has no room for; and what the
/// program says.
fn printed_with_room(room: usize) -> (String, String) {
    let (mut reader, writer) = pipe().expect("a pipe");
    // The same end without the wait for room (O_NONBLOCK).
    let mut full = File::options()
        .write(true)
        .custom_flags(0o4000)
        .open(format!("/proc/self/fd/{}", writer.as_raw_fd()))
        .expect("the pipe is opened");
    drop(writer);
    let mut size = 0;
    loop {
        match full.write(&[0; 4096]) {
            Ok(n) => size += n,
            Err(error) if error.kind() == ErrorKind::WouldBlock => break,
            Err(error) => panic!("{error}"),
        }
    }
    let mut filled = vec![0; size];
    reader.read_exact(&mut filled).expect("what was written");
    full.write_all(&filled[room..]).expect("there is room");
    let output = Command::new(program("loopback"))
        .stdout(full)
        .output()
        .expect("it starts");
    let mut got = Vec::new();
    reader.read_to_end(&mut got).expect("what was written");
    let text = |bytes| String::from_utf8(bytes).expect("text");
    (text(got.split_off(size - room)), text(output.stderr))
}

/// After a write that fails the rest of the text is tried all the same; each text that could not be printed whole is said once.
#[test]
fn standard_output_that_is_nearly_full() {
    let said = "standard output: Resource temporarily unavailable\n";
    // With 1 byte left behind "pairs " a count of three digits fails, and the comma behind it does not.
    for (room, printed) in [
        (0, ""),
        (1, "e"),
        (16, "encoder: pairs ,"),
        (17, "encoder: pairs , "),
        (60, &COUNTS[..60]),
    ] {
        let (out, err) = printed_with_room(room);
        assert_eq!(out, printed);
        assert_eq!(err, said.repeat(TEXTS.len()));
    }
    // The first text is printed whole, and is not said.
    let (out, err) = printed_with_room(120);
    assert_eq!(out, COUNTS[..120]);
    assert_eq!(err, said.repeat(TEXTS.len() - 1));
}
