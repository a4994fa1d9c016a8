//! The program `linereceive`: payload and marks that it writes for each profile, what it prints, and what it leaves where it is refused.

use std::fs::{self, File};
use std::ops::Deref;
use std::process::{Command, Stdio};

use ofec_tests::cells::cell;
use ofec_tests::chain::calls::REFERENCE;
use ofec_tests::chain::damage::Damage;
use ofec_tests::chain::receiving::{receive, take};
use ofec_tests::chain::sending::send;
use ofec_tests::chain::SUPERFRAME_BYTES;
use ofec_tests::frames::{first_illegal_of_frame, FRAME_BYTES, OVERHEAD_BYTES, SUBFRAMES};
use ofec_tests::line_file::{Header, HEADER_BYTES};
use ofec_tests::profile::Profile::{self, Qam16, Qpsk};
use ofec_tests::profile::PROFILES;
use ofec_tests::programs::{arguments, program, progress, Folder, Printed, WRONG_WORDS};
use ofec_tests::random::Random;
use ofec_tests::rows::MARKS;

const KEPT: &[u8] = b"what had the name before";
const NAMES: [&str; 6] = [
    "line", "capture", "payload0", "payload1", "marks0", "marks1",
];
const OUTPUTS: [&str; 4] = ["payload0", "payload1", "marks0", "marks1"];

/// What a command prints before it ends.
fn printed(mut command: Command) -> Printed {
    command.stdin(Stdio::null());
    Printed::of(command.output().expect("it starts"))
}

/// The folder of runs of this profile.
struct Room {
    folder: Folder,
    profile: Profile,
}

impl Deref for Room {
    type Target = Folder;

    fn deref(&self) -> &Folder {
        &self.folder
    }
}

impl Room {
    fn empty(profile: Profile) -> Self {
        Room {
            folder: Folder::empty("linereceive"),
            profile,
        }
    }

    /// A line file and a capture, in which all cells are those of zeros.
    fn of_zeros(profile: Profile, superframes: u32) -> Self {
        let room = Room::empty(profile);
        for name in ["line", "capture"] {
            room.headed(name, Header::written(superframes));
        }
        room
    }

    /// The byte of a cell of zeros.
    fn zero(&self) -> u8 {
        cell(self.profile, 0)[0]
    }

    /// A file of this header and its total length, with cells of zeros behind the header; where their bytes are 0, it takes no room.
    fn headed(&self, name: &str, header: Header) {
        let mut file = header.to_bytes().to_vec();
        if self.zero() != 0 {
            file.resize(header.total as usize, self.zero());
        }
        self.put(name, &file);
        self.resize(name, u64::from(header.total));
    }

    fn resize(&self, name: &str, length: u64) {
        let file = File::options().write(true).open(self.path(name));
        file.and_then(|file| file.set_len(length))
            .expect("another length");
    }

    /// The same file with another byte.
    fn strike(&self, name: &str, index: usize, byte: u8) {
        use std::os::unix::fs::FileExt;
        let file = File::options().write(true).open(self.path(name));
        file.and_then(|file| file.write_all_at(&[byte], index as u64))
            .expect("another byte");
    }

    fn run_program(&self, name: &str, arguments: &[&str]) -> Printed {
        let mut command = Command::new(program(name));
        command.args(arguments).current_dir(self.folder());
        printed(command)
    }

    /// The program with these names, and the profile's word behind them.
    fn run(&self, names: &[&str]) -> Printed {
        self.run_program("linereceive", &arguments(self.profile, names))
    }

    /// The program under a shell that first does this, as a limit.
    fn run_after(&self, first: &str) -> Printed {
        let mut command = Command::new("sh");
        command.args(["-c", &format!("{first} exec \"$0\" \"$@\"")]);
        command.arg(program("linereceive"));
        command.args(arguments(self.profile, &NAMES));
        command.current_dir(self.folder());
        printed(command)
    }

    /// A run that is refused with this number for this reason, and leaves the folder as it was: with files under the given names, and
    /// with none.
    fn assert_refused(&self, arguments: &[&str], number: u32, reason: &str) {
        for kept in [false, true] {
            if kept {
                for name in OUTPUTS {
                    self.put(name, KEPT);
                }
            }
            let before = self.names();
            let given = self.run(arguments);
            assert_eq!(given.out, format!("refused {number}\n"), "{arguments:?}");
            let mut said = given.said.lines();
            let why = said.find(|line| !line.starts_with("super-frame "));
            let why = why.expect("a reason");
            assert!(why.contains(reason), "{arguments:?}: {why}");
            assert_eq!(said.next(), None, "{arguments:?}");
            assert_eq!(self.names(), before, "{arguments:?}");
            if kept {
                for name in OUTPUTS {
                    assert_eq!(self.read(name), KEPT, "{arguments:?}");
                    fs::remove_file(self.path(name)).expect("it is there");
                }
            }
        }
    }
}

/// What the code written apart makes of frames.
struct Expected {
    payloads: [Vec<u8>; 2],
    marks: [Vec<u8>; 2],
    line: String,
}

fn expected(profile: Profile, frames: &[u8], list: &[u8]) -> Expected {
    let superframes = frames.len() / SUPERFRAME_BYTES;
    let mut random = Random::new(7_001);
    let taken = take(&REFERENCE, profile, frames, list, &mut random);
    let pairs = taken.pairs.each_ref().map(|pairs| &pairs[..]);
    let count = [profile.pairs() * superframes; 2];
    let received = receive(&REFERENCE, pairs, count, &mut random);
    let marks = received.each_ref().map(|received| received.marks.clone());
    let all: Vec<u32> = marks.iter().flatten().map(|&mark| mark.into()).collect();
    let flips: u32 = all.iter().filter(|&&mark| mark < 3).sum();
    let lost = all.iter().filter(|&&mark| mark == 3).count();
    let overhead: u32 = taken.differing.iter().sum();
    Expected {
        payloads: received.map(|received| received.payload),
        marks,
        line: format!("superframes {superframes} flips {flips} lost {lost} overhead {overhead}\n"),
    }
}

/// A file with this header: list and frames in their places, and any bytes between.
fn file(header: Header, list: &[u8], frames: &[u8], random: &mut Random) -> Vec<u8> {
    let mut file = random.bytes(header.frames as usize);
    file[..HEADER_BYTES].copy_from_slice(&header.to_bytes());
    file[header.overhead as usize..][..OVERHEAD_BYTES].copy_from_slice(list);
    file.extend(frames);
    file
}

/// The files of a run are these.
fn assert_received(room: &Room, expected: &Expected) {
    for e in [0, 1] {
        assert!(room.read(OUTPUTS[e]) == expected.payloads[e]);
        assert!(room.read(OUTPUTS[2 + e]) == expected.marks[e]);
    }
}

#[test]
fn a_clean_round_trip() {
    for (profile, superframes) in [(Qam16, 1), (Qam16, 3), (Qpsk, 1), (Qpsk, 2)] {
        let room = Room::empty(profile);
        let mut random = Random::new(7_100);
        let payloads = [0; 2].map(|_| random.bytes(superframes * profile.payload_bytes()));
        room.put("sent0", &payloads[0]);
        room.put("sent1", &payloads[1]);
        room.put("overhead", &random.cells(OVERHEAD_BYTES));
        let names = arguments(profile, &["sent0", "sent1", "overhead", "line"]);
        room.run_program("linemake", &names);
        let line = room.read("line");
        // The capture may be the line file itself.
        for capture in ["line", "capture"] {
            room.put(capture, &line);
            let mut names = NAMES;
            names[1] = capture;
            let given = room.run(&names);
            assert_eq!(
                given.out,
                format!("superframes {superframes} flips 0 lost 0 overhead 0\n")
            );
            assert_eq!(given.said, progress(superframes as u32));
            let marks = [0; 2].map(|_| vec![0; superframes * profile.pairs() * MARKS]);
            let sent = Expected {
                payloads: payloads.clone(),
                marks,
                line: String::new(),
            };
            assert_received(&room, &sent);
        }
        assert!(room.read("line") == line && room.read("capture") == line);
        let mut all: Vec<&str> = ["sent0", "sent1", "overhead"]
            .into_iter()
            .chain(NAMES)
            .collect();
        all.sort();
        assert_eq!(room.names(), all);
    }
}

/// A damaged capture with gaps, another list in it and any frames in the line file: as the code written apart receives it.
#[test]
fn a_damaged_capture() {
    let damages: [&[Damage]; 3] = [
        &[
            Damage::Words {
                count: 400,
                wrong: 2,
            },
            Damage::Overhead(3),
        ],
        &[Damage::Errors(2_000), Damage::Cells(50)],
        &[
            Damage::Garbage(vec![0, 47, 60]),
            Damage::Bursts {
                count: 5,
                cells: 300,
            },
        ],
    ];
    let both = PROFILES.map(|profile| damages.map(|damages| (profile, damages)));
    for (seed, (profile, damages)) in (7_200..).zip(both.as_flattened()) {
        let superframes = 2;
        let mut random = Random::new(seed);
        let payloads = [0; 2].map(|_| random.bytes(superframes * profile.payload_bytes()));
        let [list, other] = [0; 2].map(|_| random.cells(OVERHEAD_BYTES));
        let lent = payloads.each_ref().map(|payload| &payload[..]);
        let mut frames = send(&REFERENCE, *profile, lent, &list, &mut random).frames;
        for damage in *damages {
            damage.apply(*profile, &mut frames, &mut random);
        }
        let room = Room::empty(*profile);
        let gaps = [(16, 12_304), (17, 12_305), (2_000, 20_001)];
        let headers = [0; 2].map(|_| {
            let (o, f) = gaps[random.between(0, 3)];
            Header::with_sum(superframes as u32, o, f)
        });
        let any = random.bytes(frames.len());
        room.put("line", &file(headers[0], &list, &any, &mut random));
        room.put("capture", &file(headers[1], &other, &frames, &mut random));
        for name in OUTPUTS {
            room.put(name, KEPT);
        }
        let expected = expected(*profile, &frames, &list);
        assert!(!expected.line.contains("flips 0"), "{}", expected.line);
        let given = room.run(&NAMES);
        assert_eq!(given.out, expected.line);
        assert_eq!(given.said, progress(superframes as u32));
        assert_received(&room, &expected);
        assert_eq!(room.names().len(), 6);
    }
}

const USAGE: &str = "usage: linereceive LINE CAPTURE PAYLOAD0 PAYLOAD1 MARKS0 MARKS1 [qpsk]";

#[test]
fn the_number_of_arguments() {
    let room = Room::of_zeros(Qam16, 1);
    for count in 0..NAMES.len() {
        room.assert_refused(&NAMES[..count], 1, USAGE);
    }
    let none = ["none/x"; 6];
    for words in WRONG_WORDS {
        for names in [NAMES, none] {
            room.assert_refused(&[&names[..], words].concat(), 1, USAGE);
        }
    }
    // In another place than the last, or with fewer names.
    for count in 0..NAMES.len() - 1 {
        room.assert_refused(&[&NAMES[..count], &["qpsk"]].concat(), 1, USAGE);
    }
    for place in 0..NAMES.len() {
        let mut names = NAMES.to_vec();
        names.insert(place, "qpsk");
        room.assert_refused(&names, 1, USAGE);
    }
    // In the place of a name it is a name.
    let mut names = NAMES;
    names[5] = "qpsk";
    let given = room.run(&names);
    assert_eq!(given.out, "superframes 1 flips 0 lost 0 overhead 0\n");
    assert!(room.read("qpsk") == [0; Qam16.pairs() * MARKS]);
}

/// The sent frames of one super-frame, with this list.
fn sent(profile: Profile, list: &[u8], random: &mut Random) -> Vec<u8> {
    let payloads = [0; 2].map(|_| random.bytes(profile.payload_bytes()));
    let lent = payloads.each_ref().map(|payload| &payload[..]);
    send(&REFERENCE, profile, lent, list, random).frames
}

/// A capture of 16-QAM has cells that QPSK does not have. One of QPSK is a legal capture of 16-QAM, with other bits.
#[test]
fn a_capture_of_the_other_profile() {
    let mut random = Random::new(7_300);
    let list = random.cells(OVERHEAD_BYTES);
    for profile in PROFILES {
        let frames = sent(profile, &list, &mut random);
        let line = file(Header::written(1), &list, &frames, &mut random);
        let [room, qam16] = [Qpsk, Qam16].map(Room::empty);
        for room in [&room, &qam16] {
            room.put("line", &line);
            room.put("capture", &line);
        }
        let received = expected(Qam16, &frames, &list);
        assert_eq!(qam16.run(&NAMES).out, received.line);
        assert_received(&qam16, &received);

        let illegal = (0..SUBFRAMES)
            .zip(frames.chunks(FRAME_BYTES))
            .find_map(|(number, frame)| {
                let index = first_illegal_of_frame(Qpsk, number, frame)?;
                Some(number as usize * FRAME_BYTES + index)
            });
        assert_eq!(illegal.is_some(), profile == Qam16);
        match illegal {
            Some(index) => {
                let reason = format!("not a cell of the profile at index {}", 12_304 + index);
                room.assert_refused(&NAMES, 5, &format!("capture: {reason}"));
            }
            None => {
                let received = expected(Qpsk, &frames, &list);
                assert_eq!(room.run(&NAMES).out, received.line);
                assert_received(&room, &received);
            }
        }
    }
}

/// In QPSK, levels of -3 and 3 are legal in the capture's overhead cells alone.
#[test]
fn levels_of_3_in_a_capture_of_qpsk() {
    let room = Room::of_zeros(Qpsk, 2);
    // Cell 0 and the last pilot of sub-frame 0; the first training cell and the last pilot of the last sub-frame.
    let last = 12_304 + 2 * SUPERFRAME_BYTES - FRAME_BYTES;
    let overhead = [12_304, 12_304 + 2 * 3_680 + 1, last + 3, last + 2 * 3_680];
    for (index, byte) in overhead.into_iter().zip([0, 3, 12, 15]) {
        room.strike("capture", index, byte);
    }
    let given = room.run(&NAMES);
    assert_eq!(given.out, "superframes 2 flips 0 lost 0 overhead 4\n");
    for name in OUTPUTS {
        fs::remove_file(room.path(name)).expect("it was written");
    }
    // The first and the last payload cell of the first and of the last sub-frame.
    for (index, byte) in [
        (12_304 + 2 * 110, 4),
        (12_304 + FRAME_BYTES - 1, 11),
        (last + 2 * 11, 13),
        (last + FRAME_BYTES - 1, 0),
    ] {
        room.strike("capture", index, byte);
        let reason = format!("capture: not a cell of the profile at index {index}");
        room.assert_refused(&NAMES, 5, &reason);
        room.strike("capture", index, 5);
    }
}

/// The same for the line file and for the capture; the other one is good.
#[test]
fn each_input_by_itself() {
    for place in [0, 1] {
        let room = Room::of_zeros(Qam16, 2);
        fs::create_dir(room.path("folder")).expect("a folder");
        let long = "n".repeat(5_000);
        for (other, reason) in [
            ("", "argument "),
            ("none", "none: No such file or directory"),
            ("folder", "folder: not a regular file"),
            ("/dev/null", "/dev/null: not a regular file"),
            ("/dev/zero", "/dev/zero: not a regular file"),
            ("line/x", "line/x: Not a directory"),
            (&long, "too long"),
        ] {
            let mut arguments = NAMES;
            arguments[place] = other;
            room.assert_refused(&arguments, 1, reason);
        }
        let name = NAMES[place];
        let good = Header::written(2);
        for length in [0, 1, 15] {
            room.headed(name, good);
            room.resize(name, length);
            let reason = format!("{name}: {length} bytes, expected at least 16");
            room.assert_refused(&NAMES, 1, &reason);
        }
        let total = u64::from(good.total);
        for length in [16, total - 1, total + 1, total + (1 << 32)] {
            room.headed(name, good);
            room.resize(name, length);
            room.assert_refused(&NAMES, 2, &format!("{name}: "));
        }
        for (header, reason) in [
            (Header::with_sum(0, 16, 12_304), "0 super-frames"),
            (Header::with_sum(65, 16, 12_304), "65 super-frames"),
            (Header::with_sum(2, 15, 12_304), "overhead at 15"),
            (Header::with_sum(2, 17, 12_304), "frames at 12304"),
            (
                Header {
                    superframes: 1,
                    ..good
                },
                "total 725008",
            ),
        ] {
            room.headed(name, header);
            room.assert_refused(&NAMES, 2, &format!("{name}: {reason}"));
        }
    }
}

#[test]
fn unequal_numbers_of_super_frames() {
    let room = Room::of_zeros(Qam16, 2);
    for (line, capture) in [(2, 1), (1, 2), (64, 63)] {
        room.headed("line", Header::written(line));
        room.headed("capture", Header::with_sum(capture, 20, 13_000));
        let reason = format!("line: {line} super-frames, capture: {capture}");
        room.assert_refused(&NAMES, 12, &reason);
    }
}

#[test]
fn illegal_bytes() {
    for profile in PROFILES {
        let what = match profile {
            Qam16 => "a byte of 16 or more",
            Qpsk => "not a cell of the profile",
        };
        let room = Room::of_zeros(profile, 3);
        // In what is not read: the line file's frames, the capture's list, any gap.
        room.headed("line", Header::with_sum(3, 1_000, 20_000));
        room.headed("capture", Header::with_sum(3, 17, 12_400));
        for (name, index) in [
            ("line", 20_000),
            ("line", 19_999),
            ("line", 999),
            ("line", 13_288),
        ] {
            room.strike(name, index, 255);
        }
        for (name, index) in [("capture", 17), ("capture", 16), ("capture", 12_399)] {
            room.strike(name, index, 16);
        }
        let given = room.run(&NAMES);
        assert_eq!(given.out, "superframes 3 flips 0 lost 0 overhead 0\n");
        for name in OUTPUTS {
            fs::remove_file(room.path(name)).expect("it was written");
        }
        // In what is read; the list comes first.
        for index in [
            12_400,
            12_400 + 356_351,
            12_400 + 356_352,
            12_400 + 3 * 356_352 - 1,
        ] {
            room.strike("capture", index, 16);
            room.assert_refused(&NAMES, 5, &format!("capture: {what} at index {index}"));
            room.strike("capture", index, room.zero());
        }
        room.strike("capture", 12_400, 255);
        for index in [1_000, 1_001, 7_000, 13_287] {
            room.strike("line", index, 255);
            room.assert_refused(
                &NAMES,
                5,
                &format!("line: a byte of 16 or more at index {index}"),
            );
            room.strike("line", index, 15);
        }
    }
}

/// Several conditions at once: the line file's first, then the capture's, then 12, then 5.
#[test]
fn the_order_of_the_refusals() {
    for profile in PROFILES {
        let room = Room::of_zeros(profile, 1);
        room.strike("line", 16, 16);
        room.strike("capture", 12_304, 16);
        room.assert_refused(&NAMES, 5, "line: ");
        room.headed("capture", Header::written(2));
        room.strike("capture", 12_304, 16);
        room.assert_refused(&NAMES, 12, "");
        room.headed("capture", Header::written(65));
        room.assert_refused(&NAMES, 2, "capture: ");
        room.resize("line", 100);
        room.assert_refused(&NAMES, 2, "line: ");
        room.resize("capture", 3);
        room.assert_refused(&NAMES, 2, "line: ");
        room.resize("line", 3);
        room.headed("capture", Header::written(65));
        room.assert_refused(&NAMES, 1, "line: ");
        room.headed("line", Header::written(1));
        room.resize("capture", 3);
        room.assert_refused(&NAMES, 1, "capture: ");
        // An output that cannot be written: after both headers and 12, before 5.
        let nowhere = ["line", "capture", "payload0", "none/x", "marks0", "marks1"];
        room.assert_refused(&nowhere, 1, "capture: ");
        room.headed("capture", Header::written(2));
        room.assert_refused(&nowhere, 12, "");
        room.headed("capture", Header::written(1));
        room.strike("capture", 12_304, 16);
        room.assert_refused(&nowhere, 1, "none/x: ");
    }
}

#[test]
fn outputs_that_cannot_be_written() {
    let room = Room::of_zeros(Qam16, 1);
    fs::create_dir(room.path("folder")).expect("a folder");
    std::os::unix::fs::symlink("nowhere", room.path("dangling")).expect("a link");
    let long = "n".repeat(300);
    for place in 2..6 {
        for other in [
            "",
            "folder",
            "folder/",
            "none/x",
            "/dev/null",
            "dangling",
            &long,
        ] {
            let mut arguments = NAMES;
            arguments[place] = other;
            room.assert_refused(&arguments, 1, "");
        }
    }
}

/// An output that is an input, or another output, however its name is written.
#[test]
fn names_that_are_one() {
    for profile in PROFILES {
        let room = Room::of_zeros(profile, 1);
        let before = [room.read("line"), room.read("capture")];
        std::os::unix::fs::symlink("line", room.path("link")).expect("a link");
        fs::hard_link(room.path("capture"), room.path("hard")).expect("a link");
        for place in 2..6 {
            for (other, reason) in [
                ("line", "line: the same file as LINE"),
                ("./line", "./line: the same file as LINE"),
                ("link", "link: the same file as LINE"),
                ("capture", "capture: the same file as CAPTURE"),
                ("hard", "hard: the same file as CAPTURE"),
            ] {
                let mut arguments = NAMES;
                arguments[place] = other;
                room.assert_refused(&arguments, 1, reason);
            }
            for other in 2..place {
                for prefix in ["", "./", ".//"] {
                    let name = format!("{prefix}{}", NAMES[other]);
                    let mut arguments = NAMES;
                    arguments[place] = &name;
                    let reason = format!("{name}: the same file as argument {}", other + 1);
                    room.assert_refused(&arguments, 1, &reason);
                }
            }
        }
        assert!([room.read("line"), room.read("capture")] == before);
    }
}

/// A link to an output's file stays, and the file that it leads to is replaced.
#[test]
fn a_link_to_an_output() {
    let room = Room::of_zeros(Qam16, 1);
    fs::create_dir(room.path("folder")).expect("a folder");
    room.put("folder/kept", KEPT);
    std::os::unix::fs::symlink("folder/kept", room.path("marks0")).expect("a link");
    assert!(room.run(&NAMES).out.starts_with("superframes 1 "));
    assert!(fs::symlink_metadata(room.path("marks0"))
        .expect("it is there")
        .is_symlink());
    assert!(room.read("folder/kept") == [0; Qam16.pairs() * MARKS]);
}

/// The same 16 MiB of memory in all, and a million bytes of stack, for 2 super-frames and for 64.
#[test]
fn a_constant_amount_of_memory() {
    for (profile, superframes) in [(Qam16, 2), (Qam16, 64), (Qpsk, 2), (Qpsk, 64)] {
        let room = Room::of_zeros(profile, superframes);
        let given = room.run_after("ulimit -v 16384 && ulimit -s 976 &&");
        let line = format!("superframes {superframes} flips 0 lost 0 overhead 0\n");
        assert_eq!(given.out, line);
        assert_eq!(given.said, progress(superframes));
        for name in OUTPUTS {
            let bytes = if name.starts_with('p') {
                profile.payload_bytes()
            } else {
                profile.pairs() * MARKS
            };
            assert!(
                room.read(name) == vec![0; bytes * superframes as usize],
                "{name}"
            );
        }
    }
}

/// Files that can grow to half a megabyte and no further: all four stay as they were.
#[test]
fn a_write_that_fails() {
    let room = Room::of_zeros(Qam16, 8);
    for kept in [false, true] {
        if kept {
            for name in OUTPUTS {
                room.put(name, KEPT);
            }
        }
        let before = room.names();
        let given = room.run_after("trap '' XFSZ && ulimit -f 1000 &&");
        assert_eq!(given.out, "refused 1\n");
        assert!(
            given.said.ends_with("PAYLOAD0: File too large\n"),
            "{}",
            given.said
        );
        assert_eq!(room.names(), before);
        for name in OUTPUTS {
            assert!(!kept || room.read(name) == KEPT);
        }
    }
}

/// With standard descriptors closed, none of them becomes a file's.
#[test]
fn closed_standard_descriptors() {
    let room = Room::of_zeros(Qam16, 1);
    for closed in ["<&-", ">&-", "2>&-", "<&- >&- 2>&-"] {
        room.run_after(&format!("exec {closed};"));
        for name in OUTPUTS {
            assert!(room.read(name).iter().all(|&byte| byte == 0), "{closed}");
            fs::remove_file(room.path(name)).expect("it is there");
        }
        assert_eq!(room.names(), ["capture", "line"]);
    }
}
