//! The program `linemake`: the file that it writes for each profile, what it prints, and what it leaves where it is refused.

use std::fs::{self, File};
use std::io::{BufRead, BufReader, Read};
use std::ops::Deref;
use std::os::unix::fs::{chown, symlink, FileTypeExt, MetadataExt, PermissionsExt};
use std::os::unix::process::CommandExt;
use std::path::Path;
use std::process::{Child, Command, Stdio};
use std::thread::sleep;
use std::time::Duration;

use ofec_tests::chain::calls::REFERENCE;
use ofec_tests::chain::sending::send;
use ofec_tests::frames::OVERHEAD_BYTES;
use ofec_tests::line_file::Header;
use ofec_tests::profile::Profile::{self, Qam16, Qpsk};
use ofec_tests::profile::PROFILES;
use ofec_tests::programs::{arguments, program, progress, Folder, Printed, WRONG_WORDS};
use ofec_tests::random::Random;

/// The bytes of a payload file for a super-frame.
fn payload(profile: Profile) -> u64 {
    profile.payload_bytes() as u64
}

const KEPT: &[u8] = b"what had the name before";
const NAMES: [&str; 4] = ["payload0", "payload1", "overhead", "line"];

/// What a run prints before it ends.
fn printed(child: Child) -> Printed {
    Printed::of(child.wait_with_output().expect("the program runs"))
}

/// A folder with the three files that are read, for runs of this profile.
struct Room {
    folder: Folder,
    profile: Profile,
}

impl Deref for Room {
    type Target = Folder;

    fn deref(&self) -> &Folder {
        &self.folder
    }
}

impl Room {
    fn empty(profile: Profile) -> Self {
        Room {
            folder: Folder::empty("linemake"),
            profile,
        }
    }

    /// Payload files of zeros that take no room, and a legal overhead list.
    fn of_zeros(profile: Profile, superframes: u64) -> Self {
        let room = Room::empty(profile);
        room.sized("payload0", superframes * payload(profile));
        room.sized("payload1", superframes * payload(profile));
        room.put("overhead", &Random::new(6_000).cells(OVERHEAD_BYTES));
        room
    }

    /// A file of zeros, or the same file with another length.
    fn sized(&self, name: &str, length: u64) {
        File::options()
            .write(true)
            .create(true)
            .truncate(false)
            .open(self.path(name))
            .and_then(|file| file.set_len(length))
            .expect("a sparse file");
    }

    /// The program with these names, and the profile's word behind them.
    fn command(&self, names: &[&str]) -> Command {
        let mut command = Command::new(program("linemake"));
        command.args(arguments(self.profile, names));
        self.piped(command)
    }

    /// The program under a shell that first does this, as a limit.
    fn shell(&self, first: &str, names: &[&str]) -> Command {
        let mut command = Command::new("sh");
        command.args(["-c", &format!("{first} exec \"$0\" \"$@\"")]);
        command
            .arg(program("linemake"))
            .args(arguments(self.profile, names));
        self.piped(command)
    }

    fn piped(&self, mut command: Command) -> Command {
        command.current_dir(self.folder()).stdin(Stdio::null());
        command.stdout(Stdio::piped()).stderr(Stdio::piped());
        command
    }

    fn run(&self, arguments: &[&str]) -> Printed {
        printed(self.command(arguments).spawn().expect("it starts"))
    }

    /// What a refused run says.
    fn why(&self, arguments: &[&str], number: u32) -> String {
        let given = self.run(arguments);
        assert_eq!(given.out, format!("refused {number}\n"), "{arguments:?}");
        given.said
    }

    fn mode(&self, name: &str) -> u32 {
        let file = fs::metadata(self.path(name)).expect("a file");
        file.permissions().mode() % 0o10000
    }

    fn set_mode(&self, name: &str, mode: u32) {
        let permissions = fs::Permissions::from_mode(mode);
        fs::set_permissions(self.path(name), permissions).expect("a mode");
    }

    /// A run that is refused with this number, and leaves the folder as it was: with a file under the given
    /// name, and with none.
    fn assert_refused(&self, arguments: &[&str], number: u32) {
        for kept in [false, true] {
            if kept && !self.path("line").exists() {
                self.put("line", KEPT);
            }
            let before = self.names();
            let given = self.run(arguments);
            assert_eq!(given.out, format!("refused {number}\n"), "{arguments:?}");
            assert_one_line(&given.said);
            assert_eq!(self.names(), before, "{arguments:?}");
            if self.path("line").is_file() && kept {
                assert_eq!(self.read("line"), KEPT);
            }
        }
        let _ = fs::remove_file(self.path("line"));
    }
}

/// One line that says why.
fn assert_one_line(said: &str) {
    assert_eq!(said.lines().count(), 1, "{said}");
    assert!(said.ends_with('\n'), "{said}");
    assert!(!said.starts_with("super-frame "), "{said}");
}

fn line(superframes: u32) -> String {
    let total = Header::written(superframes).total;
    format!("superframes {superframes} overhead 16 frames 12304 total {total}\n")
}

/// The line file of the code written apart.
fn expected(profile: Profile, payloads: [&[u8]; 2], overhead: &[u8]) -> Vec<u8> {
    let superframes = payloads[0].len() / profile.payload_bytes();
    let header = Header::written(superframes as u32).to_bytes();
    let mut random = Random::new(6_001);
    let sent = send(&REFERENCE, profile, payloads, overhead, &mut random);
    [&header[..], overhead, &sent.frames].concat()
}

/// What `linehead` prints of a file.
fn linehead(path: &Path) -> String {
    let child = Command::new(program("linehead"))
        .stdin(File::open(path).expect("the line file"))
        .stdout(Stdio::piped())
        .stderr(Stdio::piped())
        .spawn()
        .expect("it starts");
    printed(child).out
}

/// A folder with payloads of random bytes, and the line file to expect.
fn filled(profile: Profile, superframes: usize, seed: u64) -> (Room, Vec<u8>) {
    let room = Room::empty(profile);
    let mut random = Random::new(seed);
    let payloads = [0; 2].map(|_| random.bytes(superframes * profile.payload_bytes()));
    let overhead = random.cells(OVERHEAD_BYTES);
    room.put("payload0", &payloads[0]);
    room.put("payload1", &payloads[1]);
    room.put("overhead", &overhead);
    let file = expected(profile, [&payloads[0], &payloads[1]], &overhead);
    (room, file)
}

#[test]
fn the_file_is_that_of_the_code_written_apart() {
    for (profile, superframes) in [(Qam16, 1), (Qam16, 2), (Qam16, 3), (Qpsk, 1), (Qpsk, 2)] {
        let (room, file) = filled(profile, superframes, 6_100 + superframes as u64);
        let inputs = ["payload0", "payload1", "overhead"].map(|name| room.read(name));
        let number = superframes as u32;
        // The second run replaces the file of the first, or any other.
        for before in [None, Some(KEPT)] {
            if let Some(bytes) = before {
                room.put("line", bytes);
            }
            let given = room.run(&NAMES);
            assert_eq!(given.out, line(number));
            assert_eq!(given.said, progress(number));
            assert!(room.read("line") == file);
            assert_eq!(linehead(&room.path("line")), line(number));
            assert_eq!(room.names(), ["line", "overhead", "payload0", "payload1"]);
        }
        for (name, bytes) in NAMES.iter().zip(inputs) {
            assert!(room.read(name) == bytes, "{name}");
        }
    }
}

#[test]
fn the_sample_files() {
    let folder = Path::new(env!("CARGO_MANIFEST_DIR")).join("../examples/line");
    // The payload of one super-frame of 16-QAM is that of two of QPSK.
    for (profile, superframes) in [(Qam16, 1), (Qpsk, 2)] {
        let room = Room::empty(profile);
        let [payload0, payload1, overhead] = ["payload0", "payload1", "overhead"].map(|name| {
            let bytes = fs::read(folder.join(name)).expect("a sample file");
            room.put(name, &bytes);
            bytes
        });
        assert_eq!(room.run(&NAMES).out, line(superframes));
        let file = expected(profile, [&payload0, &payload1], &overhead);
        assert!(room.read("line") == file);
    }
}

#[test]
fn one_file_for_both_payloads_and_a_name_in_another_folder() {
    let (room, _) = filled(Qam16, 1, 6_200);
    let (payload, overhead) = (room.read("payload1"), room.read("overhead"));
    fs::create_dir(room.path("sub folder")).expect("a folder");
    let path = room.path("sub folder").join("a line");
    let name = path.to_str().expect("text");
    let given = room.run(&["payload1", "./payload1", "overhead", name]);
    assert_eq!(given.out, line(1));
    let file = expected(Qam16, [&payload, &payload], &overhead);
    assert!(fs::read(&path).expect("the file") == file);
    assert_eq!(
        room.names(),
        ["overhead", "payload0", "payload1", "sub folder"]
    );
    // As any new file of this process.
    room.put("new", b"");
    let mode = |path: &Path| fs::metadata(path).expect("a file").permissions().mode();
    assert_eq!(mode(&path), mode(&room.path("new")));
}

#[test]
fn files_that_are_not_named_or_cannot_be_opened() {
    let room = Room::of_zeros(Qam16, 1);
    fs::create_dir(room.path("folder")).expect("a folder");
    for count in 0..4 {
        room.assert_refused(&NAMES[..count], 1);
    }
    let long = "n".repeat(5_000);
    for place in 0..4 {
        for other in ["", "folder", "folder/", "overhead/x", "none/line", &long] {
            let mut arguments = NAMES;
            arguments[place] = other;
            room.assert_refused(&arguments, 1);
        }
    }
    for place in 0..3 {
        for other in ["none", "/dev/null", "/dev/zero"] {
            let mut arguments = NAMES;
            arguments[place] = other;
            room.assert_refused(&arguments, 1);
        }
    }
}

/// One word more than the names is `qpsk` or nothing at all: whatever else there is, the usage is said.
#[test]
fn the_word_behind_the_names() {
    let usage = "usage: linemake PAYLOAD0 PAYLOAD1 OVERHEAD LINE [qpsk]\n";
    let room = Room::of_zeros(Qam16, 1);
    let none = ["none", "none", "none", "none/line"];
    for words in WRONG_WORDS {
        for names in [NAMES, none] {
            let all = [&names[..], words].concat();
            assert_eq!(room.why(&all, 1), usage, "{all:?}");
        }
        room.assert_refused(&[&NAMES[..], words].concat(), 1);
    }
    let [p, q, v, l] = NAMES;
    for names in [
        &["qpsk"][..],
        &[p, q, v],
        &[p, q, "qpsk"],
        &["qpsk", p, q, v, l],
        &[p, q, v, "qpsk", l],
    ] {
        assert_eq!(room.why(names, 1), usage, "{names:?}");
        assert_eq!(room.names(), ["overhead", "payload0", "payload1"]);
    }
    // In the place of a name it is a name.
    assert_eq!(room.run(&[p, q, v, "qpsk"]).out, line(1));
    assert_eq!(room.names(), ["overhead", "payload0", "payload1", "qpsk"]);
}

/// The size of a payload file is measured by the run's own profile.
#[test]
fn a_payload_file_of_the_other_profile() {
    let plain = Room {
        folder: Room::of_zeros(Qpsk, 1).folder,
        profile: Qam16,
    };
    let said = plain.why(&NAMES, 1);
    assert_eq!(said, "payload0: 37296 bytes, expected at least 74592\n");
    for superframes in [3, 127, 129] {
        plain.sized("payload0", superframes * payload(Qpsk));
        plain.sized("payload1", superframes * payload(Qpsk));
        let bytes = superframes * payload(Qpsk);
        let said = format!("payload0: {bytes} bytes, expected a multiple of 74592\n");
        assert_eq!(plain.why(&NAMES, 1), said);
    }
    // 64 super-frames of 16-QAM are 128 of QPSK.
    let long = Room {
        folder: Room::of_zeros(Qam16, 64).folder,
        profile: Qpsk,
    };
    let said = long.why(&NAMES, 2);
    assert_eq!(said, "payload0: 128 super-frames, expected at most 64\n");
}

/// A pipe under the given name is no file that could be replaced.
#[test]
fn a_pipe_for_the_line_file() {
    let room = Room::of_zeros(Qam16, 1);
    let made = Command::new("mkfifo").arg(room.path("pipe")).status();
    assert!(made.expect("mkfifo").success());
    room.assert_refused(&["payload0", "payload1", "overhead", "pipe"], 1);
    let kind = fs::metadata(room.path("pipe"))
        .expect("the pipe")
        .file_type();
    assert!(kind.is_fifo());
}

#[test]
fn sizes() {
    for profile in PROFILES {
        let one = payload(profile);
        let room = Room::of_zeros(profile, 2);
        for (first, second) in [
            (0, 0),
            (0, one),
            (one, 0),
            (1, 1),
            (one - 1, one - 1),
            (one + 1, one + 1),
            (one, 2 * one),
            (2 * one, one),
            (one, one + 1),
            (one + 444, one + 444),
            // Beyond 2^32, where a count that begins again would find one super-frame.
            ((1 << 32) + one, (1 << 32) + one),
            ((1 << 32) + one, one),
            // Above 64 super-frames, and misfits as well.
            (65 * one, 66 * one),
            (65 * one, one),
            (65 * one + 1, 65 * one + 1),
        ] {
            room.sized("payload0", first);
            room.sized("payload1", second);
            room.assert_refused(&NAMES, 1);
        }
        for superframes in [65, 66, 1_000, 60_000] {
            room.sized("payload0", superframes * one);
            room.sized("payload1", superframes * one);
            room.assert_refused(&NAMES, 2);
        }
        room.sized("payload0", 2 * one);
        room.sized("payload1", 2 * one);
        for length in [0, 1, 12_287, 12_289, 2 * 12_288] {
            room.sized("overhead", length);
            room.assert_refused(&NAMES, 1);
        }
    }
}

#[test]
fn illegal_bytes_in_the_list() {
    for profile in PROFILES {
        let room = Room::of_zeros(profile, 1);
        let legal = room.read("overhead");
        for (index, byte) in [(0, 16), (1, 255), (443, 128), (6_000, 17), (12_287, 16)] {
            let mut overhead = legal.clone();
            overhead[index] = byte;
            room.put("overhead", &overhead);
            room.assert_refused(&NAMES, 5);
        }
    }
}

/// Two conditions at once: the lower number is printed.
#[test]
fn the_order_of_the_refusals() {
    for profile in PROFILES {
        let nowhere = ["payload0", "payload1", "overhead", "none/line"];
        let room = Room::of_zeros(profile, 65);
        room.assert_refused(&NAMES, 2);
        room.assert_refused(&nowhere, 1);
        room.assert_refused(&NAMES[..3], 1);
        // 2 and 5.
        room.put("overhead", &[16; OVERHEAD_BYTES]);
        room.assert_refused(&NAMES, 2);
        room.assert_refused(&nowhere, 1);
        // 1, 2 and 5.
        room.put("overhead", &[16; OVERHEAD_BYTES + 1]);
        room.assert_refused(&NAMES, 1);
        // 1 and 5.
        room.sized("payload0", payload(profile));
        room.sized("payload1", payload(profile));
        room.assert_refused(&NAMES, 1);
        room.put("overhead", &[16; OVERHEAD_BYTES]);
        room.assert_refused(&NAMES, 5);
        room.assert_refused(&nowhere, 1);
        room.assert_refused(&["payload0", "none", "overhead", "line"], 1);
        room.sized("payload1", payload(profile) - 1);
        room.assert_refused(&NAMES, 1);
    }
}

/// The same 16 MiB of memory in all for 8 super-frames and for 64.
#[test]
fn a_constant_amount_of_memory() {
    for (profile, superframes) in [(Qam16, 8), (Qam16, 64), (Qpsk, 8), (Qpsk, 64)] {
        let room = Room::of_zeros(profile, superframes.into());
        let mut command = room.shell("ulimit -v 16384 &&", &NAMES);
        let given = printed(command.spawn().expect("the shell starts"));
        assert_eq!(given.out, line(superframes));
        assert_eq!(given.said, progress(superframes));
        assert_eq!(linehead(&room.path("line")), line(superframes));
    }
}

/// A file that can grow to half a megabyte and no further.
#[test]
fn a_write_that_fails() {
    let room = Room::of_zeros(Qam16, 2);
    for kept in [false, true] {
        if kept {
            room.put("line", KEPT);
        }
        let before = room.names();
        let limit = "trap '' XFSZ && ulimit -f 1000 &&";
        let mut command = room.shell(limit, &NAMES);
        let given = printed(command.spawn().expect("the shell starts"));
        assert_eq!(given.out, "refused 1\n");
        assert!(given.said.contains("line file: "), "{}", given.said);
        assert_eq!(room.names(), before);
        if kept {
            assert_eq!(room.read("line"), KEPT);
        }
    }
}

/// Sends a signal to a run.
fn signal(child: &Child, name: &str) {
    let kill = format!("kill -{name} {}", child.id());
    let sent = Command::new("sh").args(["-c", &kill]).status();
    assert!(sent.expect("the shell runs").success());
}

/// Waits until a run does nothing any more: stopped, or ended.
fn wait_for_stop(child: &Child) {
    let path = format!("/proc/{}/stat", child.id());
    loop {
        let stat = fs::read_to_string(&path).expect("a child");
        let (_, state) = stat.rsplit_once(") ").expect("its state");
        if state.starts_with(['T', 'Z']) {
            return;
        }
        sleep(Duration::from_millis(1));
    }
}

/// The bytes that a run has written so far, or nothing once its file has the given name.
fn written(room: &Room) -> Option<u64> {
    let names = room.names();
    let beside = names.iter().find(|name| !NAMES.contains(&name.as_str()))?;
    Some(fs::metadata(room.path(beside)).ok()?.len())
}

/// A run over 64 super-frames, stopped between the first one and the middle.
fn begun(room: &Room) -> (Child, BufReader<impl Read>) {
    loop {
        let mut child = room.command(&NAMES).spawn().expect("it starts");
        let mut said = BufReader::new(child.stderr.take().expect("a pipe"));
        let mut first = String::new();
        said.read_line(&mut first).expect("a line");
        assert_eq!(first, "super-frame 1 of 64\n");
        signal(&child, "STOP");
        wait_for_stop(&child);
        if written(room).is_some_and(|length| length < u64::from(Header::written(32).total)) {
            assert!(!room.path("line").exists());
            return (child, said);
        }
        // On a busy machine the signal may come too late: another run.
        child.kill().expect("a child");
        child.wait().expect("it ends");
        for name in room.names() {
            if !NAMES[..3].contains(&name.as_str()) {
                fs::remove_file(room.path(&name)).expect("a file of the run");
            }
        }
    }
}

#[test]
fn a_payload_file_that_becomes_shorter() {
    for name in ["payload0", "payload1"] {
        let room = Room::of_zeros(Qam16, 64);
        let (child, mut said) = begun(&room);
        room.sized(name, payload(Qam16));
        signal(&child, "CONT");
        let mut rest = String::new();
        said.read_to_string(&mut rest).expect("text");
        assert_eq!(printed(child).out, "refused 1\n");
        let why = format!("{name}: the file ended early\n");
        assert!(rest.ends_with(&why), "{rest}");
        assert_eq!(room.names(), ["overhead", "payload0", "payload1"]);
    }
}

/// A run that is ended from outside leaves nothing under the given name, and does not stand in the way of the next.
#[test]
fn a_run_that_is_ended() {
    let room = Room::of_zeros(Qam16, 64);
    let (mut child, _said) = begun(&room);
    child.kill().expect("it runs");
    child.wait().expect("it ends");
    assert!(!room.path("line").exists());
    // What is left has a name by which it can be found and removed.
    let left = room.names();
    let beside: Vec<_> = left
        .iter()
        .filter(|name| !NAMES.contains(&name.as_str()))
        .collect();
    assert!(
        matches!(beside[..], [name] if name.starts_with("line.part-") && name.len() == 16),
        "{left:?}"
    );
    room.sized("payload0", payload(Qam16));
    room.sized("payload1", payload(Qam16));
    assert_eq!(room.run(&NAMES).out, line(1));
}

/// With standard descriptors closed, none of them becomes the line file's.
#[test]
fn closed_standard_descriptors() {
    let (room, file) = filled(Qam16, 1, 6_300);
    for closed in ["<&-", ">&-", "2>&-", ">&- 2>&-", "<&- >&- 2>&-"] {
        let mut command = room.shell(&format!("exec {closed};"), &NAMES);
        printed(command.spawn().expect("the shell starts"));
        assert!(room.read("line") == file, "{closed}");
        assert_eq!(room.names(), ["line", "overhead", "payload0", "payload1"]);
        fs::remove_file(room.path("line")).expect("it is there");
    }
}

/// What standard error says of a refusal, whole.
#[test]
fn why_it_refuses() {
    for profile in PROFILES {
        let one = payload(profile);
        let room = Room::of_zeros(profile, 1);
        fs::create_dir(room.path("folder")).expect("a folder");
        room.sized("short", one - 1);
        room.sized("odd", one + 1);
        room.sized("two", 2 * one);
        room.sized("many", 65 * one);
        let mut list = room.read("overhead");
        list[443] = 16;
        room.put("illegal", &list);
        let long = "n".repeat(5_000);
        let usage = "usage: linemake PAYLOAD0 PAYLOAD1 OVERHEAD LINE [qpsk]";
        let none = "No such file or directory";
        let [p, q, v, l] = NAMES;
        for (arguments, number, why) in [
            (&[][..], 1, usage.into()),
            (&[p, q], 1, usage.into()),
            (&[p, q, v, l, "more"], 1, usage.into()),
            (&["none", q, v, l], 1, format!("none: {none}")),
            (&["none", "gone", "", ""], 1, format!("none: {none}")),
            (&[p, "gone", v, l], 1, format!("gone: {none}")),
            (&["", q, v, l], 1, "argument 1: the name is empty".into()),
            (&[p, q, v, ""], 1, "argument 4: the name is empty".into()),
            (
                &[p, &long, v, l],
                1,
                "argument 2: the name is too long".into(),
            ),
            (
                &[p, q, v, &long],
                1,
                "argument 4: the name is too long".into(),
            ),
            (
                &[p, q, v, &long[..256]],
                1,
                format!("{}: File name too long", &long[..256]),
            ),
            (&["folder", q, v, l], 1, "folder: not a regular file".into()),
            (
                &[p, "/dev/null", v, l],
                1,
                "/dev/null: not a regular file".into(),
            ),
            (
                &["odd", "odd", v, l],
                1,
                format!("odd: {} bytes, expected a multiple of {one}", one + 1),
            ),
            (
                &["short", "short", v, l],
                1,
                format!("short: {} bytes, expected at least {one}", one - 1),
            ),
            (
                &[p, "two", v, l],
                1,
                format!(
                    "two: {} bytes, expected as many as the other payload file has, {one}",
                    2 * one
                ),
            ),
            (
                &[p, q, "two", l],
                1,
                format!("two: {} bytes, expected 12288", 2 * one),
            ),
            (&[p, q, v, "folder"], 1, "folder: Is a directory".into()),
            (&[p, q, v, "folder/"], 1, "folder/: Is a directory".into()),
            (&[p, q, v, "gone/line"], 1, format!("gone/line: {none}")),
            (
                &[p, q, v, "/dev/null"],
                1,
                "/dev/null: not a regular file".into(),
            ),
            (
                &["many", "many", v, l],
                2,
                "many: 65 super-frames, expected at most 64".into(),
            ),
            (
                &[p, q, "illegal", l],
                5,
                "illegal: a byte of 16 or more at index 443".into(),
            ),
        ] {
            assert_eq!(
                room.why(arguments, number),
                format!("{why}\n"),
                "{arguments:?}"
            );
        }
    }
}

/// An input under another name, as the name to write: nothing is touched.
#[test]
fn an_input_as_the_line_file() {
    let room = Room::of_zeros(Qam16, 1);
    let inputs = NAMES[..3].iter().map(|name| room.read(name));
    let inputs: Vec<_> = inputs.collect();
    fs::create_dir(room.path("folder")).expect("a folder");
    fs::hard_link(room.path("payload1"), room.path("hard")).expect("a link");
    symlink("payload1", room.path("soft")).expect("a link");
    symlink("../soft", room.path("folder/again")).expect("a link");
    let whole = room.path("overhead");
    let whole = whole.to_str().expect("text");
    let names = room.names();
    for (name, same) in [
        ("payload0", "PAYLOAD0"),
        ("./payload0", "PAYLOAD0"),
        ("payload1", "PAYLOAD1"),
        ("hard", "PAYLOAD1"),
        ("soft", "PAYLOAD1"),
        ("folder/again", "PAYLOAD1"),
        ("folder/../overhead", "OVERHEAD"),
        (whole, "OVERHEAD"),
    ] {
        let said = room.why(&["payload0", "payload1", "overhead", name], 1);
        assert_eq!(said, format!("{name}: the same file as {same}\n"));
        for (name, bytes) in NAMES.iter().zip(&inputs) {
            assert!(room.read(name) == *bytes, "{name}");
        }
        assert_eq!(room.names(), names);
    }
}

/// The file that a symbolic link leads to is replaced, and the link stays.
#[test]
fn a_symbolic_link_as_the_line_file() {
    let (room, file) = filled(Qam16, 1, 6_400);
    fs::create_dir(room.path("folder")).expect("a folder");
    room.put("folder/kept", KEPT);
    let whole = room.path("folder/whole");
    symlink("folder/kept", room.path("near")).expect("a link");
    symlink("../near", room.path("folder/far")).expect("a link");
    symlink(&whole, room.path("absolute")).expect("a link");
    fs::write(&whole, KEPT).expect("a file");
    for (name, kept) in [
        ("near", "folder/kept"),
        ("folder/far", "folder/kept"),
        ("absolute", "folder/whole"),
    ] {
        room.put(kept, KEPT);
        let text = fs::read_link(room.path(name)).expect("a link");
        assert_eq!(
            room.run(&["payload0", "payload1", "overhead", name]).out,
            line(1)
        );
        assert_eq!(fs::read_link(room.path(name)).expect("the link"), text);
        assert!(room.read(kept) == file, "{name}");
        let names = fs::read_dir(room.path("folder")).expect("a folder").count();
        assert_eq!(names, 3);
    }
    // A link that leads nowhere, to itself, to a folder, to a device.
    symlink("none", room.path("dangling")).expect("a link");
    symlink("round", room.path("round")).expect("a link");
    symlink("folder", room.path("inside")).expect("a link");
    symlink("/dev/null", room.path("device")).expect("a link");
    for (name, why) in [
        (
            "dangling",
            "dangling: a symbolic link to a file that is not there",
        ),
        ("round", "round: Too many levels of symbolic links"),
        ("inside", "folder: Is a directory"),
        ("device", "/dev/null: not a regular file"),
    ] {
        let names = room.names();
        let said = room.why(&["payload0", "payload1", "overhead", name], 1);
        assert_eq!(said, format!("{why}\n"));
        assert!(fs::read_link(room.path(name)).is_ok(), "{name}");
        assert_eq!(room.names(), names);
    }
}

/// The mode of a file that is replaced stays.
#[test]
fn the_mode_of_a_file_that_is_replaced() {
    let (room, file) = filled(Qam16, 1, 6_500);
    for mode in [0o600, 0o640, 0o666, 0o755] {
        room.put("line", KEPT);
        room.set_mode("line", mode);
        assert_eq!(room.run(&NAMES).out, line(1));
        assert!(room.read("line") == file);
        assert_eq!(room.mode("line"), mode);
    }
}

/// Files that this user may not read or write, and a folder where it may make none. The super-user may do all of it, so there the
/// program runs as another user.
#[test]
fn files_that_are_not_permitted() {
    const OTHER: u32 = 65_534;
    let room = Room::of_zeros(Qam16, 1);
    fs::copy(program("linemake"), room.path("linemake")).expect("a copy");
    room.put("line", KEPT);
    room.put("secret", KEPT);
    fs::create_dir(room.path("folder")).expect("a folder");
    let privileged = fs::metadata("/proc/self").expect("itself").uid() == 0;
    room.set_mode("linemake", 0o755);
    room.set_mode("line", 0o444);
    room.set_mode("secret", 0o000);
    room.set_mode("folder", 0o555);
    if privileged {
        for path in [
            room.folder().to_path_buf(),
            room.path("line"),
            room.path("secret"),
            room.path("folder"),
        ] {
            chown(path, Some(OTHER), Some(OTHER)).expect("another owner");
        }
    }
    for (arguments, name) in [
        (["secret", "payload1", "overhead", "new"], "secret"),
        (["payload0", "payload1", "overhead", "line"], "line"),
        (
            ["payload0", "payload1", "overhead", "folder/line"],
            "folder/line",
        ),
    ] {
        let mut command = Command::new(room.path("linemake"));
        command.args(arguments);
        if privileged {
            command.uid(OTHER).gid(OTHER);
        }
        let given = printed(room.piped(command).spawn().expect("it starts"));
        assert_eq!(given.out, "refused 1\n");
        assert_eq!(given.said, format!("{name}: Permission denied\n"));
    }
    assert_eq!(room.mode("line"), 0o444);
    assert_eq!(room.read("line"), KEPT);
    room.set_mode("folder", 0o755);
}

/// Standard output that cannot be written is reported, and the file is there.
#[test]
fn no_room_for_the_output() {
    let (room, file) = filled(Qam16, 1, 6_600);
    let mut command = room.shell("exec >/dev/full;", &NAMES);
    let given = printed(command.spawn().expect("the shell starts"));
    let why = "standard output: No space left on device\n";
    assert_eq!(given.said, format!("{}{why}", progress(1)));
    assert!(room.read("line") == file);
    let mut command = room.shell("exec >/dev/full;", &NAMES[..3]);
    let given = printed(command.spawn().expect("the shell starts"));
    assert!(given.said.ends_with(why), "{}", given.said);
}

/// A megabyte of stack, its arguments and environment included, is enough.
#[test]
fn stack() {
    for profile in PROFILES {
        let (room, file) = filled(profile, 2, 6_700);
        let mut command = room.shell("ulimit -s 976 &&", &NAMES);
        let given = printed(command.env_clear().spawn().expect("the shell starts"));
        assert_eq!(given.out, line(2));
        assert!(room.read("line") == file);
    }
}
