//! Line files made from payload files, by `linemake` and by the code written apart.

use std::fs;
use std::path::{Path, PathBuf};
use std::process::Command;

use ofec_tests::cells::bits_to_cells;
use ofec_tests::chain::sending::numbered;
use ofec_tests::frames::{frame, payload_bytes, FRAME_BYTES, OVERHEAD_BYTES};
use ofec_tests::interleaver::{interleave, BUFFER_BYTES, PAIRS_BYTES};
use ofec_tests::line_file::Header;
use ofec_tests::profile::Profile;
use ofec_tests::random::Random;
use ofec_tests::rows::{encode_pair, PAIR_BYTES};

use crate::rows::encode_all;

/// The profile of these line files.
const PROFILE: Profile = Profile::Qam16;

/// A program of target/bin, if it is built.
pub fn program(name: &str) -> Option<PathBuf> {
    let path = Path::new(env!("CARGO_MANIFEST_DIR"))
        .join("../target/bin")
        .join(name);
    path.is_file().then_some(path)
}

/// The files of so many super-frames, in a folder of their own that is removed with them.
pub struct Files {
    folder: PathBuf,
    superframes: usize,
}

impl Files {
    /// Writes random payloads and a random legal overhead list.
    pub fn new(superframes: usize, random: &mut Random) -> Self {
        let name = format!("ofec-bench-{}-{superframes}", std::process::id());
        let files = Files {
            folder: std::env::temp_dir().join(name),
            superframes,
        };
        fs::create_dir_all(&files.folder).expect("a temporary folder");
        for name in ["payload0", "payload1"] {
            let payload = random.bytes(superframes * PROFILE.payload_bytes());
            fs::write(files.path(name), payload).expect("a payload file");
        }
        fs::write(files.path("overhead"), random.cells(OVERHEAD_BYTES)).expect("the overhead list");
        files
    }

    fn path(&self, name: &str) -> PathBuf {
        self.folder.join(name)
    }

    /// Writes a file of this folder, and gives its path.
    pub fn put(&self, name: &str, bytes: &[u8]) -> PathBuf {
        let path = self.path(name);
        fs::write(&path, bytes).expect("a file of this folder");
        path
    }

    pub fn read(&self, name: &str) -> Vec<u8> {
        fs::read(self.path(name)).expect("a file of this folder")
    }

    /// `linemake` on these files.
    pub fn command(&self, linemake: &Path) -> Command {
        let mut command = Command::new(linemake);
        command.args(["payload0", "payload1", "overhead", "line"].map(|name| self.path(name)));
        command
    }

    pub fn make_by_program(&self, linemake: &Path) {
        let output = self.command(linemake).output().expect("linemake runs");
        assert!(output.status.success(), "{output:?}");
    }

    /// The same line file by the code written apart, from file to file.
    pub fn make_apart(&self) {
        let overhead = self.read("overhead");
        let [coded0, coded1] = ["payload0", "payload1"].map(|name| {
            let mut coded = vec![0; self.superframes * PROFILE.pairs() * PAIR_BYTES];
            encode_all(encode_pair, &self.read(name), &mut coded);
            coded
        });
        let mut cells = vec![0; self.superframes * PROFILE.buffers() * PROFILE.cells_bytes()];
        let pairs = coded0.chunks(PAIRS_BYTES).zip(coded1.chunks(PAIRS_BYTES));
        for ((pairs0, pairs1), place) in pairs.zip(cells.chunks_mut(PROFILE.cells_bytes())) {
            let mut bits = [0; BUFFER_BYTES];
            interleave(pairs0, pairs1, &mut bits);
            bits_to_cells(PROFILE, &bits, place);
        }
        let mut line = Header::written(self.superframes as u32).to_bytes().to_vec();
        line.extend(&overhead);
        let mut rest = &cells[..];
        for number in numbered(self.superframes) {
            let payload;
            (payload, rest) = rest.split_at(payload_bytes(number));
            let mut place = [0; FRAME_BYTES];
            frame(PROFILE, number, payload, &overhead, &mut place);
            line.extend(place);
        }
        fs::write(self.path("line-apart"), line).expect("a line file");
    }

    pub fn assert_same(&self) {
        assert!(self.read("line") == self.read("line-apart"));
    }
}

impl Drop for Files {
    fn drop(&mut self) {
        // Files left behind in a temporary folder do no harm.
        let _ = fs::remove_dir_all(&self.folder);
    }
}
