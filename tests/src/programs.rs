//! The programs under test, as `.ci/build` leaves them, and what their tests share.

use std::fs;
use std::path::{Path, PathBuf};
use std::process::Output;
use std::sync::atomic::{AtomicU32, Ordering};

use crate::profile::Profile;

pub fn program(name: &str) -> PathBuf {
    let program = Path::new(env!("CARGO_MANIFEST_DIR"))
        .join("../target/bin")
        .join(name);
    assert!(
        program.is_file(),
        "{} is missing: run `bash .ci/build programs` first",
        program.display()
    );
    program
}

/// What a run printed.
#[derive(Debug)]
pub struct Printed {
    pub out: String,
    pub said: String,
}

impl Printed {
    /// Of a run that ended with status 0, as every run of a program does.
    pub fn of(output: Output) -> Self {
        assert_eq!(output.status.code(), Some(0), "{}", output.status);
        let text = |bytes| String::from_utf8(bytes).expect("text");
        Printed {
            out: text(output.stdout),
            said: text(output.stderr),
        }
    }
}

/// The arguments of `linemake` or `linereceive` for this profile: the names, and one word more for QPSK.
pub fn arguments<'a>(profile: Profile, names: &[&'a str]) -> Vec<&'a str> {
    let word: &[&str] = match profile {
        Profile::Qam16 => &[],
        Profile::Qpsk => &["qpsk"],
    };
    [names, word].concat()
}

/// Words that may not stand behind all the names.
pub const WRONG_WORDS: [&[&str]; 12] = [
    &[""],
    &["more"],
    &["QPSK"],
    &["Qpsk"],
    &["qam16"],
    &["qps"],
    &["qpskk"],
    &["qpsk "],
    &[" qpsk"],
    &["qpsk", "qpsk"],
    &["qpsk", ""],
    &["more", "qpsk"],
];

/// What a program says of its progress over so many super-frames.
pub fn progress(superframes: u32) -> String {
    (1..=superframes)
        .map(|done| format!("super-frame {done} of {superframes}\n"))
        .collect()
}

/// A folder of its own, removed at the end.
pub struct Folder(PathBuf);

impl Drop for Folder {
    fn drop(&mut self) {
        let _ = fs::remove_dir_all(&self.0);
    }
}

impl Folder {
    pub fn empty(label: &str) -> Self {
        static NUMBER: AtomicU32 = AtomicU32::new(0);
        let number = NUMBER.fetch_add(1, Ordering::Relaxed);
        let name = format!("ofec-{label}-{}-{number}", std::process::id());
        let folder = std::env::temp_dir().join(name);
        fs::create_dir(&folder).expect("a temporary folder");
        Folder(folder)
    }

    pub fn folder(&self) -> &Path {
        &self.0
    }

    pub fn path(&self, name: &str) -> PathBuf {
        self.0.join(name)
    }

    pub fn put(&self, name: &str, bytes: &[u8]) {
        fs::write(self.path(name), bytes).expect("a file is written");
    }

    pub fn read(&self, name: &str) -> Vec<u8> {
        fs::read(self.path(name)).expect("a file is read")
    }

    /// The names in the folder, in order.
    pub fn names(&self) -> Vec<String> {
        let entries = fs::read_dir(&self.0).expect("the folder is read");
        let mut names: Vec<_> = entries
            .map(|entry| entry.expect("an entry").file_name())
            .map(|name| name.into_string().expect("text"))
            .collect();
        names.sort();
        names
    }
}
