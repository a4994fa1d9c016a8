//! `linemake`, from file to file, and `linehead`.

use std::fs::File;
use std::process::Command;

use ofec_tests::line_file::Header;
use ofec_tests::random::Random;

use crate::files::{program, Files};
use crate::table::row;

const SUPERFRAMES: usize = 8;
/// The most that a line file can have.
const MOST_SUPERFRAMES: u32 = 64;

pub fn run(random: &mut Random) {
    linemake(random);
    linehead(random);
}

fn linemake(random: &mut Random) {
    let Some(linemake) = program("linemake") else {
        println!("\nlinemake is not built (target/bin/linemake): its rows are left out.");
        return;
    };
    let files = Files::new(SUPERFRAMES, random);
    let by_program = |_: &mut ()| files.make_by_program(&linemake);
    let apart = |_: &mut ()| files.make_apart();
    let name = "linemake, n = 8, files read and written";
    row(name, (), [&by_program, &apart]);
    files.assert_same();
}

fn linehead(random: &mut Random) {
    let Some(linehead) = program("linehead") else {
        println!("\nlinehead is not built (target/bin/linehead): its row is left out.");
        return;
    };
    let files = Files::new(0, random);
    let header = Header::written(MOST_SUPERFRAMES);
    let mut line = header.to_bytes().to_vec();
    line.resize(header.total as usize, 0);
    let path = files.put("line", &line);
    let expected = format!(
        "superframes {MOST_SUPERFRAMES} overhead 16 frames 12304 total {}\n",
        header.total
    );
    let by_program = |_: &mut ()| {
        let output = Command::new(&linehead)
            .stdin(File::open(&path).expect("the line file"))
            .output()
            .expect("linehead runs");
        assert_eq!(output.stdout, expected.as_bytes());
    };
    row("linehead, n = 64, 22,818,832 bytes", (), [&by_program]);
}
