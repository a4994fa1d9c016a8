//! `ofec_open_line`, `ofec_read_line` and `ofec_write_header` against the reference.

use ofec_tests::capi;
use ofec_tests::compare::{compare, compare_refused, refused_beyond_32_bits};
use ofec_tests::line_file::{self, Header, HEADER_BYTES, SUPERFRAME_BYTES};
use ofec_tests::outcome::{Line, Outcome, BAD_HEADER, MISFIT, NO_SUCH_FRAME};
use ofec_tests::random::Random;

/// A file of zeros behind a header, one byte too many in front and behind.
struct File {
    bytes: Vec<u8>,
}

impl File {
    fn new(header: Header, length: usize) -> Self {
        let mut bytes = vec![0; length + 2];
        let common = length.min(HEADER_BYTES);
        bytes[1..1 + common].copy_from_slice(&header.to_bytes()[..common]);
        File { bytes }
    }

    /// A file as long as its header says.
    fn of(header: Header) -> Self {
        File::new(header, header.total as usize)
    }

    fn lent(&self) -> &[u8] {
        &self.bytes[1..self.bytes.len() - 1]
    }

    /// The numbers of the open file, or the refusal, the same on both sides.
    fn open(&self) -> Line {
        let line = Line::from(capi::open_line(self.lent()));
        assert_eq!(line, line_file::open_line(self.lent()));
        line
    }

    /// The same on both sides.
    fn read(&self, line: Line, superframe: u32, subframe: u32) -> Outcome {
        let answer = capi::read_line(self.lent(), line.into(), superframe, subframe);
        let outcome = Outcome::from(answer);
        let expected = line_file::read_line(self.lent(), line, superframe, subframe);
        assert_eq!(outcome, expected);
        outcome
    }

    /// Opening is refused, and so is reading with the numbers of this header, whatever the frame.
    fn assert_refused(&self, refusal: u32, header: Header) {
        assert_eq!(self.open(), Line::refused(refusal), "{header:?}");
        for line in [header.line(), Line::refused(0)] {
            for frame in [0, 47, 48, u32::MAX] {
                for superframe in [0, 64, u32::MAX] {
                    let outcome = self.read(line, superframe, frame);
                    assert_eq!(outcome, Outcome::refused(refusal), "{header:?}");
                }
            }
        }
    }
}

fn stretch(index: u64) -> Outcome {
    Outcome {
        refusal: 0,
        value: 7_424,
        index,
    }
}

/// Headers that keep every rule: as a writer makes them, with gaps, with any number of super-frames.
fn good_headers(random: &mut Random) -> Vec<Header> {
    let mut headers = Vec::new();
    for superframes in [1, 2, 3, 63, 64] {
        headers.push(Header::written(superframes));
        headers.push(Header::with_sum(superframes, 17, 12_305));
        headers.push(Header::with_sum(superframes, 16, 12_305));
        headers.push(Header::with_sum(superframes, 65_536, 131_072));
    }
    for _ in 0..20 {
        let superframes = random.between(1, 65) as u32;
        let overhead = random.between(16, 100_000) as u32;
        let frames = overhead + 12_288 + random.between(0, 100_000) as u32;
        headers.push(Header::with_sum(superframes, overhead, frames));
    }
    headers
}

#[test]
fn every_sub_frame_has_its_stretch() {
    let mut random = Random::new(4_000);
    for header in good_headers(&mut random) {
        let file = File::of(header);
        let line = file.open();
        assert_eq!(line, header.line());
        for superframe in 0..header.superframes {
            for subframe in 0..48 {
                let start = u64::from(header.frames)
                    + 356_352 * u64::from(superframe)
                    + 7_424 * u64::from(subframe);
                assert_eq!(file.read(line, superframe, subframe), stretch(start));
            }
        }
        let last = file.read(line, header.superframes - 1, 47);
        assert_eq!(last.index + 7_424, u64::from(header.total));
    }
}

#[test]
fn no_such_frame() {
    let mut random = Random::new(4_100);
    let mut large = vec![48, 49, 255, 256, 65_536, 0x7fff_ffff, 0x8000_0000, u32::MAX];
    large.extend((0..10).map(|_| random.next_u64() as u32 | 64));
    for header in good_headers(&mut random) {
        let file = File::of(header);
        let line = file.open();
        let refused = Outcome::refused(NO_SUCH_FRAME);
        for &number in &large {
            assert_eq!(file.read(line, 0, number), refused);
            assert_eq!(file.read(line, number, number), refused);
            if number >= header.superframes {
                assert_eq!(file.read(line, number, 47), refused);
            }
        }
        assert_eq!(file.read(line, header.superframes, 0), refused);
        assert_eq!(file.read(line, header.superframes, 48), refused);
    }
}

#[test]
fn bench_values_of_superframes() {
    for (superframes, refused) in [(0, true), (1, false), (64, false), (65, true)] {
        let header = Header::with_sum(superframes, 16, 12_304);
        let file = File::of(header);
        if refused {
            file.assert_refused(BAD_HEADER, header);
        } else {
            assert_eq!(file.open(), header.line());
        }
    }
}

/// Headers that break one rule, on a file as long as their total says.
fn broken_headers() -> Vec<Header> {
    let mut headers = Vec::new();
    for good in [
        Header::written(1),
        Header::written(64),
        Header::with_sum(2, 20, 12_400),
    ] {
        let Header {
            superframes,
            overhead,
            frames,
            total,
        } = good;
        for n in [0, 65, 66, 128, 256, 257] {
            headers.push(Header::with_sum(n, overhead, frames));
        }
        for o in [0, 1, 8, 15] {
            headers.push(Header::with_sum(superframes, o, frames));
        }
        for f in [0, 16, overhead, 12_287, overhead + 12_287] {
            headers.push(Header::with_sum(superframes, overhead, f));
        }
        for o in [frames - 12_287, frames, u32::MAX] {
            headers.push(Header::with_sum(superframes, o, frames));
        }
        for t in [total - 1, total + 1, total - 7_424, total + 356_352, 16] {
            headers.push(Header { total: t, ..good });
        }
    }
    headers
}

#[test]
fn each_header_rule_broken() {
    for header in broken_headers() {
        File::of(header).assert_refused(BAD_HEADER, header);
    }
}

#[test]
fn total_is_the_length_of_the_file() {
    let mut random = Random::new(4_200);
    for header in good_headers(&mut random) {
        let total = header.total as usize;
        for length in [16, 17, total - 7_424, total - 1, total + 1, 2 * total] {
            File::new(header, length).assert_refused(BAD_HEADER, header);
        }
    }
}

#[test]
fn files_under_16_bytes_are_misfits() {
    for length in 0..16 {
        for header in [Header::written(1), Header::written(0)] {
            File::new(header, length).assert_refused(MISFIT, header);
            let short = Header {
                total: length as u32,
                ..header
            };
            File::new(short, length).assert_refused(MISFIT, short);
        }
    }
    for header in [Header::written(1), Header::written(0)] {
        let short = Header {
            total: 16,
            ..header
        };
        File::new(short, 16).assert_refused(BAD_HEADER, short);
    }
}

/// Sums that keep the rules when cut to 32 bits.
#[test]
fn sums_do_not_wrap() {
    let mut random = Random::new(4_300);
    let turn = 1u64 << 32;
    for superframes in [1, 2, 64] {
        let body = SUPERFRAME_BYTES * u64::from(superframes);
        // The total: f + 356,352×n is 2^32 and the length of a short file.
        for length in [
            16,
            17,
            7_424,
            12_304,
            body - 1,
            random.between(16, 300_000) as u64,
        ] {
            let frames = (turn + length - body) as u32;
            for overhead in [16, random.between(16, 1_000_000) as u32, frames - 12_288] {
                let header = Header::with_sum(superframes, overhead, frames);
                assert_eq!(u64::from(header.total), length);
                File::of(header).assert_refused(BAD_HEADER, header);
            }
        }
        // The list: o + 12,288 is 2^32 and a small number.
        for overhead in [0xffff_d000, 0xffff_d010, 0xffff_fff0, u32::MAX] {
            for frames in [12_304, 20_000, overhead.wrapping_add(12_288)] {
                let header = Header::with_sum(superframes, overhead, frames);
                File::of(header).assert_refused(BAD_HEADER, header);
            }
        }
    }
    // 356,352 is 87×2^12: n and n + 2^20 give the same total when it is cut to 32 bits.
    for superframes in [0x0010_0001, 0x0010_0040, 0x8000_0001, 0xfff0_0001] {
        let header = Header::with_sum(superframes, 16, 12_304);
        assert!(header.total <= Header::written(64).total);
        File::of(header).assert_refused(BAD_HEADER, header);
    }
}

/// Offsets as large as a total of 32 bits allows. The file takes no memory: it is never written
/// behind its header.
#[test]
fn files_of_almost_and_of_more_than_4_gib() {
    let frames = u32::MAX - 356_352;
    for overhead in [16, 0x8000_0000, frames - 12_288] {
        let header = Header::with_sum(1, overhead, frames);
        assert_eq!(header.total, u32::MAX);
        let file = File::of(header);
        assert_eq!(file.open(), header.line());
        assert_eq!(file.read(header.line(), 0, 0), stretch(u64::from(frames)));
        let last = u64::from(u32::MAX) - 7_424;
        assert_eq!(file.read(header.line(), 0, 47), stretch(last));
    }
    // 2^32 bytes more than the total says.
    for header in [Header::written(1), Header::with_sum(1, 16, frames)] {
        let file = File::new(header, header.total as usize + (1 << 32));
        file.assert_refused(BAD_HEADER, header);
    }
    // One more than 32 bits can say, which is 2^32 and the total cut to 32 bits.
    let header = Header::with_sum(1, 16, frames + 1);
    let file = File::new(header, 1 << 32);
    file.assert_refused(BAD_HEADER, header);
}

#[test]
fn numbers_that_differ_from_the_bytes_are_a_bad_header() {
    let mut random = Random::new(4_400);
    for header in good_headers(&mut random) {
        let file = File::of(header);
        let line = header.line();
        let any = random.next_u64() as u32 | 1 << 20;
        for number in [0, 1, 2, 16, 64, 65, 12_304, header.total, any, u32::MAX] {
            for (changed, own) in [
                (
                    Line {
                        superframes: number,
                        ..line
                    },
                    line.superframes,
                ),
                (
                    Line {
                        overhead: number,
                        ..line
                    },
                    line.overhead,
                ),
                (
                    Line {
                        frames: number,
                        ..line
                    },
                    line.frames,
                ),
            ] {
                if number != own {
                    // Before refusal 4, and where the frame would be there.
                    for (superframe, subframe) in [(0, 0), (0, 48), (64, 0), (u32::MAX, 47)] {
                        let outcome = file.read(changed, superframe, subframe);
                        assert_eq!(outcome, Outcome::refused(BAD_HEADER));
                    }
                }
            }
        }
        for bit in 0..32 {
            for changed in [
                Line {
                    superframes: line.superframes ^ 1 << bit,
                    ..line
                },
                Line {
                    overhead: line.overhead ^ 1 << bit,
                    ..line
                },
                Line {
                    frames: line.frames ^ 1 << bit,
                    ..line
                },
            ] {
                assert_eq!(file.read(changed, 0, 0), Outcome::refused(BAD_HEADER));
            }
        }
        // Numbers that keep the rules by themselves, but are not those of the file.
        for superframes in [1, 63, 64] {
            let changed = Header::written(superframes).line();
            if changed != line {
                let outcome = file.read(changed, 0, 0);
                assert_eq!(outcome, Outcome::refused(BAD_HEADER));
            }
        }
    }
}

#[test]
fn random_headers() {
    let mut random = Random::new(4_500);
    let mut opened = 0;
    for _ in 0..3_000 {
        let mut header = Header::with_sum(
            random.between(0, 4) as u32,
            random.between(12, 24) as u32,
            random.between(12_300, 12_320) as u32,
        );
        let mut length = header.total as usize;
        match random.between(0, 8) {
            0 => header.total -= 1,
            1 => header.total += 1,
            2 => length -= 1,
            3 => length += 1,
            _ => {}
        }
        let file = File::new(header, length);
        opened += u32::from(file.open().refusal == 0);
        let superframe = random.between(0, 4) as u32;
        let subframe = random.between(40, 52) as u32;
        file.read(header.line(), superframe, subframe);
    }
    assert!(opened > 200, "{opened}");
}

#[test]
fn files_are_only_read() {
    let mut random = Random::new(4_600);
    for round in 0..20 {
        let header = Header::with_sum(round % 4, 15 + round % 3, 12_320);
        let mut file = random.bytes(header.total as usize);
        file[..HEADER_BYTES].copy_from_slice(&header.to_bytes());
        let lent = [&file[..]];
        let (_, [opened]) = compare(
            lent,
            |[file]| capi::open_line(file),
            |[file]| line_file::open_line(file),
        );
        let (_, [read]) = compare(
            lent,
            |[file]| capi::read_line(file, header.line().into(), 0, round),
            |[file]| line_file::read_line(file, header.line(), 0, round),
        );
        assert!(opened == file && read == file);
    }
}

#[test]
fn headers_are_written_for_1_to_64_super_frames() {
    let mut random = Random::new(4_700);
    let mut numbers: Vec<u32> = (0..=130).collect();
    numbers.extend([
        255,
        256,
        257,
        320,
        65_536,
        65_537,
        0x7fff_ffff,
        0x8000_0001,
        u32::MAX,
    ]);
    numbers.extend((0..50).map(|_| random.next_u64() as u32));
    for superframes in numbers {
        let library = |[header]: [&mut [u8]; 1]| capi::write_header(superframes, header);
        let reference = |[header]: [&mut [u8]; 1]| line_file::write_header(superframes, header);
        let lent = random.bytes(HEADER_BYTES);
        if (1..=64).contains(&superframes) {
            let (outcome, [header]) = compare([&lent[..]], library, reference);
            assert_eq!(outcome, Outcome::accepted(0));
            let total = 12_304 + 356_352 * superframes;
            let numbers = [superframes, 16, 12_304, total].map(u32::to_be_bytes);
            assert_eq!(header, numbers.concat());
        } else {
            let refused = Outcome::refused(BAD_HEADER);
            compare_refused(refused, [&lent[..]], library, reference);
        }
        // Misfit comes before the number.
        for length in (0..=40).chain([255, 272, 65_552]) {
            if length != HEADER_BYTES {
                let lent = random.bytes(length);
                let refused = Outcome::refused(MISFIT);
                compare_refused(refused, [&lent[..]], library, reference);
            }
        }
    }
    for superframes in [1, 65] {
        refused_beyond_32_bits(Outcome::refused(MISFIT), [HEADER_BYTES], |[header]| {
            capi::write_header(superframes, header)
        });
    }
}

/// The example of the scope paper.
#[test]
fn header_of_one_super_frame() {
    let mut header = [0; HEADER_BYTES];
    let outcome = Outcome::from(capi::write_header(1, &mut header));
    assert_eq!(outcome, Outcome::accepted(0));
    let example = [0, 0, 0, 1, 0, 0, 0, 16, 0, 0, 0x30, 0x10, 0, 5, 0xa0, 0x10];
    assert_eq!(header, example);
    let mut file = vec![0; 368_656];
    file[..HEADER_BYTES].copy_from_slice(&example);
    let line = Line {
        refusal: 0,
        superframes: 1,
        overhead: 16,
        frames: 12_304,
    };
    assert_eq!(Line::from(capi::open_line(&file)), line);
    let outcome = Outcome::from(capi::read_line(&file, line.into(), 0, 1));
    assert_eq!(outcome, stretch(12_304 + 7_424));
}
