//! `ofec_bits_to_cells`, `ofec_cells_to_bits` and their QPSK twins against the reference: answer and every
//! buffer.

use ofec_tests::cells::{self, is_legal, legal_bytes, GRID};
use ofec_tests::compare::{compare, compare_refused, misfits, refused_beyond_32_bits};
use ofec_tests::interleaver::BUFFER_BYTES;
use ofec_tests::library;
use ofec_tests::outcome::{Outcome, MISFIT};
use ofec_tests::profile::{Profile, PROFILES};
use ofec_tests::random::Random;

fn to_cells_lengths(profile: Profile) -> [usize; 2] {
    [BUFFER_BYTES, profile.cells_bytes()]
}

fn to_bits_lengths(profile: Profile) -> [usize; 2] {
    [profile.cells_bytes(), BUFFER_BYTES]
}

/// The cells that stand after the call, the same on both sides.
fn bits_to_cells(profile: Profile, bits: &[u8], random: &mut Random) -> Vec<u8> {
    let (outcome, [_, cells]) = compare(
        [bits, &random.bytes(profile.cells_bytes())],
        |[bits, cells]| library::bits_to_cells(profile, bits, cells),
        |[bits, cells]| cells::bits_to_cells(profile, bits, cells),
    );
    assert_eq!(outcome, Outcome::accepted(0));
    cells
}

/// The bits that stand after the call, the same on both sides.
fn cells_to_bits(profile: Profile, cells: &[u8], random: &mut Random) -> Vec<u8> {
    let (outcome, [_, bits]) = compare(
        [cells, &random.bytes(BUFFER_BYTES)],
        |[cells, bits]| library::cells_to_bits(profile, cells, bits),
        |[cells, bits]| cells::cells_to_bits(profile, cells, bits),
    );
    assert_eq!(outcome, Outcome::accepted(0));
    bits
}

fn refused_cells_to_bits(profile: Profile, refused: Outcome, cells: &[u8], bits: &[u8]) {
    compare_refused(
        refused,
        [cells, bits],
        |[cells, bits]| library::cells_to_bits(profile, cells, bits),
        |[cells, bits]| cells::cells_to_bits(profile, cells, bits),
    );
}

/// Worked out by hand. For QPSK: 0x1B is the symbols 0001 and 1011, and the others have every pair of levels
/// in X and in Y.
#[test]
fn bench_values_of_bytes_to_cells() {
    let mut random = Random::new(2_000);
    let qam16: &[(u8, &[u8])] = &[
        (255, &[10, 10]),
        (128, &[12, 0]),
        (8, &[3, 0]),
        (1, &[0, 1]),
    ];
    let qpsk: &[(u8, &[u8])] = &[
        (0x1b, &[5, 6, 10, 6]),
        (0x00, &[5, 5, 5, 5]),
        (0x28, &[6, 5, 9, 5]),
        (0xa1, &[10, 5, 5, 6]),
        (0x45, &[5, 9, 5, 10]),
        (0xff, &[10, 10, 10, 10]),
    ];
    for (profile, values) in [(Profile::Qam16, qam16), (Profile::Qpsk, qpsk)] {
        for &(byte, cells) in values {
            let bits = vec![byte; BUFFER_BYTES];
            let cells = cells.repeat(profile.cells_bytes() / cells.len());
            assert!(bits_to_cells(profile, &bits, &mut random) == cells);
            assert!(cells_to_bits(profile, &cells, &mut random) == bits);
        }
    }
}

#[test]
fn every_byte_and_every_legal_cell() {
    let mut random = Random::new(2_100);
    let bits: Vec<u8> = (0..=255).collect::<Vec<u8>>().repeat(BUFFER_BYTES / 256);
    for profile in PROFILES {
        let cells = bits_to_cells(profile, &bits, &mut random);
        assert!(cells.iter().all(|&byte| is_legal(profile, byte)));
        assert!(cells_to_bits(profile, &cells, &mut random) == bits);

        let legal = legal_bytes(profile);
        let cells: Vec<u8> = legal
            .iter()
            .flat_map(|&x| legal.iter().flat_map(move |&y| [x, y]))
            .collect();
        let cells = cells.repeat(profile.cells_bytes() / cells.len());
        let bits = cells_to_bits(profile, &cells, &mut random);
        assert!(bits_to_cells(profile, &bits, &mut random) == cells);
    }
}

#[test]
fn random_buffers_there_and_back() {
    for profile in PROFILES {
        let mut random = Random::new(2_200);
        for _ in 0..50 {
            let bits = random.bytes(BUFFER_BYTES);
            let cells = bits_to_cells(profile, &bits, &mut random);
            assert!(cells_to_bits(profile, &cells, &mut random) == bits);

            let cells = random.payload(profile, profile.cells_bytes());
            let bits = cells_to_bits(profile, &cells, &mut random);
            assert!(bits_to_cells(profile, &bits, &mut random) == cells);
        }
    }
}

#[test]
fn illegal_bytes_are_refused_at_the_first_of_them() {
    for profile in PROFILES {
        let mut random = Random::new(2_300);
        let end = profile.cells_bytes();
        let legal = random.payload(profile, end);
        let bits = random.bytes(BUFFER_BYTES);
        // Every illegal byte, alone at any place and at both ends.
        for byte in (0..=255).filter(|&byte| !is_legal(profile, byte)) {
            for index in [random.between(0, end), 0, end - 1] {
                let mut cells = legal.clone();
                cells[index] = byte;
                refused_cells_to_bits(profile, Outcome::off_grid(index), &cells, &bits);
            }
        }
        // At the ends, in X and in Y, with others behind it.
        let ends = [0, 1, 2, 3, 255, 256, 32_767, 32_768];
        let ends = ends.into_iter().chain(end - 4..end);
        let anywhere: Vec<_> = (0..200).map(|_| random.between(0, end)).collect();
        for index in ends.chain(anywhere) {
            let mut cells = legal.clone();
            cells[index] = random.illegal(profile);
            for _ in 0..random.between(0, 4) {
                let behind = random.between(index, end);
                cells[behind] = random.illegal(profile);
            }
            refused_cells_to_bits(profile, Outcome::off_grid(index), &cells, &bits);
        }
        refused_cells_to_bits(profile, Outcome::off_grid(0), &vec![255; end], &bits);
    }
}

/// Of the legal bytes of 16-QAM, QPSK has those four whose levels are both -1 or 1.
#[test]
fn levels_of_3_are_refused_in_qpsk_alone() {
    let mut random = Random::new(2_350);
    let legal = random.payload(Profile::Qpsk, Profile::Qpsk.cells_bytes());
    for byte in 0..GRID {
        let index = random.between(0, legal.len());
        let mut cells = legal.clone();
        cells[index] = byte;
        if [5, 6, 9, 10].contains(&byte) {
            cells_to_bits(Profile::Qpsk, &cells, &mut random);
        } else {
            let bits = random.bytes(BUFFER_BYTES);
            let refused = Outcome::off_grid(index);
            refused_cells_to_bits(Profile::Qpsk, refused, &cells, &bits);
            // A byte of 16 or more behind it, or before it.
            for (other, first) in [(legal.len() - 1, index), (0, 0)] {
                let mut cells = cells.clone();
                cells[other] = 200;
                let refused = Outcome::off_grid(first);
                refused_cells_to_bits(Profile::Qpsk, refused, &cells, &bits);
            }
        }
        let cells = &cells[..Profile::Qam16.cells_bytes()];
        cells_to_bits(Profile::Qam16, cells, &mut random);
    }
}

#[test]
fn wrong_lengths_are_refused_before_illegal_bytes_and_touch_nothing() {
    for profile in PROFILES {
        let mut random = Random::new(2_400);
        // Half and twice the length are among them, so that of the other profile is.
        for lengths in misfits(to_cells_lengths(profile), &mut random) {
            let lent = lengths.map(|length| random.bytes(length));
            compare_refused(
                Outcome::refused(MISFIT),
                lent.each_ref().map(|bytes| &bytes[..]),
                |[bits, cells]| library::bits_to_cells(profile, bits, cells),
                |[bits, cells]| cells::bits_to_cells(profile, bits, cells),
            );
        }
        for [cells, bits] in misfits(to_bits_lengths(profile), &mut random) {
            let lent = random.bytes(bits);
            let legal = random.payload(profile, cells);
            for cells in [
                legal,
                random.cells(cells),
                random.bytes(cells),
                vec![16; cells],
            ] {
                refused_cells_to_bits(profile, Outcome::refused(MISFIT), &cells, &lent);
            }
        }
    }
}

#[test]
fn lengths_beyond_32_bits_are_refused() {
    let refused = Outcome::refused(MISFIT);
    for profile in PROFILES {
        refused_beyond_32_bits(refused, to_cells_lengths(profile), |[bits, cells]| {
            library::bits_to_cells(profile, bits, cells)
        });
        refused_beyond_32_bits(refused, to_bits_lengths(profile), |[cells, bits]| {
            library::cells_to_bits(profile, cells, bits)
        });
    }
}
