//! Whole runs of both profiles: both encoders from fresh, the line with all that it may do, both receivers
//! from fresh, made by the library and by the reference and compared at every stage. The claims of demand 3
//! are checked by counting, on each run for the pairs before the first one with a word beyond the limit.

use ofec_tests::chain::calls::{LIBRARY, REFERENCE};
use ofec_tests::chain::claims::{check, check_frames, Claims, Words, LIMIT};
use ofec_tests::chain::damage::Damage;
use ofec_tests::chain::places::Rows;
use ofec_tests::chain::receiving::{receive, take, Received};
use ofec_tests::chain::sending::send;
use ofec_tests::chain::SUPERFRAME_BYTES;
use ofec_tests::frames::{
    first_illegal_of_frame, is_overhead, FRAME_BYTES, OVERHEAD_BYTES, SUBFRAMES,
};
use ofec_tests::profile::{Profile, PROFILES};
use ofec_tests::random::Random;

// Super-frames of each profile.
const CLEAN_SUPERFRAMES: usize = 4;
const WITHIN_SUPERFRAMES: usize = 12;
const BEYOND_SUPERFRAMES: usize = 12;
const MIXED_SUPERFRAMES: usize = 9;
const _: () =
    assert!(CLEAN_SUPERFRAMES + WITHIN_SUPERFRAMES + BEYOND_SUPERFRAMES + MIXED_SUPERFRAMES >= 20);

/// A run to be made.
struct Run {
    profile: Profile,
    seed: u64,
    superframes: usize,
    damages: Vec<Damage>,
    /// Whether unframing is given another list than framing.
    other_list: bool,
    /// Pairs that each receiver takes.
    taken: [usize; 2],
}

/// What the library gave, found to be the same as what the reference gave.
struct Ran {
    payloads: [Vec<u8>; 2],
    /// Overhead cells that the line altered, of each sub-frame.
    altered: Vec<u32>,
    differing: Vec<u32>,
    received: [Received; 2],
    claims: [Claims; 2],
}

impl Run {
    fn new(profile: Profile, seed: u64, superframes: usize, damages: &[Damage]) -> Self {
        Run {
            profile,
            seed,
            superframes,
            damages: damages.to_vec(),
            other_list: false,
            taken: [profile.pairs() * superframes; 2],
        }
    }

    fn other_list(self) -> Self {
        Run {
            other_list: true,
            ..self
        }
    }

    fn first(self, taken: [usize; 2]) -> Self {
        Run { taken, ..self }
    }

    fn make(&self) -> Ran {
        let profile = self.profile;
        let mut random = Random::new(self.seed);
        let payloads = [0; 2].map(|_| random.bytes(profile.payload_bytes() * self.superframes));
        let overhead = random.cells(OVERHEAD_BYTES);
        let seeds = [0; 3].map(|_| random.next_u64());

        let lent = payloads.each_ref().map(|payload| &payload[..]);
        let [library, reference] = [LIBRARY, REFERENCE]
            .map(|calls| send(&calls, profile, lent, &overhead, &mut Random::new(seeds[0])));
        assert_eq!(library.difference(&reference), None);
        let sent = lent.map(Rows::sent);
        for encoder in [0, 1] {
            assert!(sent[encoder] == Rows::of(&library.coded[encoder]));
            let breaches = check_frames(profile, encoder, &sent[encoder], &library.frames);
            assert_eq!(breaches, []);
        }

        let mut frames = library.frames.clone();
        for damage in &self.damages {
            damage.apply(profile, &mut frames, &mut random);
        }
        assert!(frames.len() == SUPERFRAME_BYTES * self.superframes);
        for (number, frame) in (0..SUBFRAMES).cycle().zip(frames.chunks(FRAME_BYTES)) {
            assert_eq!(first_illegal_of_frame(profile, number, frame), None);
        }
        let altered = altered_overhead(&library.frames, &frames);

        let list = if self.other_list {
            random.cells(OVERHEAD_BYTES)
        } else {
            overhead
        };
        let [library, reference] = [LIBRARY, REFERENCE]
            .map(|calls| take(&calls, profile, &frames, &list, &mut Random::new(seeds[1])));
        assert_eq!(library.difference(&reference), None);
        let differing = library.differing;
        let pairs = profile.pairs() * self.superframes;
        let line = [0, 1].map(|encoder| Rows::on_line(profile, encoder, pairs, &frames));
        for encoder in [0, 1] {
            assert!(line[encoder] == Rows::of(&library.pairs[encoder]));
        }

        let [library, reference] =
            [(LIBRARY, library.pairs), (REFERENCE, reference.pairs)].map(|(calls, pairs)| {
                let pairs = pairs.each_ref().map(|pairs| &pairs[..]);
                receive(&calls, pairs, self.taken, &mut Random::new(seeds[2]))
            });
        let claims = [0, 1].map(|receiver| {
            let received = &library[receiver];
            assert_eq!(received.difference(&reference[receiver]), None);
            assert_eq!(received.pairs(), self.taken[receiver]);
            let claims = check(&sent[receiver], &line[receiver], received, LIMIT);
            assert_eq!(claims.breaches, []);
            claims
        });
        Ran {
            payloads,
            altered,
            differing,
            received: library,
            claims,
        }
    }
}

/// The overhead cells of each sub-frame that are not the same before and after the line.
fn altered_overhead(before: &[u8], after: &[u8]) -> Vec<u32> {
    let frames = before.chunks(FRAME_BYTES).zip(after.chunks(FRAME_BYTES));
    (0..SUBFRAMES)
        .cycle()
        .zip(frames)
        .map(|(number, (before, after))| {
            let cells = before.chunks(2).zip(after.chunks(2)).enumerate();
            cells
                .filter(|(cell, (before, after))| is_overhead(number, *cell) && before != after)
                .count() as u32
        })
        .collect()
}

impl Ran {
    /// Whether each payload came back as far as it was taken.
    fn payload_is_back(&self) -> bool {
        [0, 1].iter().all(|&receiver| {
            let received = &self.received[receiver].payload;
            self.payloads[receiver].starts_with(received)
        })
    }
}

/// Makes all runs, so many super-frames in all.
fn make(runs: &[Run], superframes: usize) -> Vec<Ran> {
    let sum: usize = runs.iter().map(|run| run.superframes).sum();
    assert_eq!(sum, superframes);
    runs.iter().map(Run::make).collect()
}

/// The words checked in all runs.
fn words(all: &[Ran]) -> Words {
    let mut words = Words::default();
    for claims in all.iter().flat_map(|ran| &ran.claims) {
        let sums = words.iter_mut().flatten().flatten();
        for (sum, number) in sums.zip(claims.words.iter().flatten().flatten()) {
            *sum += number;
        }
    }
    words
}

#[test]
fn no_super_frame_at_all() {
    for (profile, seed) in PROFILES.into_iter().cycle().zip(0..40) {
        let ran = Run::new(profile, 10_000 + seed, 0, &[]).make();
        assert!(ran.received.iter().all(|received| received.pairs() == 0));
    }
}

#[test]
fn unaltered_payload_cells_bring_all_payload_back() {
    for profile in PROFILES {
        let all_pairs = profile.pairs();
        let runs = [
            Run::new(profile, 10_100, 1, &[]),
            Run::new(profile, 10_200, 1, &[])
                .other_list()
                .first([10, 11]),
            Run::new(profile, 10_300, 2, &[Damage::Overhead(30)])
                .first([2 * all_pairs, all_pairs + 1]),
        ];
        let all = make(&runs, CLEAN_SUPERFRAMES);
        for (run, ran) in runs.iter().zip(&all) {
            assert!(ran.payload_is_back());
            for receiver in [0, 1] {
                assert_eq!(ran.claims[receiver].pairs, run.taken[receiver]);
                let marks = &ran.received[receiver].marks;
                assert!(marks.iter().all(|&mark| mark == 0));
            }
            if !run.other_list {
                assert_eq!(ran.differing, ran.altered);
            }
        }
        assert_eq!(all[0].altered, [0; 48]);
        assert!(all[2].altered.iter().all(|&altered| altered > 10));
    }
}

#[test]
fn damage_within_the_limit() {
    for profile in PROFILES {
        let all_pairs = profile.pairs();
        let three = Damage::Words {
            count: 4_000,
            wrong: 3,
        };
        let one = Damage::Words {
            count: 6_000,
            wrong: 1,
        };
        let burst = Damage::BurstInEachBuffer {
            cells: 960 / profile.symbol_bits(),
        };
        let runs = [
            Run::new(profile, 11_000, 3, &[three.clone(), Damage::Overhead(5)]),
            Run::new(profile, 11_100, 2, &[Damage::AllWords(2)]).other_list(),
            Run::new(profile, 11_200, 1, &[Damage::AllWords(3)]).other_list(),
            Run::new(profile, 11_300, 1, &[one]),
            Run::new(profile, 11_400, 1, &[Damage::Cells(200)]).first([all_pairs - 1, 0]),
            Run::new(profile, 11_500, 1, &[Damage::Errors(300)]),
            Run::new(profile, 11_600, 1, &[Damage::Steps(500)]),
            Run::new(profile, 11_700, 1, &[burst]).other_list(),
            Run::new(profile, 11_800, 1, &[three, Damage::Overhead(100)])
                .first([1, profile.pairs().min(100)]),
        ];
        let all = make(&runs, WITHIN_SUPERFRAMES);
        for (run, ran) in runs.iter().zip(&all) {
            assert_eq!(ran.claims.each_ref().map(|claims| claims.pairs), run.taken);
            let words = words(std::slice::from_ref(ran));
            if words.iter().all(|by_wrong| by_wrong[3] == [0; 4]) {
                assert!(ran.payload_is_back());
            }
            if !run.other_list {
                assert_eq!(ran.differing, ran.altered);
            }
        }
        // A wrong bit in front may have been repaired before, so that the mark may be lower.
        let words = words(&all);
        for wrong in 0..=3 {
            for mark in 0..=3 {
                for (full, possible) in [(0, mark == wrong), (1, mark <= wrong)] {
                    let number = words[full][wrong][mark];
                    let expected = if possible { number > 100 } else { number == 0 };
                    assert!(expected, "{words:?}");
                }
            }
        }
        let right: u64 = all
            .iter()
            .flat_map(|ran| &ran.claims)
            .map(|claims| claims.right_bits_of_lost_words)
            .sum();
        assert!(right > 6_000 * profile.pairs() as u64, "{right}");
    }
}

#[test]
fn damage_beyond_the_limit() {
    for profile in PROFILES {
        let words = |count, wrong| Damage::Words { count, wrong };
        let bursts = Damage::Bursts {
            count: 6,
            cells: 3_000,
        };
        let burst = Damage::BurstInEachBuffer {
            cells: 4_032 / profile.symbol_bits(),
        };
        let runs = [
            Run::new(profile, 12_000, 1, &[Damage::Errors(3_000)]),
            Run::new(profile, 12_100, 1, &[Damage::Errors(20_000)]).other_list(),
            Run::new(profile, 12_200, 1, &[Damage::Errors(300_000)]),
            Run::new(profile, 12_300, 1, &[Damage::Steps(10_000)]),
            Run::new(profile, 12_400, 2, &[words(3_000, 3), bursts]),
            Run::new(profile, 12_500, 1, &[burst]).first([profile.pairs(), 50]),
            Run::new(
                profile,
                12_600,
                2,
                &[
                    words(3_000, 3),
                    Damage::Garbage(vec![40, 41, 75, 90, 91, 92]),
                ],
            )
            .other_list(),
            Run::new(profile, 12_700, 1, &[Damage::Garbage((0..48).collect())]),
            Run::new(profile, 12_810, 1, &[words(30, 4)]),
            Run::new(profile, 12_900, 1, &[words(4_000, 6)]),
        ];
        let all = make(&runs, BEYOND_SUPERFRAMES);
        let mut checked = 0;
        for (run, ran) in runs.iter().zip(&all) {
            let pairs = ran.claims.each_ref().map(|claims| claims.pairs);
            assert!(pairs[0] < run.taken[0] && pairs[1] < run.taken[1]);
            assert!(!ran.payload_is_back(), "{}", run.seed);
            checked += pairs[0] + pairs[1];
        }
        assert!(checked > 12 * profile.pairs() / 5, "{checked}");
    }
}

/// One to three kinds of damage, of any strength.
fn any_damage(superframes: usize, random: &mut Random) -> Vec<Damage> {
    let kinds = random.between(1, 4);
    (0..kinds)
        .map(|_| match random.between(0, 8) {
            0 => Damage::Cells(random.between(0, 1_000)),
            1 => Damage::Overhead(random.between(0, 101)),
            2 => Damage::Words {
                count: random.between(0, 2_000),
                wrong: random.between(1, 4),
            },
            3 => Damage::AllWords(random.between(1, 3)),
            4 => Damage::Errors(random.between(0, 2_000)),
            5 => Damage::Steps(random.between(0, 2_000)),
            6 => Damage::Bursts {
                count: random.between(0, 4),
                cells: random.between(1, 200),
            },
            _ => Damage::Garbage(vec![random.between(0, 48 * superframes)]),
        })
        .collect()
}

#[test]
fn mixed_damage() {
    for profile in PROFILES {
        let mut random = Random::new(13_000);
        let mut runs = Vec::new();
        for superframes in [2, 1, 1, 1, 1, 1, 1, 1] {
            let damages = any_damage(superframes, &mut random);
            let mut run = Run::new(profile, random.next_u64(), superframes, &damages);
            if random.bit() {
                run = run.other_list();
            }
            if random.bit() {
                let pairs = profile.pairs() * superframes;
                run = run.first([0; 2].map(|_| random.between(0, pairs + 1)));
            }
            runs.push(run);
        }
        let all = make(&runs, MIXED_SUPERFRAMES);
        let checked = all.iter().flat_map(|ran| &ran.claims);
        let checked: usize = checked.map(|claims| claims.pairs).sum();
        assert!(checked > 5 * profile.pairs(), "{checked}");
    }
}
