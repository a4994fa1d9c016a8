//! How often each entry point was done, and refused with each number.

use std::fmt;

use crate::entry_points::ENTRY_POINTS;

/// Done, and the six refusals.
const ANSWERS: usize = 7;

#[derive(Default)]
pub struct Tally {
    counts: [[u64; ANSWERS]; ENTRY_POINTS.len()],
}

impl Tally {
    pub fn count(&mut self, entry_point: usize, refusal: u32) {
        self.counts[entry_point][refusal as usize] += 1;
    }

    pub fn calls(&self) -> u64 {
        self.counts.iter().flatten().sum()
    }

    /// The answers that were not met, by name.
    pub fn missing(&self) -> Vec<String> {
        let mut missing = Vec::new();
        for (entry_point, counts) in ENTRY_POINTS.iter().zip(&self.counts) {
            for &refusal in [0].iter().chain(entry_point.refusals) {
                if counts[refusal as usize] == 0 {
                    missing.push(format!("{} with refusal {refusal}", entry_point.name));
                }
            }
        }
        missing
    }
}

impl fmt::Display for Tally {
    fn fmt(&self, f: &mut fmt::Formatter<'_>) -> fmt::Result {
        write!(f, "{:24}{:>10}", "", "done")?;
        for refusal in 1..ANSWERS {
            write!(f, "{:>10}", format!("refusal {refusal}"))?;
        }
        for (entry_point, counts) in ENTRY_POINTS.iter().zip(&self.counts) {
            write!(f, "\n{:24}", entry_point.name)?;
            for (refusal, count) in (0..).zip(counts) {
                if refusal == 0 || entry_point.refusals.contains(&refusal) {
                    write!(f, "{count:>10}")?;
                } else {
                    write!(f, "{:>10}", "-")?;
                }
            }
        }
        Ok(())
    }
}
