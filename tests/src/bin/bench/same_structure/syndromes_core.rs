//! crates/syndromes_core: what is gathered of the sixteen words of a row.

use super::blocks::BlockRow;
use super::gathering_core as lanes;
use super::rows_core as rows;

/// The sums of the eight blocks of a row, and its parities.
pub struct RowChecks {
    pub sums: BlockRow,
    pub odd: u16,
}

/// Those of row s. Bit 255, which stands in number 127, counts in the parities alone.
pub fn gather_row(history: &[u8; 5120], halves: &[u16; 256], pair: u32, s: usize) -> RowChecks {
    let x = rows::fronts(history, pair, s);
    let mut y = rows::backs(halves, s);
    let odd = lanes::row_parities(&x, &y);
    y[127] = 0;
    let sums = lanes::by_eight(&x, &y);
    RowChecks { sums, odd }
}
