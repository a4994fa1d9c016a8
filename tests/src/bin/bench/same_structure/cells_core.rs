//! crates/cells_core: legal cells.

use ofec_tests::profile::Profile;

fn larger(a: u8, b: u8) -> u8 {
    if a < b {
        return b;
    }
    a
}

fn highest(cells: &[u8]) -> u8 {
    let mut top = 0;
    for k in 0..cells.len() {
        top = larger(top, cells[k]);
    }
    top
}

fn search(cells: &[u8]) -> usize {
    for i in 0..cells.len() {
        if 16 <= cells[i] {
            return i;
        }
    }
    cells.len()
}

pub fn first_illegal(cells: &[u8]) -> usize {
    if highest(cells) < 16 {
        return cells.len();
    }
    search(cells)
}

pub fn flaw(v: u8) -> u8 {
    if (v / 4 + 1) / 2 != 1 {
        return 1;
    }
    if (v % 4 + 1) / 2 != 1 {
        return 1;
    }
    0
}

fn worst(cells: &[u8]) -> u8 {
    let mut top = 0;
    for k in 0..cells.len() {
        top = larger(top, flaw(cells[k]));
    }
    top
}

fn search_flaw(cells: &[u8]) -> usize {
    for i in 0..cells.len() {
        if flaw(cells[i]) != 0 {
            return i;
        }
    }
    cells.len()
}

pub fn first_flaw(cells: &[u8]) -> usize {
    if worst(cells) == 0 {
        return cells.len();
    }
    search_flaw(cells)
}

pub fn first_illegal_payload(profile: Profile, cells: &[u8]) -> usize {
    match profile {
        Profile::Qam16 => first_illegal(cells),
        Profile::Qpsk => first_flaw(cells),
    }
}
