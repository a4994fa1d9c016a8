//! crates/frame_legal_core: the first illegal byte of a sub-frame.

use ofec_tests::profile::Profile;

use super::cells_core::{self, first_flaw, flaw};
use super::frame_core::{edge, extract, payload_cells};

fn overhead_flaw(v: u8) -> u8 {
    if 16 <= v {
        return 1;
    }
    0
}

fn cell_flaw(number: u32, m: usize, v: u8) -> u8 {
    if m % 32 == 0 {
        return overhead_flaw(v);
    }
    if edge(number) <= m {
        return flaw(v);
    }
    overhead_flaw(v)
}

fn search(number: u32, frame: &[u8]) -> usize {
    for j in 0..frame.len() {
        if cell_flaw(number, j / 2, frame[j]) != 0 {
            return j;
        }
    }
    frame.len()
}

fn first_flaw_of(number: u32, frame: &[u8], payload: &mut [u8]) -> usize {
    extract(number, frame, payload);
    first_flaw(payload)
}

fn first_payload_flaw(number: u32, frame: &[u8]) -> usize {
    let mut payload = [0; 7424];
    let n = payload_cells(number) * 2;
    first_flaw_of(number, frame, &mut payload[0..n])
}

fn first_illegal_qpsk(number: u32, frame: &[u8]) -> usize {
    if cells_core::first_illegal(frame) < frame.len() {
        return search(number, frame);
    }
    if first_payload_flaw(number, frame) < payload_cells(number) * 2 {
        return search(number, frame);
    }
    frame.len()
}

pub fn first_illegal(profile: Profile, number: u32, frame: &[u8]) -> usize {
    match profile {
        Profile::Qam16 => cells_core::first_illegal(frame),
        Profile::Qpsk => first_illegal_qpsk(number, frame),
    }
}
