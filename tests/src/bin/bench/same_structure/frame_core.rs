//! crates/frame_core: a sub-frame by groups of a pilot and 31 payload cells.

const TRAINING: usize = 11;
const FIRST_OVERHEAD: usize = 110;

pub fn edge(number: u32) -> usize {
    if number == 0 {
        return FIRST_OVERHEAD;
    }
    TRAINING
}

fn gap(number: u32) -> usize {
    if number == 0 {
        return 106;
    }
    10
}

fn first_whole(number: u32) -> usize {
    if number == 0 {
        return 4;
    }
    1
}

fn overhead_cells(number: u32) -> usize {
    if number == 0 {
        return 222;
    }
    126
}

pub fn payload_cells(number: u32) -> usize {
    if number == 0 {
        return 3490;
    }
    3586
}

pub fn overhead_start(number: u32) -> usize {
    if number == 0 {
        return 0;
    }
    number as usize * 126 + 96
}

pub fn own_overhead(number: u32, overhead: &[u8]) -> &[u8] {
    let a = overhead_start(number) * 2;
    let e = a + overhead_cells(number) * 2;
    &overhead[a..e]
}

fn copy(from: &[u8], at: usize, n: usize, to: &mut [u8]) {
    for k in 0..n {
        to[k] = from[at + k];
    }
}

fn run_of(from: &[u8], at: usize) -> [u8; 62] {
    let mut run = [0; 62];
    for k in 0..62 {
        run[k] = from[at + k];
    }
    run
}

fn put_run(run: [u8; 62], to: &mut [u8]) {
    for k in 0..62 {
        to[k] = run[k];
    }
}

fn copy_run(from: &[u8], at: usize, to: &mut [u8]) {
    put_run(run_of(from, at), to);
}

fn place_rest(number: u32, payload: &[u8], own: &[u8], frame: &mut [u8]) -> usize {
    let w = first_whole(number);
    let e = edge(number) * 2;
    let a = w * 64;
    copy(own, 0, e, &mut frame[0..e]);
    copy(payload, 0, a - e, &mut frame[e..a]);
    w
}

fn group_of(from: &[u8], at: usize) -> [u8; 64] {
    let mut group = [0; 64];
    for k in 0..64 {
        group[k] = from[at + k];
    }
    group
}

fn put_group(group: [u8; 64], to: &mut [u8]) {
    for k in 0..64 {
        to[k] = group[k];
    }
}

fn place_group(number: u32, payload: &[u8], own: &[u8], i: usize, group: &mut [u8]) {
    let g = gap(number);
    let pilot = (i + g) * 2;
    put_group(group_of(payload, i * 62 - (g + 1) * 2), group);
    group[0] = own[pilot];
    group[1] = own[pilot + 1];
}

pub fn place(number: u32, payload: &[u8], own: &[u8], frame: &mut [u8]) {
    let w = place_rest(number, payload, own, frame);
    for i in w..116 {
        let a = i * 64;
        place_group(number, payload, own, i, &mut frame[a..a + 64]);
    }
}

fn extract_rest(number: u32, frame: &[u8], payload: &mut [u8]) -> usize {
    let w = first_whole(number);
    let e = edge(number) * 2;
    let rest = w * 64 - e;
    copy(frame, e, rest, &mut payload[0..rest]);
    w
}

pub fn extract(number: u32, frame: &[u8], payload: &mut [u8]) {
    let g = gap(number);
    let w = extract_rest(number, frame, payload);
    for i in w..116 {
        let a = i * 62 - g * 2;
        copy_run(frame, i * 64 + 2, &mut payload[a..a + 62]);
    }
}

fn cell_differs(a: &[u8], i: usize, b: &[u8], k: usize) -> u32 {
    if a[i * 2] != b[k * 2] {
        return 1;
    }
    if a[i * 2 + 1] != b[k * 2 + 1] {
        return 1;
    }
    0
}

fn differing_below(number: u32, frame: &[u8], own: &[u8]) -> u32 {
    let e = edge(number);
    let mut n = 0;
    for m in 0..e {
        n = n + cell_differs(frame, m, own, m);
    }
    n
}

pub fn differing(number: u32, frame: &[u8], own: &[u8]) -> u32 {
    let g = gap(number);
    let w = first_whole(number);
    let mut n = differing_below(number, frame, own);
    for i in w..116 {
        n = n + cell_differs(frame, i * 32, own, i + g);
    }
    n
}
