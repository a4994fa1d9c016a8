//! Powers, exponents and cubes.

/// a^0 to a^254.
pub const POWERS: [u8; 255] = powers();
/// Entry x is the exponent of x; that of 0 is not used.
pub const LOGS: [u8; 256] = logs();
/// Entry x is the cube of x.
pub const CUBES: [u8; 256] = cubes();

const fn powers() -> [u8; 255] {
    let mut powers = [1; 255];
    let mut k = 1;
    while k < 255 {
        let twice = powers[k - 1] as u16 * 2;
        powers[k] = (if twice < 256 {
            twice
        } else {
            twice ^ 0b1_0001_1101
        }) as u8;
        k += 1;
    }
    powers
}

const fn logs() -> [u8; 256] {
    let mut logs = [0; 256];
    let mut k = 0;
    while k < 255 {
        logs[POWERS[k] as usize] = k as u8;
        k += 1;
    }
    logs
}

const fn cubes() -> [u8; 256] {
    let mut cubes = [0; 256];
    let mut x = 1;
    while x < 256 {
        cubes[x] = POWERS[LOGS[x] as usize * 3 % 255];
        x += 1;
    }
    cubes
}
