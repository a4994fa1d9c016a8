//! The interleaver by bit rows of the eight blocks of a block row side by side: each bit row turned left by its number, then column i
//! moved down by 2i + d rows, in four steps by masks. Column 0 of a block is its most significant bit.

/// The distances of the four steps, and the columns i that 2i + d has them in.
const STEPS: [(usize, u16); 4] = [(8, 0x0F0F), (4, 0x3333), (2, 0x5555), (1, 0x00FF)];

/// The same for each of sixteen numbers, known to the compiler.
macro_rules! rows {
    ($r:ident, $do:block) => {
        rows!($r, $do, 0 1 2 3 4 5 6 7 8 9 10 11 12 13 14 15)
    };
    ($r:ident, $do:block, $($n:literal)*) => {
        $({ const $r: usize = $n; $do })*
    };
}

fn row(pairs: &[u8; 10752], n: usize) -> &[u8; 256] {
    pairs[256 * n..][..256].try_into().expect("256 bytes")
}

fn row_mut(pairs: &mut [u8; 10752], n: usize) -> &mut [u8; 256] {
    (&mut pairs[256 * n..][..256])
        .try_into()
        .expect("256 bytes")
}

/// A bit row of eight blocks as eight numbers of 16 bits, which the compiler makes one vector of.
pub mod by_rows {
    use super::{row, row_mut, STEPS};

    type Row = [u16; 8];
    type Blocks = [Row; 16];

    #[inline(always)]
    fn each(mut x: Row, f: impl Fn(u16) -> u16) -> Row {
        for v in &mut x {
            *v = f(*v);
        }
        x
    }

    #[inline(always)]
    fn choose(mask: u16, x: Row, y: Row) -> Row {
        let mut z = [0; 8];
        for c in 0..8 {
            z[c] = x[c] & mask | y[c] & !mask;
        }
        z
    }

    /// The reordered blocks by columns: place (i, j) is bit 15 - i of row j.
    #[inline(always)]
    fn reordered(bytes: &[u8; 256]) -> Blocks {
        let mut x = [[0; 8]; 16];
        rows!(R, {
            for c in 0..8 {
                let at = 16 * R + 2 * c;
                x[R][c] = u16::from_be_bytes([bytes[at], bytes[at + 1]]);
            }
            x[R] = each(x[R], |v| v.rotate_left(R as u32));
        });
        for (n, mask) in STEPS {
            let y = x;
            for j in 0..16 {
                x[j] = choose(mask, y[(j + 16 - n) % 16], y[j]);
            }
        }
        x
    }

    #[inline(always)]
    fn restored(mut x: Blocks, bytes: &mut [u8; 256]) {
        for (n, mask) in STEPS {
            let y = x;
            for j in 0..16 {
                x[j] = choose(mask, y[(j + n) % 16], y[j]);
            }
        }
        rows!(R, {
            x[R] = each(x[R], |v| v.rotate_right(R as u32));
            for c in 0..8 {
                let at = 16 * R + 2 * c;
                [bytes[at], bytes[at + 1]] = x[R][c].to_be_bytes();
            }
        });
    }

    #[inline(never)]
    pub fn interleave(pairs0: &[u8; 10752], pairs1: &[u8; 10752], bits: &mut [u8; 21504]) {
        for n in 0..21 {
            let a = reordered(row(pairs0, n));
            let b = reordered(row(pairs1, n));
            let c = reordered(row(pairs0, n + 21));
            let d = reordered(row(pairs1, n + 21));
            for j in 0..16 {
                for l in 0..8 {
                    let [ah, al] = a[j][l].to_be_bytes();
                    let [bh, bl] = b[j][l].to_be_bytes();
                    let [ch, cl] = c[j][l].to_be_bytes();
                    let [dh, dl] = d[j][l].to_be_bytes();
                    let own = &mut bits[168 * (16 * l + j) + 8 * n..][..8];
                    own.copy_from_slice(&[ah, bh, ch, dh, al, bl, cl, dl]);
                }
            }
        }
    }

    #[inline(never)]
    pub fn deinterleave(bits: &[u8; 21504], pairs0: &mut [u8; 10752], pairs1: &mut [u8; 10752]) {
        let mut words = [[0u64; 8]; 16];
        let mut x = [[[0; 8]; 16]; 4];
        for n in 0..21 {
            for l in 0..8 {
                for j in 0..16 {
                    let own = &bits[168 * (16 * l + j) + 8 * n..][..8];
                    words[j][l] = u64::from_le_bytes(own.try_into().expect("8 bytes"));
                }
            }
            for j in 0..16 {
                for l in 0..8 {
                    let high = words[j][l];
                    let low = words[j][l] >> 32;
                    x[0][j][l] = (high << 8 & 0xFF00 | low & 0xFF) as u16;
                    x[1][j][l] = (high & 0xFF00 | low >> 8 & 0xFF) as u16;
                    x[2][j][l] = (high >> 8 & 0xFF00 | low >> 16 & 0xFF) as u16;
                    x[3][j][l] = (high >> 16 & 0xFF00 | low >> 24 & 0xFF) as u16;
                }
            }
            restored(x[0], row_mut(pairs0, n));
            restored(x[1], row_mut(pairs1, n));
            restored(x[2], row_mut(pairs0, n + 21));
            restored(x[3], row_mut(pairs1, n + 21));
        }
    }
}

/// A bit row of eight blocks as two numbers of 64 bits, four blocks to a number, least significant byte first; bytes of four
/// block rows are brought together by exchanges within such numbers. The fastest way known here without vector instructions by hand.
pub mod packed {
    use super::{row, row_mut, STEPS};

    type Blocks = [[u64; 2]; 16];

    const EACH: u64 = 0x0001_0001_0001_0001;
    const BYTES: u64 = 0x00FF * EACH;
    const WORDS: u64 = 0x0000_FFFF_0000_FFFF;
    const HALF: u64 = 0xFFFF_FFFF;

    /// Sixteen bits each turned left.
    #[inline(always)]
    fn turn(v: u64, n: usize) -> u64 {
        let kept = ((0xFFFF << n) & 0xFFFF) * EACH;
        (v << n) & kept | (v >> (16 - n)) & !kept
    }

    #[inline(always)]
    fn load(bytes: &[u8], at: usize) -> u64 {
        u64::from_le_bytes(bytes[at..][..8].try_into().expect("8 bytes"))
    }

    /// The reordered blocks by columns. Each word's bytes are exchanged as it is turned.
    #[inline(always)]
    fn reordered(bytes: &[u8; 256]) -> Blocks {
        let mut x = [[0; 2]; 16];
        rows!(R, {
            for h in 0..2 {
                x[R][h] = turn(load(bytes, 16 * R + 8 * h), (R + 8) % 16);
            }
        });
        for (n, mask) in STEPS {
            let (y, mask) = (x, u64::from(mask) * EACH);
            for j in 0..16 {
                for h in 0..2 {
                    x[j][h] = y[(j + 16 - n) % 16][h] & mask | y[j][h] & !mask;
                }
            }
        }
        x
    }

    #[inline(always)]
    fn restored(mut x: Blocks, bytes: &mut [u8; 256]) {
        for (n, mask) in STEPS {
            let (y, mask) = (x, u64::from(mask) * EACH);
            for j in 0..16 {
                for h in 0..2 {
                    x[j][h] = y[(j + n) % 16][h] & mask | y[j][h] & !mask;
                }
            }
        }
        rows!(R, {
            for h in 0..2 {
                let v = turn(x[R][h], (24 - R) % 16);
                bytes[16 * R + 8 * h..][..8].copy_from_slice(&v.to_le_bytes());
            }
        });
    }

    #[inline(never)]
    pub fn interleave(pairs0: &[u8; 10752], pairs1: &[u8; 10752], bits: &mut [u8; 21504]) {
        for n in 0..21 {
            let x = [
                reordered(row(pairs0, n)),
                reordered(row(pairs1, n)),
                reordered(row(pairs0, n + 21)),
                reordered(row(pairs1, n + 21)),
            ];
            for j in 0..16 {
                for h in 0..2 {
                    let [a, b, c, d] = [x[0][j][h], x[1][j][h], x[2][j][h], x[3][j][h]];
                    let p = a >> 8 & BYTES | b & !BYTES;
                    let q = c >> 8 & BYTES | d & !BYTES;
                    let r = a & BYTES | (b & BYTES) << 8;
                    let s = c & BYTES | (d & BYTES) << 8;
                    let even = [p & WORDS | (q & WORDS) << 16, r & WORDS | (s & WORDS) << 16];
                    let odd = [p >> 16 & WORDS | q & !WORDS, r >> 16 & WORDS | s & !WORDS];
                    let words = [
                        even[0] & HALF | even[1] << 32,
                        odd[0] & HALF | odd[1] << 32,
                        even[0] >> 32 | even[1] & !HALF,
                        odd[0] >> 32 | odd[1] & !HALF,
                    ];
                    for l in 0..4 {
                        let own = &mut bits[168 * (16 * (4 * h + l) + j) + 8 * n..][..8];
                        own.copy_from_slice(&words[l].to_le_bytes());
                    }
                }
            }
        }
    }

    #[inline(never)]
    pub fn deinterleave(bits: &[u8; 21504], pairs0: &mut [u8; 10752], pairs1: &mut [u8; 10752]) {
        for n in 0..21 {
            let mut x = [[[0; 2]; 16]; 4];
            for j in 0..16 {
                for h in 0..2 {
                    let at = 168 * (64 * h + j) + 8 * n;
                    let w = [
                        load(bits, at),
                        load(bits, at + 2688),
                        load(bits, at + 5376),
                        load(bits, at + 8064),
                    ];
                    let even = [w[0] & HALF | w[2] << 32, w[0] >> 32 | w[2] & !HALF];
                    let odd = [w[1] & HALF | w[3] << 32, w[1] >> 32 | w[3] & !HALF];
                    let p = even[0] & WORDS | (odd[0] & WORDS) << 16;
                    let q = even[0] >> 16 & WORDS | odd[0] & !WORDS;
                    let r = even[1] & WORDS | (odd[1] & WORDS) << 16;
                    let s = even[1] >> 16 & WORDS | odd[1] & !WORDS;
                    x[0][j][h] = (p & BYTES) << 8 | r & BYTES;
                    x[1][j][h] = p & !BYTES | r >> 8 & BYTES;
                    x[2][j][h] = (q & BYTES) << 8 | s & BYTES;
                    x[3][j][h] = q & !BYTES | s >> 8 & BYTES;
                }
            }
            restored(x[0], row_mut(pairs0, n));
            restored(x[1], row_mut(pairs1, n));
            restored(x[2], row_mut(pairs0, n + 21));
            restored(x[3], row_mut(pairs1, n + 21));
        }
    }
}
