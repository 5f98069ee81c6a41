//! The four mixes of patterns. None has 0 or NaR.

pub struct Mix {
    pub name: &'static str,
    pattern: fn(u64) -> u32,
}

pub const MIXES: [Mix; 4] = [
    Mix { name: "uniform", pattern: |r| r as u32 },
    Mix { name: "near 1", pattern: |r| signed(r, run(r, 3)) },
    Mix { name: "near 1, positive", pattern: |r| run(r, 3) },
    Mix { name: "wide", pattern: |r| signed(r, run(r, 29)) },
];

/// A pattern above 0 whose run has 1 to `most` digits: the run from the upper half of r, the digits from the lower.
fn run(r: u64, most: u64) -> u32 {
    let m = 1 + (r >> 40) % most;
    let end = 1 << (30 - m);
    let zeros = end | (r as u32 & (end - 1));
    if r >> 63 == 1 {
        zeros
    } else {
        !zeros & 0x7FFF_FFFF
    }
}

fn signed(r: u64, p: u32) -> u32 {
    if (r >> 62) & 1 == 1 {
        p.wrapping_neg()
    } else {
        p
    }
}

/// The pattern without its sign.
pub fn size(p: u32) -> u32 {
    (p as i32).unsigned_abs()
}

/// A random number from the next of a row of seeds.
pub fn next(seed: &mut u64) -> u64 {
    *seed = seed.wrapping_add(0x9E37_79B9_7F4A_7C15);
    let mut z = *seed;
    z = (z ^ (z >> 30)).wrapping_mul(0xBF58_476D_1CE4_E5B9);
    z = (z ^ (z >> 27)).wrapping_mul(0x94D0_49BB_1331_11EB);
    z ^ (z >> 31)
}

impl Mix {
    /// The same triples at each call.
    pub fn triples(&self, n: usize) -> Vec<[u32; 3]> {
        let mut seed: u64 = 1;
        let mut one = || loop {
            let p = (self.pattern)(next(&mut seed));
            if p << 1 != 0 {
                return p;
            }
        };
        (0..n).map(|_| [one(), one(), one()]).collect()
    }
}
