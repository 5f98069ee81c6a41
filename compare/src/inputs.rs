//! Inputs: random numbers, patterns, triples of patterns and states, each of many kinds.
use crate::big::{Big, Signed};
use crate::model::{self, Exact, Words, MAX, NAR};

/// Steele and others' splitmix64.
pub struct Random(u64);

/// The distance of one state to the next, and what is made of a state: splitmix64.
const STEP: u64 = 0x9E37_79B9_7F4A_7C15;

fn mixed(mut z: u64) -> u64 {
    z = (z ^ (z >> 30)).wrapping_mul(0xBF58_476D_1CE4_E5B9);
    z = (z ^ (z >> 27)).wrapping_mul(0x94D0_49BB_1331_11EB);
    z ^ (z >> 31)
}

impl Random {
    /// Seeds are mixed first, so that those which follow one another do not have the same numbers one place on.
    pub fn new(seed: u64) -> Random {
        Random(STEP.wrapping_add(mixed(seed.wrapping_sub(1))))
    }

    pub fn next(&mut self) -> u64 {
        self.0 = self.0.wrapping_add(STEP);
        mixed(self.0)
    }

    pub fn below(&mut self, n: u64) -> u64 {
        self.next() % n
    }

    pub fn coin(&mut self) -> bool {
        self.next() >> 63 == 1
    }

    fn sign(&mut self, p: u32) -> u32 {
        if self.coin() {
            p.wrapping_neg()
        } else {
            p
        }
    }

    /// p, or a pattern at most two away.
    fn near(&mut self, p: u32) -> u32 {
        p.wrapping_add(self.below(5) as u32).wrapping_sub(2)
    }

    fn few_bits(&mut self, most: u64) -> u32 {
        (0..1 + self.below(most)).fold(0, |p, _| p | 1 << self.below(32))
    }

    /// A pattern with a run of m equal digits and the rest random.
    fn run(&mut self, m: u64) -> u32 {
        let low = (self.next() as u32 >> 1) & ((1u64 << (31 - m)) - 1) as u32;
        let zeros = (1u64 << (30 - m.min(30))) as u32 | low;
        let p = if self.coin() { zeros } else { !zeros & MAX };
        self.sign(p & MAX)
    }

    pub fn pattern(&mut self) -> u32 {
        match self.below(8) {
            0 | 1 => self.next() as u32,
            2 | 3 => {
                let m = 1 + self.below(30);
                self.run(m)
            }
            4 => {
                let m = 1 + self.below(3);
                self.run(m)
            }
            5 => {
                let ends = [0, NAR, 1, MAX, 0x4000_0000, 0x7FFF_FFFE, 2, 0x2000_0000];
                let p = ends[self.below(8) as usize];
                let p = self.near(p);
                self.sign(p)
            }
            6 => {
                let p = self.few_bits(4);
                self.sign(p)
            }
            // digits that are all ones, or all zeros, from some place on
            _ => {
                let tail = (1u64 << self.below(31)) as u32 - 1;
                let p = self.next() as u32;
                if self.coin() {
                    p | tail
                } else {
                    p & !tail
                }
            }
        }
    }

    /// A pattern above 0.
    fn positive(&mut self) -> u32 {
        (self.pattern() & MAX).max(1)
    }

    /// A cut, or the size of a pattern.
    fn border(&mut self) -> Big {
        let u = self.positive();
        if self.below(4) == 0 || u == MAX {
            model::size(u as u64, 31)
        } else {
            model::cut(u)
        }
    }
}

fn size_of(p: u32) -> Big {
    model::size(p as u64, 31)
}

/// Odd numbers with two ones, far apart, as two factors of at most 28 bits: products whose last digit lies far below the rest.
pub fn sparse_products() -> Vec<(u64, u64)> {
    let mut all = Vec::new();
    for t in 30..49 {
        let n = (1u64 << t) + 1;
        for a in (3..1u64 << 28).step_by(2).take_while(|a| a * a <= n) {
            if n % a == 0 && n / a < 1 << 28 {
                all.push((a, n / a));
            }
        }
    }
    all
}

/// The pattern of n with its leading one moved to 2^exp, where there is one.
fn at(n: u64, exp: i64) -> Option<u32> {
    let shift = exp - n.ilog2() as i64 + model::UNIT as i64;
    let x = Big::new(n, usize::try_from(shift).ok()?);
    let p = Exact::Whole(x).round();
    (size_of(p) == x).then_some(p)
}

/// Three operands.
pub fn triple(r: &mut Random, sparse: &[(u64, u64)]) -> [u32; 3] {
    let (a, b, c) = (r.pattern(), r.pattern(), r.pattern());
    match r.below(12) {
        // equal sizes and neighbours
        0 => {
            let (x, y) = (r.near(a), r.near(a));
            [a, r.sign(x), r.sign(y)]
        }
        // a sum near a border
        1 => {
            let x = Signed::new(false, r.border());
            let b = model::value(a).map_or(b, |v| model::round(x.add(v.neg())));
            [a, r.near(b), c]
        }
        // a product near a border
        2 if a != 0 && a != NAR => {
            let x = r.border();
            let y = model::ratio(x, model::value(a).unwrap().size).round();
            let y = r.near(y);
            [a, r.sign(y), c]
        }
        // a quotient near a border
        3 if b != 0 && b != NAR => {
            let x = Signed::new(false, r.border());
            let y = scaled(x.size, model::value(b).unwrap().size);
            let y = r.near(y);
            [r.sign(y), b, c]
        }
        // a root near a border
        4 => {
            let x = r.border();
            let y = scaled(x, x);
            [r.near(y), b, c]
        }
        // a fused sum near a border
        5 | 6 => {
            let x = r.border();
            let x = Signed::new(r.coin(), x);
            let c = model::product(a, b).map_or(c, |v| model::round(x.add(v.neg())));
            [a, b, r.near(c)]
        }
        // a fused sum that cancels
        7 => {
            let p = r.near(model::mul(a, b));
            [a, b, r.sign(p)]
        }
        // a product whose last digit lies far below, beside a third operand of ones
        8 => {
            let (x, y) = sparse[r.below(sparse.len() as u64) as usize];
            let t = (x * y).ilog2() as i64;
            let (ones, high) = if r.coin() {
                let j = (t - 36).max(0);
                (28 - j, r.below(4) as i64 - 1 + if r.coin() { 4 * j } else { -4 * (j + 1) })
            } else {
                (1 + r.below(28) as i64, r.below(12) as i64 - 6)
            };
            let z = if r.below(8) > 0 { (1 << ones) - 1 } else { r.few_bits(3) as u64 & 0xFFF_FFFF | 1 };
            let low = high - 62 + t + r.below(3) as i64 - 1;
            let half = low / 2 + r.below(5) as i64 - 2;
            match (at(x, half), at(y, low - half), at(z, high)) {
                (Some(a), Some(b), Some(c)) => [r.sign(a), b, r.sign(c)],
                _ => [a, b, c],
            }
        }
        // few digits
        9 => [0; 3].map(|_| {
            let p = r.few_bits(3);
            r.sign(p)
        }),
        // a product that is a power of two, or the cut below the largest pattern
        10 => {
            let i = r.below(160) as i64 - 40;
            let j = if r.coin() { 118 - i } else { r.below(160) as i64 - 40 };
            match (at(1, i), at(1, j)) {
                (Some(a), Some(b)) => [r.sign(a), r.sign(b), c],
                _ => [a, b, c],
            }
        }
        _ => [a, b, c],
    }
}

/// The rounding of the product of two sizes.
fn scaled(x: Big, y: Big) -> u32 {
    // x·y counts units of 2^-480: as a quotient by 2^240 it counts those of 2^-240
    Exact::Ratio(x.mul(y), Big::new(1, model::UNIT)).round()
}

/// The eight words of a state.
pub fn state(r: &mut Random) -> Words {
    let mut words = match r.below(8) {
        0 => [0; 8].map(|_| r.next()),
        // totals of any length, with their sign
        1 => {
            let mut w = [0; 8].map(|_| r.next());
            shift(&mut w, r.below(512) as usize, 0);
            w
        }
        // near the ends of the range
        2 => {
            let mut w = [0; 8];
            w[7 - r.below(3) as usize] = r.next() >> r.below(64);
            if r.coin() {
                w[0] |= 1 << 63;
            } else {
                w = w.map(|x| !x);
                w[0] &= u64::MAX >> 1;
            }
            w
        }
        // ones from one place to another: long carries
        3 => {
            let (high, low) = (r.below(9) as usize, r.below(9) as usize);
            let mut w = std::array::from_fn(|i| if high <= i && i < low { u64::MAX } else { 0 });
            w[7 - r.below(2) as usize] ^= r.below(3);
            w
        }
        // few digits
        4 => {
            let mut w = [0; 8];
            for _ in 0..1 + r.below(4) {
                w[r.below(8) as usize] |= 1 << r.below(64);
            }
            w
        }
        // one word that is not zero, and perhaps the top digit
        5 => {
            let mut w = [0; 8];
            w[r.below(8) as usize] = r.next() >> r.below(64);
            if r.coin() {
                w[0] |= 1 << 63;
            }
            w
        }
        // near a border of rounding: a little more, or less, or just there
        6 => {
            let x = Signed::new(false, r.border());
            let little =
                Signed::new(r.coin(), if r.below(4) == 0 { Big::ZERO } else { Big::new(1, r.below(200) as usize) });
            model::wrapped(x.add(little))
        }
        _ => [[0; 8], model::NAR_WORDS][r.below(2) as usize],
    };
    if r.below(3) == 0 && words != model::NAR_WORDS {
        words = model::wrapped(Signed::new(true, model::from_words(words).map_or(Big::ZERO, |t| t.size)));
    }
    words
}

/// Moves 512 digits down by n places, with `fill` above.
fn shift(w: &mut Words, n: usize, fill: u64) {
    for _ in 0..n / 64 {
        w.rotate_right(1);
        w[0] = fill;
    }
    let n = n % 64;
    if n > 0 {
        for i in (0..8).rev() {
            let above = if i == 0 { fill } else { w[i - 1] };
            w[i] = w[i] >> n | above << (64 - n);
        }
    }
}
