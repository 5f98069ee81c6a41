//! The exact model, from the Posit Standard (2022) as docs/SPECIFICATION.md tells it, over whole numbers. It shares nothing with
//! the proved code or with the source. Sizes count units of 2^-240.
use crate::big::{Big, Signed, WORDS};
use std::cmp::Ordering;

pub const NAR: u32 = 0x8000_0000;
pub const MAX: u32 = 0x7FFF_FFFF;
pub const UNIT: usize = 240;

/// The size of a pattern above 0 of w digits below the sign, in units of 2^-unit (statements 1.4 to 1.7).
pub fn size_at(p: u64, w: u32, unit: usize) -> Big {
    let top = p << (64 - w);
    let ones = top >> 63 == 1;
    let m = if ones { top.leading_ones() } else { top.leading_zeros() } as i32;
    let k = if ones { m - 1 } else { -m };
    let left = (w as i32 - m - 1).max(0) as u32; // digits behind the run and its end
    let t = p & ((1 << left) - 1);
    let (e, f, digits) = match left {
        0 => (0, 0, 0),
        1 => (2 * t, 0, 0),
        _ => (t >> (left - 2), t & ((1 << (left - 2)) - 1), left - 2),
    };
    let shift = 4 * k + e as i32 - digits as i32 + unit as i32;
    Big::new((1 << digits) + f, shift as usize)
}

pub fn size(p: u64, w: u32) -> Big {
    size_at(p, w, UNIT)
}

/// The value of a pattern in units of 2^-unit; none for NaR (1.1 to 1.3).
fn value_at(p: u32, unit: usize) -> Option<Signed> {
    match p {
        NAR => None,
        0 => Some(Signed::new(false, Big::ZERO)),
        _ if p > NAR => Some(Signed::new(true, size_at(p.wrapping_neg() as u64, 31, unit))),
        _ => Some(Signed::new(false, size_at(p as u64, 31, unit))),
    }
}

pub fn value(p: u32) -> Option<Signed> {
    value_at(p, UNIT)
}

/// The exact product of two patterns (3.2).
pub fn product(a: u32, b: u32) -> Option<Signed> {
    Some(value_at(a, UNIT / 2)?.mul(value_at(b, UNIT / 2)?))
}

/// An exact size above 0 (2.1).
pub enum Exact {
    Whole(Big),
    /// The quotient of two.
    Ratio(Big, Big),
    /// The root of one.
    Root(Big),
}

impl Exact {
    /// How v compares with it.
    fn than(&self, v: Big) -> Ordering {
        match self {
            Exact::Whole(x) => v.cmp(x),
            Exact::Ratio(x, y) => v.mul(*y).cmp(x),
            Exact::Root(x) => v.mul(v).cmp(x),
        }
    }

    /// The greatest pattern whose size is at most this, which is not below the smallest.
    pub fn lower(&self) -> u32 {
        let (mut low, mut beyond) = (1, MAX + 1);
        while beyond - low > 1 {
            let middle = low + (beyond - low) / 2;
            if self.than(size(middle as u64, 31)).is_le() {
                low = middle;
            } else {
                beyond = middle;
            }
        }
        low
    }

    /// Section 2.
    pub fn round(&self) -> u32 {
        if self.than(size(1, 31)).is_gt() {
            return 1;
        }
        let u = self.lower();
        if u == MAX || self.than(size(u as u64, 31)).is_eq() {
            return u;
        }
        match self.than(cut(u)) {
            Ordering::Greater => u,
            Ordering::Equal if u % 2 == 0 => u,
            _ => u + 1,
        }
    }
}

/// The size of the posit of one digit more, u followed by 1 (2.4).
pub fn cut(u: u32) -> Big {
    size(2 * u as u64 + 1, 32)
}

fn signed(negative: bool, p: u32) -> u32 {
    if negative {
        p.wrapping_neg()
    } else {
        p
    }
}

pub fn round(x: Signed) -> u32 {
    if x.size.is_zero() {
        return 0;
    }
    signed(x.negative, Exact::Whole(x.size).round())
}

fn rounded(x: Option<Signed>) -> u32 {
    x.map_or(NAR, round)
}

/// a / b with sizes whose quotient is told by cross multiplication; above 0.
pub fn ratio(a: Big, b: Big) -> Exact {
    Exact::Ratio(a.mul(Big::new(1, UNIT)), b)
}

pub fn root(a: Big) -> Exact {
    Exact::Root(a.mul(Big::new(1, UNIT)))
}

// Section 3.

pub fn neg(a: u32) -> u32 {
    rounded(value(a).map(Signed::neg))
}

fn sum_of(a: Option<Signed>, b: Option<Signed>) -> Option<Signed> {
    Some(a?.add(b?))
}

fn difference_of(a: Option<Signed>, b: Option<Signed>) -> Option<Signed> {
    Some(a?.add(b?.neg()))
}

pub fn add(a: u32, b: u32) -> u32 {
    rounded(sum_of(value(a), value(b)))
}

pub fn sub(a: u32, b: u32) -> u32 {
    rounded(difference_of(value(a), value(b)))
}

pub fn mul(a: u32, b: u32) -> u32 {
    rounded(product(a, b))
}

pub fn div(a: u32, b: u32) -> u32 {
    let (Some(x), Some(y)) = (value(a), value(b)) else { return NAR };
    if y.size.is_zero() {
        return NAR;
    }
    if x.size.is_zero() {
        return 0;
    }
    signed(x.negative != y.negative, ratio(x.size, y.size).round())
}

pub fn recip(a: u32) -> u32 {
    div(0x4000_0000, a)
}

pub fn sqrt(a: u32) -> u32 {
    match value(a) {
        None => NAR,
        Some(x) if x.negative => NAR,
        Some(x) if x.size.is_zero() => 0,
        Some(x) => root(x.size).round(),
    }
}

/// a·b + c before it is rounded.
pub fn fused(a: u32, b: u32, c: u32) -> Option<Signed> {
    sum_of(product(a, b), value(c))
}

pub fn mul_add(a: u32, b: u32, c: u32) -> u32 {
    rounded(fused(a, b, c))
}

pub fn mul_sub(a: u32, b: u32, c: u32) -> u32 {
    rounded(difference_of(product(a, b), value(c)))
}

pub fn sub_product(c: u32, a: u32, b: u32) -> u32 {
    rounded(difference_of(value(c), product(a, b)))
}

// Section 4. A state is NaR (none) or a total.

pub type State = Option<Signed>;
pub type Words = [u64; 8];

pub const NAR_WORDS: Words = [1 << 63, 0, 0, 0, 0, 0, 0, 0];

/// 4.1, 4.2
pub fn from_words(words: Words) -> State {
    let mut n = [0; WORDS];
    for (i, w) in words.into_iter().rev().enumerate() {
        n[i] = w;
    }
    if words == NAR_WORDS {
        None
    } else if words[0] >> 63 == 1 {
        Some(Signed::new(true, Big::new(1, 512).sub(Big(n))))
    } else {
        Some(Signed::new(false, Big(n)))
    }
}

/// The 512 low digits of a total in two's complement, whether it is in the range or not.
pub fn wrapped(total: Signed) -> Words {
    let n = if total.negative { Big::new(1, 513).sub(total.size) } else { total.size };
    std::array::from_fn(|i| n.0[7 - i])
}

/// 4.4
pub fn in_range(total: Signed) -> bool {
    total.size < Big::new(1, 511)
}

pub fn to_words(q: State) -> Words {
    q.map_or(NAR_WORDS, wrapped)
}

/// The total after a step, before its range is judged (4.3).
pub fn moved(q: State, x: Option<Signed>, plus: bool) -> Option<Signed> {
    if plus {
        sum_of(q, x)
    } else {
        difference_of(q, x)
    }
}

/// The state that a step leads to.
pub fn judged(total: Option<Signed>) -> State {
    total.filter(|&t| in_range(t))
}

/// One state added to another, or taken from it (4.13).
pub fn joined(q: State, p: State, plus: bool) -> State {
    judged(moved(q, p, plus))
}

/// The total without its sign (4.14).
pub fn without_sign(q: State) -> State {
    q.map(|t| Signed::new(false, t.size))
}

pub fn to_posit(q: State) -> u32 {
    rounded(q)
}

/// The state that a batch leads to: one step for each pair, from the front (4.11).
pub fn batch(q: State, a: &[u32], b: &[u32]) -> State {
    a.iter().zip(b).fold(q, |q, (&a, &b)| judged(moved(q, product(a, b), true)))
}

pub type Image = [u8; 64];

/// 4.10
pub fn image(q: State) -> Image {
    let words = to_words(q);
    std::array::from_fn(|i| (words[i / 8] >> (56 - 8 * (i % 8))) as u8)
}

/// 4.10
pub fn from_image(bytes: &Image) -> State {
    let mut words = [0; 8];
    for (i, &byte) in bytes.iter().enumerate() {
        words[i / 8] = words[i / 8] * 256 + byte as u64;
    }
    from_words(words)
}

// Section 5: the number of the refusal that is due, 0 for none.

pub const MOST_PAIRS: usize = 16_384;

/// 5.1, of bytes that are read
pub fn read_refusal(length: usize) -> u32 {
    if length == 64 {
        0
    } else {
        1
    }
}

/// 5.2
pub fn write_refusal(length: usize) -> u32 {
    if length < 64 {
        2
    } else {
        0
    }
}

/// 5.3 before 5.4
pub fn batch_refusal(a: usize, b: usize) -> u32 {
    if a != b {
        3
    } else if a > MOST_PAIRS {
        4
    } else {
        0
    }
}

/// 5.6: 3, 4, 1, 5. `rebuilt` is the image of the batch from zero.
pub fn claim_refusal(a: usize, b: usize, rebuilt: &Image, claim: &[u8]) -> u32 {
    if a != b {
        3
    } else if a > MOST_PAIRS {
        4
    } else if claim.len() != 64 {
        1
    } else if claim != rebuilt {
        5
    } else {
        0
    }
}
