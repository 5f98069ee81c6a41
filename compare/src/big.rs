//! Whole numbers of 768 bits: wide enough for the product of two sizes in units of 2^-240.
use std::cmp::Ordering;

pub const WORDS: usize = 12;

/// Least word first.
#[derive(Clone, Copy, PartialEq, Eq)]
pub struct Big(pub [u64; WORDS]);

impl Big {
    pub const ZERO: Big = Big([0; WORDS]);

    /// x · 2^shift
    pub fn new(x: u64, shift: usize) -> Big {
        let (word, bit) = (shift / 64, shift % 64);
        let mut r = Big::ZERO;
        r.0[word] = x << bit;
        if bit != 0 && x >> (64 - bit) != 0 {
            r.0[word + 1] = x >> (64 - bit);
        }
        r
    }

    pub fn is_zero(&self) -> bool {
        self.0.iter().all(|&x| x == 0)
    }

    /// The place of the leading one of a number above 0.
    pub fn leading(&self) -> usize {
        let word = (0..WORDS).rev().find(|&i| self.0[i] != 0).unwrap();
        64 * word + 63 - self.0[word].leading_zeros() as usize
    }

    pub fn add(self, other: Big) -> Big {
        let mut r = Big::ZERO;
        let mut carry = false;
        for i in 0..WORDS {
            let (s, c) = self.0[i].overflowing_add(other.0[i]);
            let (t, d) = s.overflowing_add(carry as u64);
            r.0[i] = t;
            carry = c | d;
        }
        assert!(!carry);
        r
    }

    /// self - other, where other is at most self.
    pub fn sub(self, other: Big) -> Big {
        let mut r = Big::ZERO;
        let mut borrow = false;
        for i in 0..WORDS {
            let (s, c) = self.0[i].overflowing_sub(other.0[i]);
            let (t, d) = s.overflowing_sub(borrow as u64);
            r.0[i] = t;
            borrow = c | d;
        }
        assert!(!borrow);
        r
    }

    pub fn mul(self, other: Big) -> Big {
        let mut r = Big::ZERO;
        for i in (0..WORDS).filter(|&i| self.0[i] != 0) {
            let mut carry: u128 = 0;
            for j in 0..WORDS - i {
                let t = self.0[i] as u128 * other.0[j] as u128 + r.0[i + j] as u128 + carry;
                r.0[i + j] = t as u64;
                carry = t >> 64;
            }
            assert!(carry == 0 && other.0[WORDS - i..].iter().all(|&x| x == 0));
        }
        r
    }
}

impl Ord for Big {
    fn cmp(&self, other: &Big) -> Ordering {
        self.0.iter().rev().cmp(other.0.iter().rev())
    }
}

impl PartialOrd for Big {
    fn partial_cmp(&self, other: &Big) -> Option<Ordering> {
        Some(self.cmp(other))
    }
}

/// A number with its sign; that of 0 is false.
#[derive(Clone, Copy, PartialEq, Eq)]
pub struct Signed {
    pub negative: bool,
    pub size: Big,
}

impl Signed {
    pub fn new(negative: bool, size: Big) -> Signed {
        Signed { negative: negative && !size.is_zero(), size }
    }

    pub fn neg(self) -> Signed {
        Signed::new(!self.negative, self.size)
    }

    pub fn add(self, other: Signed) -> Signed {
        if self.negative == other.negative {
            Signed::new(self.negative, self.size.add(other.size))
        } else if other.size <= self.size {
            Signed::new(self.negative, self.size.sub(other.size))
        } else {
            Signed::new(other.negative, other.size.sub(self.size))
        }
    }

    pub fn mul(self, other: Signed) -> Signed {
        Signed::new(self.negative != other.negative, self.size.mul(other.size))
    }
}
