use crate::ffi::*;
use core::ops;

/// A posit of 32 bits with two exponent bits.
///
/// ```
/// use stallhitch::P32E2;
///
/// let three = P32E2::from_bits(0x4C00_0000);
/// let third = P32E2::ONE / three;
/// assert_eq!(third.to_bits(), 0x32AA_AAAB);
/// assert_eq!(third, three.recip());
/// assert!((P32E2::ONE / P32E2::ZERO).is_nar());
/// ```
///
/// The order is that of the values, with NaR below all of them.
#[derive(Clone, Copy, Debug, Default, PartialEq, Eq, PartialOrd, Ord, Hash)]
#[repr(transparent)]
pub struct P32E2(i32);

impl P32E2 {
    pub const ZERO: Self = Self::from_bits(0);
    pub const ONE: Self = Self::from_bits(0x4000_0000);
    /// Not a real.
    pub const NAR: Self = Self::from_bits(0x8000_0000);
    /// The lowest value, -2^120.
    pub const MIN: Self = Self::from_bits(0x8000_0001);
    /// The highest value, 2^120.
    pub const MAX: Self = Self::from_bits(0x7FFF_FFFF);
    /// The lowest value above 0, 2^-120.
    pub const MIN_POSITIVE: Self = Self::from_bits(1);

    #[inline]
    pub const fn new(i: i32) -> Self {
        Self(i)
    }

    #[inline]
    pub const fn from_bits(v: u32) -> Self {
        Self(v as i32)
    }

    #[inline]
    pub const fn to_bits(self) -> u32 {
        self.0 as u32
    }

    #[inline]
    pub const fn is_zero(self) -> bool {
        self.to_bits() == Self::ZERO.to_bits()
    }

    #[inline]
    pub const fn is_nar(self) -> bool {
        self.to_bits() == Self::NAR.to_bits()
    }

    /// 1 / self; NaR for 0.
    #[inline]
    pub fn recip(self) -> Self {
        Self::from_bits(stallhitch_p32e2_recip(self.to_bits()))
    }

    /// The root; NaR below 0.
    ///
    /// ```
    /// use stallhitch::P32E2;
    /// assert_eq!(P32E2::MIN_POSITIVE.sqrt().to_bits(), 0x0000_8000);
    /// assert!(P32E2::MIN.sqrt().is_nar());
    /// ```
    #[inline]
    pub fn sqrt(self) -> Self {
        Self::from_bits(stallhitch_p32e2_sqrt(self.to_bits()))
    }

    /// self · b + c, rounded once.
    ///
    /// ```
    /// use stallhitch::P32E2;
    /// let a = P32E2::from_bits(0x4000_0007);
    /// let b = P32E2::from_bits(0x4200_0000);
    /// assert_eq!(a.mul_add(b, P32E2::ZERO).to_bits(), 0x4200_0009);
    /// ```
    #[inline]
    pub fn mul_add(self, b: Self, c: Self) -> Self {
        Self::from_bits(stallhitch_p32e2_mul_add(self.to_bits(), b.to_bits(), c.to_bits()))
    }

    /// self · b - c, rounded once.
    #[inline]
    pub fn mul_sub(self, b: Self, c: Self) -> Self {
        Self::from_bits(stallhitch_p32e2_mul_sub(self.to_bits(), b.to_bits(), c.to_bits()))
    }

    /// self - a · b, rounded once.
    #[inline]
    pub fn sub_product(self, a: Self, b: Self) -> Self {
        Self::from_bits(stallhitch_p32e2_sub_product(self.to_bits(), a.to_bits(), b.to_bits()))
    }
}

// softposit has these both as methods and as operators; a method is found before the operator's trait.
#[allow(clippy::should_implement_trait)]
impl P32E2 {
    #[inline]
    pub fn neg(self) -> Self {
        Self::from_bits(stallhitch_p32e2_neg(self.to_bits()))
    }

    #[inline]
    pub fn add(self, other: Self) -> Self {
        Self::from_bits(stallhitch_p32e2_add(self.to_bits(), other.to_bits()))
    }

    #[inline]
    pub fn sub(self, other: Self) -> Self {
        Self::from_bits(stallhitch_p32e2_sub(self.to_bits(), other.to_bits()))
    }

    #[inline]
    pub fn mul(self, other: Self) -> Self {
        Self::from_bits(stallhitch_p32e2_mul(self.to_bits(), other.to_bits()))
    }

    /// self / other; NaR where other is 0.
    #[inline]
    pub fn div(self, other: Self) -> Self {
        Self::from_bits(stallhitch_p32e2_div(self.to_bits(), other.to_bits()))
    }
}

impl ops::Neg for P32E2 {
    type Output = Self;
    #[inline]
    fn neg(self) -> Self {
        P32E2::neg(self)
    }
}

macro_rules! operator {
    ($($operator:ident $assign:ident $method:ident $assigned:ident),*) => {$(
        impl ops::$operator for P32E2 {
            type Output = Self;
            #[inline]
            fn $method(self, other: Self) -> Self {
                P32E2::$method(self, other)
            }
        }

        impl ops::$assign for P32E2 {
            #[inline]
            fn $assigned(&mut self, other: Self) {
                *self = P32E2::$method(*self, other);
            }
        }
    )*};
}

operator!(Add AddAssign add add_assign, Sub SubAssign sub sub_assign, Mul MulAssign mul mul_assign, Div DivAssign div div_assign);
