use crate::ffi::*;
use crate::P32E2;
use core::ops;

/// The accumulator: an exact total of posits and of their products, or NaR.
///
/// ```
/// use stallhitch::{P32E2, Q32E2};
///
/// let mut q = Q32E2::init();
/// q += (P32E2::MAX, P32E2::MAX);
/// q += P32E2::MIN_POSITIVE;
/// q -= (P32E2::MAX, P32E2::MAX);
/// assert_eq!(q.to_posit(), P32E2::MIN_POSITIVE); // nothing was rounded on the way
/// ```
///
/// The words count units of 2^-240 in two's complement, word 0 most significant. A NaR operand, or a total outside ±(2^511 - 1)
/// units, makes NaR, and no step leads out of it; `clear` does.
#[derive(Clone, Copy, Debug, PartialEq, Eq)]
pub struct Q32E2(pub(crate) [u64; 8]);

impl Q32E2 {
    pub const ZERO: Self = Self([0; 8]);
    pub const ONE: Self = Self([0, 0, 0, 0, 0x0001_0000_0000_0000, 0, 0, 0]);
    /// Not a real.
    pub const NAR: Self = Self([0x8000_0000_0000_0000, 0, 0, 0, 0, 0, 0, 0]);

    #[inline]
    pub const fn init() -> Self {
        Self::ZERO
    }

    /// Any eight words are a state.
    #[inline]
    pub const fn from_bits(v: [u64; 8]) -> Self {
        Self(v)
    }

    #[inline]
    pub const fn to_bits(&self) -> [u64; 8] {
        self.0
    }

    /// The posit's exact value; NaR for NaR.
    #[inline]
    pub fn from_posit(p: P32E2) -> Self {
        let mut q = Self::init();
        q += p;
        q
    }

    /// The total, rounded; NaR for NaR.
    #[inline]
    pub fn to_posit(&self) -> P32E2 {
        P32E2::from_bits(stallhitch_q32e2_to_posit(&self.0))
    }

    #[inline]
    pub fn is_zero(&self) -> bool {
        stallhitch_q32e2_is_zero(&self.0)
    }

    #[inline]
    pub fn is_nar(&self) -> bool {
        stallhitch_q32e2_is_nar(&self.0)
    }

    #[inline]
    pub fn add_product(&mut self, a: P32E2, b: P32E2) {
        stallhitch_q32e2_add_product(&mut self.0, a.to_bits(), b.to_bits());
    }

    #[inline]
    pub fn sub_product(&mut self, a: P32E2, b: P32E2) {
        stallhitch_q32e2_sub_product(&mut self.0, a.to_bits(), b.to_bits());
    }

    #[inline]
    pub fn clear(&mut self) {
        stallhitch_q32e2_clear(&mut self.0);
    }

    /// The negative of the total, in place; NaR stays NaR.
    #[inline]
    pub fn neg(&mut self) {
        stallhitch_q32e2_neg(&mut self.0);
    }

    /// Adds the total of another accumulator. NaR on either side, or a total outside the range, makes NaR. The other comes by value,
    /// so it may be this one.
    ///
    /// ```
    /// use stallhitch::{P32E2, Q32E2};
    ///
    /// // Two boxes send 64 bytes each, and the head end adds.
    /// let [mut box_1, mut box_2] = [Q32E2::init(); 2];
    /// box_1 += (P32E2::MAX, P32E2::MIN_POSITIVE);
    /// box_2 -= P32E2::MIN_POSITIVE;
    /// let [mut image_1, mut image_2] = [[0; 64]; 2];
    /// box_1.write_image(&mut image_1)?;
    /// box_2.write_image(&mut image_2)?;
    ///
    /// let [mut total, mut other] = [Q32E2::init(); 2];
    /// total.read_image(&image_1)?;
    /// other.read_image(&image_2)?;
    /// total.qAddQ(other);
    /// box_1 -= P32E2::MIN_POSITIVE;
    /// assert_eq!(total, box_1); // as if one box had added it all
    ///
    /// let mut q = Q32E2::ONE;
    /// q.qAddQ(q);
    /// assert_eq!(q.to_posit(), P32E2::ONE + P32E2::ONE);
    /// # Ok::<(), stallhitch::Refusal>(())
    /// ```
    #[allow(non_snake_case)] // the standard's name
    #[inline]
    pub fn qAddQ(&mut self, other: Self) {
        stallhitch_q32e2_qAddQ(&mut self.0, &other.0);
    }

    /// Takes the total of another accumulator, as `qAddQ` adds it.
    ///
    /// ```
    /// use stallhitch::Q32E2;
    ///
    /// let mut q = Q32E2::ONE;
    /// q.qSubQ(q);
    /// assert!(q.is_zero());
    /// let mut q = Q32E2::NAR;
    /// q.qSubQ(q);
    /// assert!(q.is_nar());
    /// ```
    #[allow(non_snake_case)] // the standard's name
    #[inline]
    pub fn qSubQ(&mut self, other: Self) {
        stallhitch_q32e2_qSubQ(&mut self.0, &other.0);
    }

    /// The total without its sign, in place; NaR stays NaR.
    ///
    /// ```
    /// use stallhitch::Q32E2;
    ///
    /// let mut q = Q32E2::ONE;
    /// q.neg();
    /// q.qAbs();
    /// assert_eq!(q, Q32E2::ONE);
    /// ```
    #[allow(non_snake_case)] // the standard's name
    #[inline]
    pub fn qAbs(&mut self) {
        stallhitch_q32e2_qAbs(&mut self.0);
    }

    /// The total in two parts: its rounding, and the rounding of what that leaves.
    #[inline]
    pub fn into_two_posits(mut self) -> (P32E2, P32E2) {
        let first = self.to_posit();
        self -= first;
        (first, self.to_posit())
    }

    /// The total in three parts.
    #[inline]
    pub fn into_three_posits(mut self) -> (P32E2, P32E2, P32E2) {
        let first = self.to_posit();
        self -= first;
        let (second, third) = self.into_two_posits();
        (first, second, third)
    }
}

impl ops::AddAssign<P32E2> for Q32E2 {
    #[inline]
    fn add_assign(&mut self, p: P32E2) {
        stallhitch_q32e2_add_posit(&mut self.0, p.to_bits());
    }
}

impl ops::SubAssign<P32E2> for Q32E2 {
    #[inline]
    fn sub_assign(&mut self, p: P32E2) {
        stallhitch_q32e2_sub_posit(&mut self.0, p.to_bits());
    }
}

/// The exact product of the pair is added.
impl ops::AddAssign<(P32E2, P32E2)> for Q32E2 {
    #[inline]
    fn add_assign(&mut self, pair: (P32E2, P32E2)) {
        self.add_product(pair.0, pair.1);
    }
}

/// The exact product of the pair is taken.
impl ops::SubAssign<(P32E2, P32E2)> for Q32E2 {
    #[inline]
    fn sub_assign(&mut self, pair: (P32E2, P32E2)) {
        self.sub_product(pair.0, pair.1);
    }
}

/// The total of another accumulator is added.
impl ops::AddAssign for Q32E2 {
    #[inline]
    fn add_assign(&mut self, other: Self) {
        self.qAddQ(other);
    }
}

/// The total of another accumulator is taken.
impl ops::SubAssign for Q32E2 {
    #[inline]
    fn sub_assign(&mut self, other: Self) {
        self.qSubQ(other);
    }
}
