// A stub: src/pxe1.rs is not among the files of softposit.sha256. Just enough for them to compile.
#[derive(Clone, Copy)]
pub struct PxE1<const N: u32>(i32);
impl<const N: u32> PxE1<N> {
    pub const ZERO: Self = Self(0);
    pub const ONE: Self = Self(0x4000_0000);
    pub const NAR: Self = Self(-0x8000_0000);
    pub const fn from_bits(v: u32) -> Self { Self(v as _) }
    pub const fn to_bits(self) -> u32 { self.0 as _ }
    pub const fn is_zero(self) -> bool { self.0 == 0 }
    pub const fn is_nar(self) -> bool { self.0 == -0x8000_0000 }
    pub(crate) const fn mask() -> u32 { ((-0x8000_0000_i32) >> (N - 1)) as u32 }
    pub(crate) const fn sign_ui(a: u32) -> bool { (a & 0x8000_0000) != 0 }
    #[allow(dead_code)]
    pub(crate) const fn pack_to_ui(regime: u32, exp: u32, frac: u32) -> u32 { crate::P32E2::pack_to_ui(regime, exp, frac) }
    pub(crate) const fn separate_bits_tmp(bits: u32) -> (i8, u32) { crate::P32E2::separate_bits_tmp(bits) }
    #[allow(dead_code)]
    pub(crate) const fn calculate_regime(k: i8) -> (u32, bool, u32) { crate::P32E2::calculate_regime(k) }
}
