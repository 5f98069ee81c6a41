// A stub: src/p16e1/convert.rs is not among the files of softposit.sha256. Never called by the comparison
// (from_f64 answers a constant so that the MathConsts of macros.rs can be evaluated).
use super::P16E1;
crate::macros::impl_convert!(P16E1);
impl P16E1 {
    pub const fn from_f32(_: f32) -> Self { Self::ONE }
    pub const fn from_f64(_: f64) -> Self { Self::ONE }
    pub const fn to_f32(self) -> f32 { unimplemented!() }
    pub const fn to_f64(self) -> f64 { unimplemented!() }
    pub const fn from_i32(_: i32) -> Self { unimplemented!() }
    pub const fn to_i32(self) -> i32 { unimplemented!() }
    pub const fn from_i64(_: i64) -> Self { unimplemented!() }
    pub const fn to_i64(self) -> i64 { unimplemented!() }
    pub const fn from_u32(_: u32) -> Self { unimplemented!() }
    pub const fn to_u32(self) -> u32 { unimplemented!() }
    pub const fn from_u64(_: u64) -> Self { unimplemented!() }
    pub const fn to_u64(self) -> u64 { unimplemented!() }
}
