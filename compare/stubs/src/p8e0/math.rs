// A stub: src/p8e0/math.rs is not among the files of softposit.sha256. Never called by the comparison.
use super::P8E0;
macro_rules! one { ($($f:ident),*) => { $( pub fn $f(self) -> Self { unimplemented!() } )* } }
impl P8E0 {
    pub const fn trunc(self) -> Self { unimplemented!() }
    one!(floor, ceil, round, fract, sqrt, exp, exp2, ln, log2, log10, cbrt, sin, cos, tan, asin, acos, atan,
         exp_m1, ln_1p, sinh, cosh, tanh, asinh, acosh, atanh);
    pub fn mul_add(self, _: Self, _: Self) -> Self { unimplemented!() }
    pub fn powi(self, _: i32) -> Self { unimplemented!() }
    pub fn powf(self, _: Self) -> Self { unimplemented!() }
    pub fn log(self, _: Self) -> Self { unimplemented!() }
    pub fn hypot(self, _: Self) -> Self { unimplemented!() }
    pub fn atan2(self, _: Self) -> Self { unimplemented!() }
    pub fn sin_cos(self) -> (Self, Self) { unimplemented!() }
}
