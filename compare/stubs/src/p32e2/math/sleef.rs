// A stub: src/p32e2/math/sleef.rs is not among the files of softposit.sha256. Never called by the comparison.
use super::P32E2;
macro_rules! one { ($($f:ident),*) => { $( pub fn $f(_: P32E2) -> P32E2 { unimplemented!() } )* } }
macro_rules! two { ($($f:ident),*) => { $( pub fn $f(_: P32E2, _: P32E2) -> P32E2 { unimplemented!() } )* } }
one!(exp, exp2, exp10, ln, log2, cbrt, sin, cos, tan, asin, acos, atan, sinh, cosh, tanh);
two!(pow, hypot, atan2);
pub fn sin_cos(_: P32E2) -> (P32E2, P32E2) { unimplemented!() }
