// A stub: src/quire16/convert.rs is not among the files of softposit.sha256. Never called by the comparison.
use super::Q16E1;
use crate::P16E1;
impl From<P16E1> for Q16E1 { fn from(_: P16E1) -> Self { unimplemented!() } }
impl From<Q16E1> for P16E1 { fn from(_: Q16E1) -> Self { unimplemented!() } }
impl Q16E1 { pub fn to_posit(&self) -> P16E1 { unimplemented!() } }
