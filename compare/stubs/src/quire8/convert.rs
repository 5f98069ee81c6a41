// A stub: src/quire8/convert.rs is not among the files of softposit.sha256. Never called by the comparison.
use super::Q8E0;
use crate::P8E0;
impl From<P8E0> for Q8E0 { fn from(_: P8E0) -> Self { unimplemented!() } }
impl From<Q8E0> for P8E0 { fn from(_: Q8E0) -> Self { unimplemented!() } }
impl Q8E0 { pub fn to_posit(&self) -> P8E0 { unimplemented!() } }
