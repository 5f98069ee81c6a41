// A stub: src/quire8/ops.rs is not among the files of softposit.sha256. Never called by the comparison.
use super::Q8E0;
use crate::P8E0;
use core::ops;
crate::macros::quire_add_sub!(P8E0, Q8E0);
crate::macros::quire_add_sub_array!(P8E0, Q8E0, 1, 2, 3, 4);
pub(super) fn fdp(_: &mut Q8E0, _: u8, _: u8, _: bool) { unimplemented!() }
pub(super) fn fdp_one(_: &mut Q8E0, _: u8, _: bool) { unimplemented!() }
