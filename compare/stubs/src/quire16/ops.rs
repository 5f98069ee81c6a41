// A stub: src/quire16/ops.rs is not among the files of softposit.sha256. Never called by the comparison.
use super::Q16E1;
use crate::P16E1;
use core::ops;
crate::macros::quire_add_sub!(P16E1, Q16E1);
crate::macros::quire_add_sub_array!(P16E1, Q16E1, 1, 2, 3, 4);
pub(super) fn fdp(_: &mut Q16E1, _: u16, _: u16, _: bool) { unimplemented!() }
pub(super) fn fdp_one(_: &mut Q16E1, _: u16, _: bool) { unimplemented!() }
