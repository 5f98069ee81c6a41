//! Posits of 32 bits and their 512-bit accumulator, proved, under the names of the crate softposit.
//!
//! Code that used softposit's `P32E2` and `Q32E2` changes its `use` line:
//!
//! ```
//! use stallhitch::{P32E2, Q32E2};
//!
//! // 90 minutes at 4 and 30 minutes at 2, exactly.
//! let minutes = [P32E2::from_bits(0x69A0_0000), P32E2::from_bits(0x6380_0000)];
//! let rates = [P32E2::from_bits(0x5000_0000), P32E2::from_bits(0x4800_0000)];
//! let mut total = Q32E2::init();
//! for (m, r) in minutes.into_iter().zip(rates) {
//!     total += (m, r);
//! }
//! assert_eq!(total.to_posit(), minutes[0] * rates[0] + minutes[1] * rates[1]);
//! ```
//!
//! Every answer is proved to be the one that the Posit Standard (2022) gives; `docs/DIFFERENCES.md` of the repository lists where
//! softposit 0.4.0 answers otherwise. Two things differ for the compiler: functions are not `const`, and of softposit's traits only
//! the operators are here.
//!
//! What softposit has not: one accumulator added to another or taken from it, and its total without the sign (`qAddQ`, `qSubQ` and
//! `qAbs` of [`Q32E2`]); the image of an accumulator, batches of products, and the check of a claim about one, each of which says no
//! by a [`Refusal`].

mod desk;
pub mod ffi;
mod p32e2;
mod q32e2;

pub use desk::{check_claim, Refusal};
pub use p32e2::P32E2;
pub use q32e2::Q32E2;
