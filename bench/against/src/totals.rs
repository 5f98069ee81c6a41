//! Pairs that are told by their totals: a box's day, and totals on both sides of 0. None has 0 or NaR.
use crate::mixes::next;

/// The pattern of a whole number from 1 to 15: no run but the shortest, two digits of the exponent, and what follows the leading one.
fn whole(n: u32) -> u32 {
    let e = n.ilog2();
    0x4000_0000 | e << 27 | (n << (27 - e)) & 0x07FF_FFFF
}

/// A box's day, the same at each call: 1 to 15 minutes at a rate from 1/16 to below 1, so that all products are small and of one sign.
pub fn day(n: usize) -> Vec<[u32; 3]> {
    let mut seed: u64 = 2;
    let mut line = || {
        let r = next(&mut seed);
        [whole(1 + (r >> 32) as u32 % 15), 0x2000_0000 | r as u32 & 0x1FFF_FFFF, 0]
    };
    (0..n).map(|_| line()).collect()
}

/// Totals of 1 and 2 in turn, the sign of each at random, the same at each call: at half of the pairs the total comes to the other side of 0, and every word above changes.
pub fn across(n: usize) -> Vec<[u32; 3]> {
    let mut seed: u64 = 3;
    let mut total = 0i32;
    let mut line = |i: usize| {
        let size = 1 + (i % 2) as i32;
        let to = if next(&mut seed) >> 63 == 1 { -size } else { size };
        let moved = to - total;
        total = to;
        let p = whole(moved.unsigned_abs());
        [if moved < 0 { p.wrapping_neg() } else { p }, whole(1), 0]
    };
    (0..n).map(&mut line).collect()
}
