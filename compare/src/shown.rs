//! The inputs that docs/DIFFERENCES.md shows, with the answers that it shows: the source's, then ours.
use crate::model::{Words, NAR_WORDS};
use softposit::{P32E2, Q32E2};
use stallhitch::ffi::*;

const ONES: u64 = u64::MAX;
const TOP: u64 = 1 << 63;
const LARGEST: Words = [TOP - 1, ONES, ONES, ONES, ONES, ONES, ONES, ONES];
const LOWEST: Words = [TOP, 0, 0, 0, 0, 0, 0, 1];

type Fused = (&'static str, [u32; 3], u32, u32);
const FUSED: [Fused; 12] = [
    ("mul_add", [0x4000_0007, 0x4200_0000, 0], 0x4200_0008, 0x4200_0009),
    ("mul_add", [0x7FFF_1000, 0x7FFF_2000, 0], 0x7FFF_FFFC, 0x7FFF_FFFD),
    ("mul_add", [0x0000_0001, 0xA000_0000, 0x0000_0003], 0x0000_0002, 0x0000_0003),
    ("mul_sub", [0x8800_0000, 0x4000_0006, 0], 0x8800_0000, 0x87FF_FFFF),
    ("mul_sub", [0x4000_0000, 0x4000_0000, 0x4000_0000], 0x4800_0000, 0),
    ("sub_product", [0x4000_0000, 0x4000_0000, 0x4000_0000], 0x4800_0000, 0),
    ("mul_sub", [1, 1, 1], 1, 0xFFFF_FFFF),
    ("sub_product", [0, 1, 1], 1, 0xFFFF_FFFF),
    ("mul_add", [0x7FFF_FFFE, 0x5000_0000, 0x4000_0000], 0x7FFF_FFFE, 0x7FFF_FFFF),
    ("mul_add", [0x3000_0000, 0x8000_0001, 0xC000_0000], 0x8000_0002, 0x8000_0001),
    ("mul_add", [0x07B1_1B10, 0x062E_A200, 0x47FF_FFFF], 0x4800_0000, 0x4800_0001),
    ("mul_add", [0xA803_FF80, 0x4002_0040, 0x8100_0002], 0x8100_0000, 0x80FF_FFFF),
];

type Rounded = (Words, u32, u32);
const ROUNDED: [Rounded; 3] = [
    ([0, 0, 0, 0, 0, 0, 1, 0], 0, 1),
    ([TOP, 0, 0, 0, 0, 0, 1, 0], 0x8000_0000, 0x8000_0001),
    ([0, 0, 0x40_0000_0000, 0, 0, 0, 0, 1], 0x7FFF_FFFE, 0x7FFF_FFFF),
];

/// A product, or a posit where the second factor is none; added or taken.
type Step = (Words, u32, Option<u32>, bool, Words, Words);
const STEPS: [Step; 11] = [
    ([TOP, 0, 0, 0, 0, 0, 1, 0], 0x4000_0000, Some(0x4000_0000), true, NAR_WORDS, [TOP, 0, 0, 0, 1 << 48, 0, 1, 0]),
    ([TOP, 0, 0, 0, 0, 1, 0, 0], 1, None, false, [0; 8], [TOP, 0, 0, 0, 0, 0, 0xFF << 56, 0]),
    ([TOP, 0, 0, 0, 0, 0, 1, 0], 0, None, true, NAR_WORDS, [TOP, 0, 0, 0, 0, 0, 1, 0]),
    (LARGEST, 1, Some(1), true, [0; 8], NAR_WORDS),
    (LOWEST, 1, Some(1), false, [0; 8], NAR_WORDS),
    (LARGEST, 0x4000_0000, Some(0x4000_0000), true, [TOP, 0, 0, 0, 0xFFFF_FFFF_FFFF, ONES, ONES, ONES], NAR_WORDS),
    (LOWEST, 0x4000_0000, Some(0x4000_0000), false, [TOP - 1, ONES, ONES, ONES, 0xFFFF << 48, 0, 0, 1], NAR_WORDS),
    ([TOP, 0, 0, 0, 0, 1, 0, 0], 4, None, false, [0; 8], NAR_WORDS),
    ([TOP, 0, 0, 0, 0, 1, 0, 0], 4, Some(0xC000_0000), true, [0; 8], NAR_WORDS),
    (LOWEST, 1, None, false, [TOP - 1, ONES, ONES, ONES, ONES, ONES, 0xFF << 56, 1], NAR_WORDS),
    (LOWEST, 1, Some(2), false, [TOP - 1, ONES, ONES, ONES, ONES, ONES, ONES, ONES - 14], NAR_WORDS),
];

fn p(bits: u32) -> P32E2 {
    P32E2::from_bits(bits)
}

/// Whether all are as shown.
pub fn hold() -> bool {
    let mut wrong = Vec::new();
    for shown @ (name, [a, b, c], source, ours) in FUSED {
        let (x, y, z) = (p(a), p(b), p(c));
        let answers = match name {
            "mul_add" => (x.mul_add(y, z), stallhitch_p32e2_mul_add(a, b, c)),
            "mul_sub" => (x.mul_sub(y, z), stallhitch_p32e2_mul_sub(a, b, c)),
            _ => (x.sub_product(y, z), stallhitch_p32e2_sub_product(a, b, c)),
        };
        if (answers.0.to_bits(), answers.1) != (source, ours) {
            wrong.push(format!("{shown:X?}: {answers:X?}"));
        }
    }
    for shown @ (q, source, ours) in ROUNDED {
        let answers = (Q32E2::from_bits(q).to_posit().to_bits(), stallhitch_q32e2_to_posit(&q));
        if answers != (source, ours) {
            wrong.push(format!("{shown:X?}: {answers:X?}"));
        }
    }
    for shown @ (q, a, b, plus, source, ours) in STEPS {
        let (mut t, mut w) = (Q32E2::from_bits(q), q);
        match (b, plus) {
            (Some(b), true) => (t.add_product(p(a), p(b)), stallhitch_q32e2_add_product(&mut w, a, b)),
            (Some(b), false) => (t.sub_product(p(a), p(b)), stallhitch_q32e2_sub_product(&mut w, a, b)),
            (None, true) => (t += p(a), stallhitch_q32e2_add_posit(&mut w, a)),
            (None, false) => (t -= p(a), stallhitch_q32e2_sub_posit(&mut w, a)),
        };
        if (t.to_bits(), w) != (source, ours) {
            wrong.push(format!("{shown:X?}: {:X?}, {w:X?}", t.to_bits()));
        }
    }
    wrong.iter().for_each(|w| println!("NOT AS SHOWN: {w}"));
    let n = FUSED.len() + ROUNDED.len() + STEPS.len();
    println!("Inputs that docs/DIFFERENCES.md shows: {n}, not as shown: {}", wrong.len());
    wrong.is_empty()
}
