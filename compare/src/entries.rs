//! Which entry of docs/DIFFERENCES.md explains a difference: tests on the input and the answers, as narrow as the entries.
use crate::big::{Big, Signed};
use crate::model::{self, Exact, Words, NAR, UNIT};

/// The number of an entry, and which of its cases it is.
pub type Entry = (u32, &'static str);

const LOOKS_ALIKE: Entry = (1, "word 6 is not looked at");
const ARRIVES_ALIKE: Entry = (1, "a sum that looks like NaR but for word 6 becomes zero");
const WORD_0_ONLY: Entry = (2, "word 0 alone is negated");
const NEXT_DIGIT: Entry = (3, "the digit behind the rounding digit is left out");
const UNSUBTRACTED: Entry = (4, "it adds");
const TO_ZERO: Entry = (5, "a sum outside the range becomes zero");
const WRAPS: Entry = (5, "a sum outside the range wraps");
const FORGOTTEN: Entry = (6, "what lies below is forgotten");
const CARRIED: Entry = (7, "the last digit is lost to a carry");

/// A product and a posit added: x is the exact sum.
fn fused_sum(x: Signed, ours: u32, theirs: u32) -> Option<Entry> {
    let turn = |p: u32| if x.negative { p.wrapping_neg() } else { p };
    let (ours, theirs) = (turn(ours), turn(theirs));
    if x.size.is_zero() || x.size < model::size(1, 31) {
        return None;
    }
    let u = Exact::Whole(x.size).lower();
    if theirs != u || ours != u + 1 || u % 2 != 0 {
        return None;
    }
    let rest = x.size.sub(model::cut(u));
    let next = model::size(4 * u as u64 + 3, 33).sub(model::cut(u));
    // the last digit before the sum was moved down by one place for its carry
    let carried = x.size.leading().checked_sub(63).map(|i| Big::new(1, i));
    if rest == next {
        Some(NEXT_DIGIT)
    } else if next_to_largest(x, 56) {
        Some(FORGOTTEN)
    } else if carried.is_some_and(|last| rest == last || rest == next.add(last)) {
        Some(CARRIED)
    } else {
        None
    }
}

/// Above 2^118 by less than 2^below.
fn next_to_largest(x: Signed, below: usize) -> bool {
    let cut = Big::new(1, 118 + UNIT);
    cut < x.size && x.size < cut.add(Big::new(1, below + UNIT))
}

pub fn mul_add(a: u32, b: u32, c: u32, ours: u32, theirs: u32) -> Option<Entry> {
    fused_sum(model::fused(a, b, c)?, ours, theirs)
}

/// `their_sum` is what the source's mul_add gives for the same three.
pub fn mul_sub(a: u32, b: u32, c: u32, ours: u32, theirs: u32, their_sum: u32) -> Option<Entry> {
    if c == 0 {
        return mul_add(a, b, c, ours, theirs);
    }
    unsubtracted(a, b, c, theirs, their_sum)
}

pub fn sub_product(c: u32, a: u32, b: u32, theirs: u32, their_sum: u32) -> Option<Entry> {
    unsubtracted(a, b, c, theirs, their_sum)
}

fn unsubtracted(a: u32, b: u32, c: u32, theirs: u32, their_sum: u32) -> Option<Entry> {
    let real = [a, b, c].iter().all(|&p| p != NAR) && a != 0 && b != 0;
    (real && theirs == their_sum).then_some(UNSUBTRACTED)
}

/// Words that are `first` and zeros, but for word 6.
fn but_for_word_6(q: Words, first: u64) -> bool {
    q[6] != 0 && q == [first, 0, 0, 0, 0, 0, q[6], 0]
}

pub fn is_zero(q: Words, theirs: bool) -> Option<Entry> {
    (but_for_word_6(q, 0) && theirs).then_some(LOOKS_ALIKE)
}

pub fn is_nar(q: Words, theirs: bool) -> Option<Entry> {
    (but_for_word_6(q, 1 << 63) && theirs).then_some(LOOKS_ALIKE)
}

pub fn to_posit(q: Words, ours: u32, theirs: u32) -> Option<Entry> {
    if but_for_word_6(q, 0) && theirs == 0 || but_for_word_6(q, 1 << 63) && theirs == NAR {
        return Some(LOOKS_ALIKE);
    }
    let x = model::from_words(q)?;
    let sizes = if x.negative { [ours.wrapping_neg(), theirs.wrapping_neg()] } else { [ours, theirs] };
    (sizes == [0x7FFF_FFFF, 0x7FFF_FFFE] && next_to_largest(x, 55)).then_some(FORGOTTEN)
}

pub fn neg(q: Words, theirs: Words) -> Option<Entry> {
    let mut word_0_only = q;
    word_0_only[0] = q[0].wrapping_neg();
    (theirs == word_0_only).then_some(WORD_0_ONLY)
}

/// `total` is the exact new total, where neither state nor operand is NaR.
pub fn step(q: Words, total: Option<Signed>, theirs: Words) -> Option<Entry> {
    if but_for_word_6(q, 1 << 63) && theirs == model::NAR_WORDS {
        return Some(LOOKS_ALIKE);
    }
    let total = total?;
    let words = model::wrapped(total);
    let taken_for_nar = words == model::NAR_WORDS || but_for_word_6(words, 1 << 63);
    if theirs != if taken_for_nar { [0; 8] } else { words } {
        return None;
    }
    match (model::in_range(total), taken_for_nar) {
        (true, true) => Some(ARRIVES_ALIKE),
        (true, false) => None,
        (false, true) => Some(TO_ZERO),
        (false, false) => Some(WRAPS),
    }
}
