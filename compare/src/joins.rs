//! Whole accumulators: one added to another or taken from it, and the total without its sign. The answers that are expected are the
//! model's, from docs/SPECIFICATION.md, 4.13 and 4.14. The source has none of the three.
use crate::big::{Big, Signed};
use crate::inputs::{self, Random};
use crate::model::{self, State, Words, NAR_WORDS};
use crate::report::Report;
use stallhitch::ffi::*;
use std::hint::black_box;

/// Ours; what is lent to be read has to stay.
fn ours_joined(q: Words, p: Words, plus: bool) -> (Words, Words) {
    let (mut ours, mut lent) = (q, p);
    let f = if plus { stallhitch_q32e2_qAddQ } else { stallhitch_q32e2_qSubQ };
    f(&mut ours, &lent);
    black_box(&mut lent);
    (ours, lent)
}

/// q, to which p is added or from which it is taken.
fn join(report: &mut Report, q: Words, p: Words, plus: bool) {
    let after = model::joined(model::from_words(q), model::from_words(p), plus);
    let name = if plus { "q_qAddQ" } else { "q_qSubQ" };
    report.check(name, || format!("{q:X?}, {p:X?}"), ours_joined(q, p, plus), (model::to_words(after), p));
}

fn size(report: &mut Report, q: Words) {
    let mut ours = q;
    stallhitch_q32e2_qAbs(&mut ours);
    let size = model::to_words(model::without_sign(model::from_words(q)));
    report.check("q_qAbs", || format!("{q:X?}"), ours, size);
}

/// The words of NaR with one more digit set.
fn off_nar(digit: usize) -> Words {
    let mut words = NAR_WORDS;
    words[7 - digit / 64] |= 1 << (digit % 64);
    words
}

fn a_state(r: &mut Random) -> Words {
    if r.below(8) == 0 {
        off_nar(r.below(511) as usize)
    } else {
        inputs::state(r)
    }
}

/// What an exact result is to be: 2^511, which is one unit beyond an end of the range, or up to two units to either side of it, on the side of q; a small number; any total.
fn aim(r: &mut Random, q: Signed) -> Signed {
    let little = Big::new(r.below(3), 0);
    match r.below(3) {
        0 if r.coin() => Signed::new(q.negative, Big::new(1, 511).add(little)),
        0 => Signed::new(q.negative, Big::new(1, 511).sub(little)),
        1 => Signed::new(r.coin(), Big::new(r.next() >> r.below(64), 64 * r.below(7) as usize)),
        _ => model::from_words(inputs::state(r)).unwrap_or(q),
    }
}

/// An accumulator that brings q there, or any.
fn other(r: &mut Random, q: Words, plus: bool) -> Words {
    let any = a_state(r);
    match model::from_words(q) {
        Some(t) if r.coin() => {
            let brought = aim(r, t).add(t.neg());
            let p = if plus { brought } else { brought.neg() };
            model::judged(Some(p)).map_or(any, |p| model::to_words(Some(p)))
        }
        _ => any,
    }
}

/// A state without its sign, and with another in either order and both directions; now and then with itself.
pub fn some(report: &mut Report, r: &mut Random) {
    let q = a_state(r);
    size(report, q);
    for plus in [true, false] {
        let p = if r.below(16) == 0 { q } else { other(r, q, plus) };
        size(report, p);
        join(report, q, p, plus);
        join(report, p, q, plus);
    }
}

/// Every end of the range, 0, small numbers and NaR, with each other and with all words that are one digit off NaR's.
pub fn limits(report: &mut Report) {
    let mut ends = vec![NAR_WORDS, [0; 8]];
    for (top, place) in [(1, 511), (1, 510), (1, 64), (3, 0), (1, 448)] {
        for little in 0..3 {
            let size = Big::new(top, place).sub(Big::new(little, 0));
            let states = [false, true].map(|negative| Signed::new(negative, size));
            ends.extend(states.into_iter().filter(|&t| model::in_range(t)).map(|t| model::to_words(Some(t))));
        }
    }
    let all: Vec<Words> = ends.iter().copied().chain((0..511).map(off_nar)).collect();
    for &q in &all {
        size(report, q);
        for &p in &ends {
            for plus in [true, false] {
                join(report, q, p, plus);
                join(report, p, q, plus);
            }
        }
    }
}

/// Three boxes, each with what it has to hold.
struct Boxes {
    ours: [Words; 3],
    exact: [State; 3],
}

impl Boxes {
    fn new(r: &mut Random) -> Boxes {
        let ours = [0; 3].map(|_| if r.coin() { [0; 8] } else { inputs::state(r) });
        Boxes { ours, exact: ours.map(model::from_words) }
    }

    /// One move of box i: a product, another box or itself, the negative, the size, or a turn through the image.
    fn moved(&mut self, r: &mut Random, i: usize) {
        let j = r.below(3) as usize;
        let (other, other_exact) = (self.ours[j], self.exact[j]);
        let (q, t) = (&mut self.ours[i], &mut self.exact[i]);
        let plus = r.coin();
        match r.below(8) {
            0 | 1 => {
                *q = ours_joined(*q, other, plus).0;
                *t = model::joined(*t, other_exact, plus);
            }
            2 => {
                *t = model::without_sign(*t);
                stallhitch_q32e2_qAbs(q);
            }
            3 => {
                *t = t.map(Signed::neg);
                stallhitch_q32e2_neg(q);
            }
            4 => *q = turned(*q),
            5 if t.is_none() => (*q, *t) = ([0; 8], model::from_words([0; 8])),
            _ => {
                let (a, b) = (r.pattern() % (1 << 28) + 0x3800_0000, r.pattern());
                let f = if plus { stallhitch_q32e2_add_product } else { stallhitch_q32e2_sub_product };
                f(q, a, b);
                *t = model::judged(model::moved(*t, model::product(a, b), plus));
            }
        }
    }
}

/// Written as 64 bytes, and read.
fn turned(q: Words) -> Words {
    let (mut image, mut read) = ([0; 64], [u64::MAX; 8]);
    // SAFETY: the pointer is to 64 bytes.
    unsafe {
        stallhitch_write_image(&q, image.as_mut_ptr(), 64);
        stallhitch_read_image(&mut read, image.as_ptr(), 64);
    }
    read
}

/// Boxes that are moved and joined, compared after each move.
pub fn history(report: &mut Report, r: &mut Random) {
    let mut boxes = Boxes::new(r);
    for _ in 0..16 + r.below(240) {
        let i = r.below(3) as usize;
        let before = boxes.ours;
        boxes.moved(r, i);
        let exact = boxes.exact.map(model::to_words);
        report.check("q_joined_history", || format!("box {i} of {before:X?}"), boxes.ours, exact);
        boxes.ours = exact;
    }
}
