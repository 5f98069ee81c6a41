//! Whole accumulators: one added to another or taken from it, and totals without their sign (docs/SPECIFICATION.md, 4.13 and 4.14).
use stallhitch::{P32E2, Q32E2};

const ONES: u64 = u64::MAX;
const TOP: u64 = 1 << 63;

/// 2^511 - 1 and its opposite.
const LARGEST: Q32E2 = Q32E2::from_bits([TOP - 1, ONES, ONES, ONES, ONES, ONES, ONES, ONES]);
const LOWEST: Q32E2 = Q32E2::from_bits([TOP, 0, 0, 0, 0, 0, 0, 1]);
/// One unit and its opposite.
const UNIT: Q32E2 = Q32E2::from_bits([0, 0, 0, 0, 0, 0, 0, 1]);
const MINUS_UNIT: Q32E2 = Q32E2::from_bits([ONES; 8]);

fn sum(mut q: Q32E2, p: Q32E2) -> Q32E2 {
    q.qAddQ(p);
    q
}

fn difference(mut q: Q32E2, p: Q32E2) -> Q32E2 {
    q.qSubQ(p);
    q
}

fn size(mut q: Q32E2) -> Q32E2 {
    q.qAbs();
    q
}

fn negative(mut q: Q32E2) -> Q32E2 {
    q.neg();
    q
}

/// States of every kind: the ends of the range, zero, units, words that are one digit off NaR's, and digits everywhere.
fn states() -> Vec<Q32E2> {
    let mut all = vec![Q32E2::ZERO, Q32E2::ONE, Q32E2::NAR, LARGEST, LOWEST, UNIT, MINUS_UNIT];
    for place in 0..8 {
        let mut words = [0; 8];
        words[place] = 1;
        all.push(Q32E2::from_bits(words));
        words[0] |= TOP;
        all.push(Q32E2::from_bits(words));
        all.push(Q32E2::from_bits(std::array::from_fn(|i| if i < place { 0 } else { ONES })));
        all.push(Q32E2::from_bits(std::array::from_fn(|i| {
            (i as u64 + 3).wrapping_mul(0x9E37_79B9_7F4A_7C15).rotate_left(7 * place as u32)
        })));
    }
    all
}

#[test]
fn two_boxes_are_as_one() {
    let products: Vec<(P32E2, P32E2)> = (0..1000u32)
        .map(|i| (0x4000_0000 + i * 0x1_2345, 0x3000_0000 + i * 0x4_5679 + ((i % 3 / 2) << 31)))
        .map(|(a, b)| (P32E2::from_bits(a), P32E2::from_bits(b)))
        .collect();
    for cut in [0, 1, 400, 999, 1000] {
        let mut images = [[0; 64]; 2];
        for (image, share) in images.iter_mut().zip([&products[..cut], &products[cut..]]) {
            let mut q = Q32E2::init();
            share.iter().for_each(|&pair| q += pair);
            q.write_image(image).unwrap();
        }
        let read = images.map(|image| {
            let mut q = Q32E2::NAR;
            q.read_image(&image).unwrap();
            q
        });
        let mut one = Q32E2::init();
        products.iter().for_each(|&pair| one += pair);
        assert_eq!(sum(read[0], read[1]), one, "{cut} in the first box");
        assert_eq!(sum(read[1], read[0]), one, "{cut} in the first box");
        assert_eq!(difference(one, read[0]), read[1], "{cut} in the first box");
    }
}

#[test]
fn with_itself() {
    for q in states() {
        let mut twice = q;
        twice.qAddQ(twice);
        assert_eq!(twice, sum(q, q));
        let mut again = q;
        again += again;
        assert_eq!(again, twice);
        let mut none = q;
        none.qSubQ(none);
        assert_eq!(none, if q.is_nar() { Q32E2::NAR } else { Q32E2::ZERO });
        let mut again = q;
        again -= again;
        assert_eq!(again, none);
    }
    let mut q = Q32E2::ONE;
    q.qAddQ(q);
    assert_eq!(q.to_bits(), [0, 0, 0, 0, 0x0002_0000_0000_0000, 0, 0, 0]);
    let half = Q32E2::from_bits([TOP >> 1, 0, 0, 0, 0, 0, 0, 0]);
    assert_eq!(sum(half, half), Q32E2::NAR);
    let less = difference(half, UNIT);
    assert_eq!(sum(less, less).to_bits(), [TOP - 1, ONES, ONES, ONES, ONES, ONES, ONES, ONES - 1]);
}

#[test]
fn nar_on_either_side() {
    for q in states() {
        assert_eq!(sum(q, Q32E2::NAR), Q32E2::NAR);
        assert_eq!(sum(Q32E2::NAR, q), Q32E2::NAR);
        assert_eq!(difference(q, Q32E2::NAR), Q32E2::NAR);
        assert_eq!(difference(Q32E2::NAR, q), Q32E2::NAR);
    }
    assert_eq!(difference(Q32E2::NAR, Q32E2::NAR), Q32E2::NAR);
    assert_eq!(size(Q32E2::NAR), Q32E2::NAR);
}

#[test]
fn the_ends_of_the_range() {
    assert_eq!(sum(LARGEST, UNIT), Q32E2::NAR);
    assert_eq!(sum(UNIT, LARGEST), Q32E2::NAR);
    assert_eq!(difference(LARGEST, MINUS_UNIT), Q32E2::NAR);
    assert_eq!(sum(LOWEST, MINUS_UNIT), Q32E2::NAR);
    assert_eq!(sum(MINUS_UNIT, LOWEST), Q32E2::NAR);
    assert_eq!(difference(LOWEST, UNIT), Q32E2::NAR);
    assert_eq!(difference(MINUS_UNIT, LARGEST), Q32E2::NAR);
    assert_eq!(sum(LARGEST, LARGEST), Q32E2::NAR);
    assert_eq!(sum(LOWEST, LOWEST), Q32E2::NAR);
    assert_eq!(difference(LARGEST, LOWEST), Q32E2::NAR);
    assert_eq!(difference(LOWEST, LARGEST), Q32E2::NAR);

    assert_eq!(difference(LARGEST, LARGEST), Q32E2::ZERO);
    assert_eq!(difference(LOWEST, LOWEST), Q32E2::ZERO);
    assert_eq!(sum(LARGEST, LOWEST), Q32E2::ZERO);
    assert_eq!(sum(LOWEST, LARGEST), Q32E2::ZERO);
    assert_eq!(sum(difference(LARGEST, UNIT), UNIT), LARGEST);
    assert_eq!(difference(sum(LOWEST, UNIT), UNIT), LOWEST);
    assert_eq!(difference(Q32E2::ZERO, LARGEST), LOWEST);
    assert_eq!(difference(Q32E2::ZERO, LOWEST), LARGEST);
}

#[test]
fn sizes() {
    assert_eq!(size(LOWEST), LARGEST);
    assert_eq!(size(LARGEST), LARGEST);
    assert_eq!(size(Q32E2::ZERO), Q32E2::ZERO);
    assert_eq!(size(MINUS_UNIT), UNIT);
    for q in states() {
        let negative_side = q.to_bits()[0] & TOP != 0;
        assert_eq!(size(q), if negative_side { negative(q) } else { q });
        assert_eq!(size(negative(q)), size(q));
        assert_eq!(size(size(q)), size(q));
    }
}

/// Words that are NaR's but for one digit are numbers, and are added as such.
#[test]
fn one_digit_off_nar() {
    assert_eq!(sum(LOWEST, UNIT).to_bits(), [TOP, 0, 0, 0, 0, 0, 0, 2]);
    assert_eq!(sum(UNIT, LOWEST).to_bits(), [TOP, 0, 0, 0, 0, 0, 0, 2]);
    for digit in 0..511 {
        let mut words = [0; 8];
        words[7 - digit / 64] = 1 << (digit % 64);
        let power = Q32E2::from_bits(words);
        words[0] |= TOP;
        let off = Q32E2::from_bits(words);
        assert!(!off.is_nar());
        assert_eq!(sum(off, Q32E2::ZERO), off);
        assert_eq!(difference(off, Q32E2::ZERO), off);
        assert_eq!(difference(off, power), Q32E2::NAR); // -2^511, which is no total
        assert_eq!(size(off), negative(off));
        assert_eq!(sum(size(off), off), Q32E2::ZERO);
        assert_eq!(sum(difference(LOWEST, off), off), LOWEST);
    }
}

/// Whichever comes first; and to take is to add the negative.
#[test]
fn orders_and_operators() {
    for q in states() {
        for p in states() {
            assert_eq!(sum(q, p), sum(p, q));
            assert_eq!(difference(q, p), sum(q, negative(p)));
            assert_eq!(difference(q, p), negative(difference(p, q)));
            let (mut plus, mut minus) = (q, q);
            plus += p;
            minus -= p;
            assert_eq!([plus, minus], [sum(q, p), difference(q, p)]);
        }
    }
}
