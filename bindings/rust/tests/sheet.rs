//! The bench sheet of docs/SPECIFICATION.md, section 7, through the binding, and the binding's own forms.
use stallhitch::{P32E2, Q32E2};

fn p(bits: u32) -> P32E2 {
    P32E2::from_bits(bits)
}

const LARGEST: [u64; 8] = [u64::MAX >> 1, !0, !0, !0, !0, !0, !0, !0];
const LOWEST: [u64; 8] = [1 << 63, 0, 0, 0, 0, 0, 0, 1];

#[test]
fn cases_1_to_11() {
    assert_eq!((p(0x7FFF_FFFD) + p(0x7FFF_FFFD)).to_bits(), 0x7FFF_FFFE);
    assert_eq!((p(0x7FFF_FFFE) + p(0x7FFF_FFFE)).to_bits(), 0x7FFF_FFFE);
    assert_eq!(P32E2::MAX + P32E2::MAX, P32E2::MAX);
    assert_eq!(P32E2::MIN_POSITIVE * P32E2::MIN_POSITIVE, P32E2::MIN_POSITIVE);
    assert_eq!((P32E2::ONE / p(0x4C00_0000)).to_bits(), 0x32AA_AAAB);
    assert!((P32E2::ZERO / P32E2::ZERO).is_nar());
    assert_eq!(P32E2::MIN_POSITIVE.sqrt().to_bits(), 0x0000_8000);
    assert_eq!(P32E2::MAX.sqrt().to_bits(), 0x7FFF_8000);
    assert_eq!(p(0x4000_0007).mul_add(p(0x4200_0000), P32E2::ZERO).to_bits(), 0x4200_0009);
    assert_eq!(p(0x7FFF_1000).mul_add(p(0x7FFF_2000), P32E2::ZERO).to_bits(), 0x7FFF_FFFD);
    assert!(P32E2::ONE.mul_sub(P32E2::ONE, P32E2::ONE).is_zero());
}

#[test]
fn cases_4_and_12_to_14() {
    let mut q = Q32E2::init();
    q += (P32E2::MIN_POSITIVE, P32E2::MIN_POSITIVE);
    assert_eq!(q.to_bits(), [0, 0, 0, 0, 0, 0, 0, 1]);

    q.clear();
    q += (p(0x100), p(0x100));
    assert_eq!(q.to_bits(), [0, 0, 0, 0, 0, 0, 1, 0]);
    assert!(!q.is_zero());

    let mut q = Q32E2::ONE;
    q.neg();
    assert_eq!(q.to_bits(), [!0, !0, !0, !0, 0xFFFF_0000_0000_0000, 0, 0, 0]);
    assert_eq!(q.to_posit(), -P32E2::ONE);

    let mut q = Q32E2::from_bits(LARGEST);
    q += (P32E2::MIN_POSITIVE, P32E2::MIN_POSITIVE);
    assert!(q.is_nar());
    let mut q = Q32E2::from_bits(LOWEST);
    q -= (P32E2::MIN_POSITIVE, P32E2::MIN_POSITIVE);
    assert_eq!(q, Q32E2::NAR);
}

#[test]
fn methods_and_operators_agree() {
    let (a, b, c) = (p(0x4C00_0000), p(0xB800_0000), p(0x3555_0001));
    assert_eq!(a + b, a.add(b));
    assert_eq!(a - b, a.sub(b));
    assert_eq!(a * b, a.mul(b));
    assert_eq!(a / b, a.div(b));
    assert_eq!(-a, a.neg());
    assert_eq!(b.recip(), P32E2::ONE / b);
    let mut x = a;
    x += b;
    x -= c;
    x *= a;
    x /= b;
    assert_eq!(x, (a + b - c) * a / b);
    assert_eq!(a.mul_sub(b, c), a.mul_add(b, -c));
    assert_eq!(c.sub_product(a, b), a.neg().mul_add(b, c));
}

#[test]
fn states_from_posits_and_in_parts() {
    assert_eq!(Q32E2::from_posit(P32E2::ONE), Q32E2::ONE);
    assert_eq!(Q32E2::from_posit(P32E2::NAR), Q32E2::NAR);
    let mut q = Q32E2::from_posit(P32E2::ONE);
    q += p(0x0000_8000);
    q -= P32E2::MIN_POSITIVE;
    let (first, second, third) = q.into_three_posits();
    assert_eq!([first, second, third], [P32E2::ONE, p(0x0000_8000), -P32E2::MIN_POSITIVE]);
    assert_eq!(Q32E2::NAR.into_two_posits(), (P32E2::NAR, P32E2::NAR));
}

#[test]
fn nar_stays_until_clear() {
    let mut q = Q32E2::init();
    q += P32E2::NAR;
    q += (P32E2::ONE, P32E2::ONE);
    q.neg();
    assert!(q.is_nar() && q.to_posit().is_nar());
    q.clear();
    assert!(q.is_zero() && q.to_posit().is_zero());
}
