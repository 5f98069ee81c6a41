// Code as a user of the crate writes it. `same_text.rs` compiles it twice: with softposit's types and with ours.

/// Products added up, and every method but the fused ones.
pub fn bill(minutes: &[u32], rates: &[u32]) -> ([u64; 8], Vec<u32>) {
    let mut total = Q32E2::init();
    let mut rounded = P32E2::ZERO;
    for (&m, &r) in minutes.iter().zip(rates) {
        let (m, r) = (P32E2::from_bits(m), P32E2::from_bits(r));
        total += (m, r);
        total.add_product(r, m);
        total -= (P32E2::ONE, m);
        total.sub_product(P32E2::ONE, r);
        total += r;
        total -= m;
        rounded = rounded + m * r - m / r;
        rounded = rounded.sub(m.sqrt().neg());
        rounded += m.recip().sqrt();
        rounded = rounded.add(m.sub(r).mul(m).div(r));
        if rounded.is_nar() || rounded.is_zero() {
            rounded = -m;
        }
    }
    let mut other = Q32E2::from_posit(rounded);
    let from_words = Q32E2::from_bits(total.to_bits());
    let mut patterns = vec![total.to_posit().to_bits(), rounded.to_bits(), other.to_posit().to_bits()];
    let (a, b) = from_words.into_two_posits();
    patterns.extend([a, b].map(|p| p.to_bits()));
    other.clear();
    patterns.push(other.is_zero() as u32 + 2 * other.is_nar() as u32);
    (total.to_bits(), patterns)
}

pub fn fused(a: u32, b: u32, c: u32) -> [u32; 3] {
    let (a, b, c) = (P32E2::from_bits(a), P32E2::from_bits(b), P32E2::from_bits(c));
    [a.mul_add(b, c), a.mul_sub(b, c), a.sub_product(b, c)].map(|p| p.to_bits())
}
