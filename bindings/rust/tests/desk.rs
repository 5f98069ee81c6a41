//! Images, batches and claims at every limit of docs/SPECIFICATION.md, section 5.
use stallhitch::{check_claim, Refusal, P32E2, Q32E2};

const LIMIT: usize = 16384;

fn p(bits: u32) -> P32E2 {
    P32E2::from_bits(bits)
}

/// A state with other bytes at every place.
fn state() -> Q32E2 {
    Q32E2::from_bits(std::array::from_fn(|i| u64::from_be_bytes(std::array::from_fn(|j| (8 * i + j + 1) as u8))))
}

fn image(q: &Q32E2) -> [u8; 64] {
    let mut image = [0; 64];
    q.write_image(&mut image).unwrap();
    image
}

/// Patterns near 1 of both signs.
fn list(n: usize, step: u32) -> Vec<P32E2> {
    (0..n as u32).map(|i| p(0x3800_0000 + i.wrapping_mul(step) % (1 << 28) + ((i % 2) << 31))).collect()
}

#[test]
fn numbers_and_words() {
    let all = [
        (Refusal::WrongLength, 1, "the bytes are not 64"),
        (Refusal::BufferTooShort, 2, "the buffer is shorter than 64 bytes"),
        (Refusal::UnequalLists, 3, "the two lists differ in length"),
        (Refusal::TooManyPairs, 4, "there are more than 16384 pairs"),
        (Refusal::ClaimDiffers, 5, "the claim is not the image of the batch"),
    ];
    for (refusal, number, text) in all {
        assert_eq!(refusal.number(), number);
        let error: Box<dyn std::error::Error> = refusal.into();
        assert_eq!(error.to_string(), text);
    }
}

#[test]
fn images_are_written_high_byte_first() {
    assert_eq!(image(&state()), std::array::from_fn(|i| i as u8 + 1));
    assert_eq!(image(&Q32E2::ONE), std::array::from_fn(|i| (i == 33) as u8));
    assert_eq!(image(&Q32E2::NAR), std::array::from_fn(|i| if i == 0 { 0x80 } else { 0 }));
    assert_eq!(image(&Q32E2::ZERO), [0; 64]);
}

#[test]
fn buffers_of_every_length() {
    for n in 0..=130 {
        let mut buffer = vec![0xA5; n];
        let answer = state().write_image(&mut buffer);
        if n < 64 {
            assert_eq!(answer, Err(Refusal::BufferTooShort), "{n} bytes");
            assert_eq!(buffer, vec![0xA5; n]);
        } else {
            assert_eq!(answer, Ok(()), "{n} bytes");
            assert_eq!(buffer[..64], image(&state()));
            assert_eq!(buffer[64..], vec![0xA5; n - 64]);
        }
    }
}

#[test]
fn images_of_every_length() {
    let bytes: Vec<u8> = (0..130).map(|i| 200 - i).collect();
    for n in 0..=130 {
        let mut q = state();
        let answer = q.read_image(&bytes[..n]);
        if n == 64 {
            assert_eq!(answer, Ok(()));
            assert_eq!(image(&q), bytes[..64]);
        } else {
            assert_eq!(answer, Err(Refusal::WrongLength), "{n} bytes");
            assert_eq!(q, state());
        }
    }
}

#[test]
fn an_image_leads_out_of_nar() {
    let mut q = Q32E2::NAR;
    q.read_image(&[0; 64]).unwrap();
    assert!(q.is_zero());
}

#[test]
fn a_batch_is_its_steps() {
    for n in [0, 1, 2, 63, 1000, LIMIT - 1, LIMIT] {
        let (a, b) = (list(n, 0x1234_5677), list(n, 0x89AB_CDEF));
        let mut steps = state();
        a.iter().zip(&b).for_each(|(&a, &b)| steps.add_product(a, b));
        let mut q = state();
        assert_eq!(q.add_batch(&a, &b), Ok(()), "{n} pairs");
        assert_eq!(q, steps, "{n} pairs");
    }
}

#[test]
fn the_range_is_judged_after_each_pair() {
    let largest = Q32E2::from_bits([u64::MAX >> 1, !0, !0, !0, !0, !0, !0, !0]);
    let (a, b) = ([p(1), p(1)], [p(1), -p(1)]);
    let mut q = largest;
    q.add_batch(&a, &b).unwrap();
    assert_eq!(q, Q32E2::NAR);
    let mut q = largest;
    q.add_batch(&b, &b).unwrap();
    assert_eq!(q, Q32E2::NAR);
    let mut q = largest;
    q.add_batch(&[-p(1), p(1)], &[p(1), p(1)]).unwrap();
    assert_eq!(q, largest);
}

#[test]
fn batches_that_are_refused_change_nothing() {
    let (a, b) = (list(LIMIT + 2, 0x1234_5677), list(LIMIT + 2, 0x89AB_CDEF));
    let refused = [
        (LIMIT + 1, LIMIT + 1, Refusal::TooManyPairs),
        (LIMIT + 2, LIMIT + 2, Refusal::TooManyPairs),
        (LIMIT + 1, LIMIT, Refusal::UnequalLists),
        (LIMIT, LIMIT + 1, Refusal::UnequalLists),
        (LIMIT + 2, LIMIT + 1, Refusal::UnequalLists),
        (LIMIT, LIMIT - 1, Refusal::UnequalLists),
        (0, 1, Refusal::UnequalLists),
        (1, 0, Refusal::UnequalLists),
        (0, LIMIT + 1, Refusal::UnequalLists),
    ];
    for (n, m, refusal) in refused {
        let mut q = state();
        assert_eq!(q.add_batch(&a[..n], &b[..m]), Err(refusal), "{n} and {m}");
        assert_eq!(q, state());
        for length in [0, 63, 64, 65] {
            assert_eq!(check_claim(&a[..n], &b[..m], &vec![0; length]), Err(refusal), "{n} and {m}, {length} bytes");
        }
    }
    assert_eq!(a, list(LIMIT + 2, 0x1234_5677));
    assert_eq!(b, list(LIMIT + 2, 0x89AB_CDEF));
}

#[test]
fn claims() {
    for n in [0, 1, 2, 1000, LIMIT] {
        let (a, b) = (list(n, 0x1234_5677), list(n, 0x89AB_CDEF));
        let mut q = Q32E2::init();
        q.add_batch(&a, &b).unwrap();
        let right = image(&q);
        assert_eq!(check_claim(&a, &b, &right), Ok(()), "{n} pairs");
        let mut long = right.to_vec();
        long.push(0);
        for length in [0, 63, 65] {
            assert_eq!(check_claim(&a, &b, &long[..length]), Err(Refusal::WrongLength), "{n} pairs, {length} bytes");
        }
        assert_eq!(long[..64], right);
    }
}

#[test]
fn a_claim_differs_in_any_byte() {
    let (a, b) = (list(100, 0x1234_5677), list(100, 0x89AB_CDEF));
    let mut q = Q32E2::init();
    q.add_batch(&a, &b).unwrap();
    let right = image(&q);
    for place in 0..64 {
        for change in [1, 0x80, 0xFF] {
            let mut claim = right;
            claim[place] ^= change;
            let lent = claim;
            assert_eq!(check_claim(&a, &b, &claim), Err(Refusal::ClaimDiffers), "byte {place}");
            assert_eq!(claim, lent);
        }
    }
}

#[test]
fn a_claim_of_nar() {
    let (a, b) = ([P32E2::ONE, P32E2::NAR, P32E2::ONE], [P32E2::ONE, P32E2::ZERO, P32E2::ONE]);
    assert_eq!(check_claim(&a, &b, &image(&Q32E2::NAR)), Ok(()));
    assert_eq!(check_claim(&a, &b, &[0; 64]), Err(Refusal::ClaimDiffers));
    assert_eq!(check_claim(&a[..1], &b[..1], &image(&Q32E2::NAR)), Err(Refusal::ClaimDiffers));
    assert_eq!(check_claim(&a[..1], &b[..1], &image(&Q32E2::ONE)), Ok(()));
}
