//! The desk: images, batches and claims. The answers that are expected are the model's, from docs/SPECIFICATION.md, 4.10 to 4.12
//! and section 5. The source has no desk; a loop of its `add_product` stands for a batch.
use crate::big::{Big, Signed};
use crate::inputs::{self, Random};
use crate::model::{self, Image, Words, NAR};
use crate::report::{Input, Report, Shown};
use crate::{entries, p, theirs};
use softposit::Q32E2;
use stallhitch::ffi::*;
use std::hint::black_box;

fn write_image(q: &Words, buffer: &mut [u8]) -> u32 {
    // SAFETY: pointer and length are of one slice, lent to be written.
    unsafe { stallhitch_write_image(q, buffer.as_mut_ptr(), buffer.len()) }
}

fn read_image(q: &mut Words, bytes: &[u8]) -> u32 {
    // SAFETY: pointer and length are of one slice.
    unsafe { stallhitch_read_image(q, bytes.as_ptr(), bytes.len()) }
}

fn add_batch(q: &mut Words, a: &[u32], b: &[u32]) -> u32 {
    // SAFETY: each pointer and its length are of one slice.
    unsafe { stallhitch_add_batch(q, a.as_ptr(), a.len(), b.as_ptr(), b.len()) }
}

fn check_claim(a: &[u32], b: &[u32], claim: &[u8]) -> u32 {
    // SAFETY: each pointer and its length are of one slice.
    unsafe { stallhitch_check_claim(a.as_ptr(), a.len(), b.as_ptr(), b.len(), claim.as_ptr(), claim.len()) }
}

fn bytes(r: &mut Random, n: usize) -> Vec<u8> {
    (0..n).map(|_| r.next() as u8).collect()
}

/// An image into a buffer of so many bytes, with others before and behind it that have to stay.
fn write(report: &mut Report, r: &mut Random, q: Words, length: usize) {
    let before = r.below(9) as usize;
    let memory = bytes(r, before + length + 70);
    let due = model::write_refusal(length);
    let mut expected = memory.clone();
    if due == 0 {
        expected[before..before + 64].copy_from_slice(&model::image(model::from_words(q)));
    }
    let (mut lent, mut ours) = (q, memory.clone());
    let number = write_image(&lent, &mut ours[before..before + length]);
    black_box((&mut lent, &mut ours));
    let name = if due == 0 { "write_image" } else { "write_image, number 2" };
    report.check(name, || format!("{q:X?}, {length} bytes"), (number, lent, ours), (due, q, expected));
}

/// An image, or bytes that are none, read over the state q.
fn read(report: &mut Report, r: &mut Random, q: Words, image: &[u8]) {
    let before = r.below(9) as usize;
    let mut memory = bytes(r, before + image.len() + 9);
    memory[before..before + image.len()].copy_from_slice(image);
    let due = model::read_refusal(image.len());
    let expected = image.try_into().map_or(q, |image: &Image| model::to_words(model::from_image(image)));
    let (mut ours, mut lent) = (q, memory.clone());
    let number = read_image(&mut ours, &lent[before..before + image.len()]);
    black_box((&mut ours, &mut lent));
    let name = if due == 0 { "read_image" } else { "read_image, number 1" };
    report.check(name, || format!("{q:X?}, {image:X?}"), (number, ours, lent), (due, expected, memory));
}

/// An image read by ours and one product added; the source begins at the words that the bytes are.
fn read_and_step(report: &mut Report, image: &Image, a: u32, b: u32) {
    let mut ours = [u64::MAX; 8];
    let number = read_image(&mut ours, image);
    stallhitch_q32e2_add_product(&mut ours, a, b);
    let state = model::from_image(image);
    let total = model::moved(state, model::product(a, b), true);
    let after = model::to_words(model::judged(total));
    let q: Words = std::array::from_fn(|i| u64::from_be_bytes(image[8 * i..8 * i + 8].try_into().unwrap()));
    let source = theirs(|| {
        let mut t = Q32E2::from_bits(q);
        t.add_product(p(a), p(b));
        Shown::After(0, t.to_bits())
    });
    let answer = source.clone();
    let input = Input { name: "read_image and a step", words: Some(q), patterns: &[a, b] };
    report.compare(input, Shown::After(number, ours), Shown::After(0, after), source, || match answer {
        Shown::After(_, t) => entries::step(q, total, t),
        _ => None,
    });
}

/// What ours writes, ours reads back.
fn write_and_read(report: &mut Report, q: Words) {
    let (mut image, mut back) = ([0xA5; 64], [u64::MAX; 8]);
    let numbers = (write_image(&q, &mut image), read_image(&mut back, &image));
    report.check("write_image and read_image", || format!("{q:X?}"), (numbers, back), ((0, 0), q));
}

/// A batch on the state q.
fn batch(report: &mut Report, q: Words, a: &[u32], b: &[u32]) {
    let (mut ours, mut lent) = (q, (a.to_vec(), b.to_vec()));
    let number = add_batch(&mut ours, &lent.0, &lent.1);
    black_box((&mut ours, &mut lent));
    let same = lent.0 == a && lent.1 == b;
    let due = model::batch_refusal(a.len(), b.len());
    if due != 0 {
        let name = if due == 3 { "add_batch, number 3" } else { "add_batch, number 4" };
        let input = || format!("{q:X?}, {} and {} patterns", a.len(), b.len());
        report.check(name, input, (number, ours, same), (due, q, true));
        return;
    }
    let pairs: Vec<u32> = a.iter().zip(b).flat_map(|(&a, &b)| [a, b]).collect();
    let input = Input { name: "add_batch", words: Some(q), patterns: &pairs };
    if !same {
        report.wrong(|| format!("{input}: the lists were changed"));
    }
    let after = model::to_words(model::batch(model::from_words(q), a, b));
    let source = theirs(|| {
        let mut t = Q32E2::from_bits(q);
        a.iter().zip(b).for_each(|(&a, &b)| t.add_product(p(a), p(b)));
        Shown::After(0, t.to_bits())
    });
    let answer = source.clone();
    report.compare(input, Shown::After(number, ours), Shown::After(0, after), source, || match answer {
        Shown::After(_, t) => wrong_steps(q, a, b, t),
        _ => None,
    });
}

/// The entry of the first step at which the source leaves the right way. It goes on from where it then is, and each later step
/// has to be right from there or to have an entry as well.
fn wrong_steps(q: Words, a: &[u32], b: &[u32], theirs: Words) -> Option<entries::Entry> {
    let mut now = q;
    let mut first = None;
    for (&a, &b) in a.iter().zip(b) {
        let mut source = Q32E2::from_bits(now);
        source.add_product(p(a), p(b));
        let after = source.to_bits();
        let total = model::moved(model::from_words(now), model::product(a, b), true);
        if after != model::to_words(model::judged(total)) {
            let entry = entries::step(now, total, after)?;
            first = first.or(Some(entry));
        }
        now = after;
    }
    first.filter(|_| now == theirs)
}

/// A claim about a batch from zero, whose right image is `rebuilt`.
fn claim(report: &mut Report, a: &[u32], b: &[u32], rebuilt: &Image, claim: &[u8]) {
    let mut lent = (a.to_vec(), b.to_vec(), claim.to_vec());
    let number = check_claim(&lent.0, &lent.1, &lent.2);
    black_box(&mut lent);
    let same = lent.0 == a && lent.1 == b && lent.2 == claim;
    let due = model::claim_refusal(a.len(), b.len(), rebuilt, claim);
    let name = match due {
        0 => "check_claim, right",
        1 => "check_claim, number 1",
        3 => "check_claim, number 3",
        4 => "check_claim, number 4",
        _ => "check_claim, number 5",
    };
    let input = || format!("{} and {} patterns, {} bytes {claim:X?}", a.len(), b.len(), claim.len());
    report.check(name, input, (number, same), (due, true));
}

/// The right claim, and it with one byte changed, at each place: to each that differs in one digit, and to another.
fn claims(report: &mut Report, r: &mut Random, a: &[u32], b: &[u32], rebuilt: &Image) {
    claim(report, a, b, rebuilt, rebuilt);
    for place in 0..64 {
        for change in (0..8).map(|i| 1 << i).chain([1 + r.below(255) as u8]) {
            let mut damaged = *rebuilt;
            damaged[place] ^= change;
            claim(report, a, b, rebuilt, &damaged);
        }
    }
}

fn rebuilt(a: &[u32], b: &[u32]) -> Image {
    model::image(model::batch(model::from_words([0; 8]), a, b))
}

/// Patterns, none of them NaR.
fn list(r: &mut Random, n: usize) -> Vec<u32> {
    let pattern = |_| loop {
        let p = r.pattern();
        if p != NAR {
            break p;
        }
    };
    (0..n).map(pattern).collect()
}

const LENGTHS: [usize; 7] = [0, 1, 2, 16_383, 16_384, 16_385, 16_386];

/// Every length at and around a limit, each with each.
pub fn limits(report: &mut Report, r: &mut Random) {
    for length in 0..=130 {
        for _ in 0..8 {
            let q = inputs::state(r);
            write(report, r, q, length);
            let image = bytes(r, length);
            read(report, r, q, &image);
        }
    }
    let most = LENGTHS[LENGTHS.len() - 1];
    let (a, b) = (list(r, most), list(r, most));
    // of unequal lists, and of lists that are too long, the claim is about the pairs that a careless desk might add
    let images = LENGTHS.map(|n| rebuilt(&a[..n], &b[..n]));
    for (i, n) in LENGTHS.into_iter().enumerate() {
        for (j, m) in LENGTHS.into_iter().enumerate() {
            let (a, b, image) = (&a[..n], &b[..m], &images[i.min(j)]);
            batch(report, inputs::state(r), a, b);
            batch(report, [0; 8], a, b);
            let mut long = image.to_vec();
            long.extend(bytes(r, 66));
            for length in 0..=130 {
                claim(report, a, b, image, &long[..length]);
            }
            claim(report, a, b, image, &bytes(r, 64));
            if n == m {
                claims(report, r, a, b, image);
            }
        }
    }
    // NaR at the front and at the end
    for n in [1, 2, 16_384] {
        for place in [0, n - 1] {
            let (mut a, b) = (a[..n].to_vec(), &b[..n]);
            a[place] = NAR;
            for (a, b) in [(&a[..], b), (b, &a[..])] {
                batch(report, inputs::state(r), a, b);
                claims(report, r, a, b, &rebuilt(a, b));
                claim(report, a, b, &rebuilt(a, b), &[0; 64]);
            }
        }
    }
}

/// Two lists of equal length and a state to begin from.
fn pairs(r: &mut Random) -> (Words, Vec<u32>, Vec<u32>) {
    let n = match r.below(40) {
        0 => 0,
        1 => r.below(1024) as usize,
        _ => 1 + r.below(24) as usize,
    };
    let (mut a, mut b) = (list(r, n), list(r, n));
    match r.below(5) {
        // near 1
        0 => [&mut a, &mut b].into_iter().flatten().for_each(|p| *p = *p % (1 << 28) + 0x3800_0000),
        // the second half takes what the first one brought
        1 => {
            for i in n / 2..n / 2 * 2 {
                (a[i], b[i]) = (a[i - n / 2].wrapping_neg(), b[i - n / 2]);
            }
        }
        2 if n > 0 && r.coin() => {
            let place = r.below(n as u64) as usize;
            [&mut a, &mut b][r.below(2) as usize][place] = NAR;
        }
        _ => {}
    }
    let mut q = if r.below(4) == 0 { [0; 8] } else { inputs::state(r) };
    // the first pair leads to the state; in place of NaR, to an end of the range
    if n > 0 && r.below(3) == 0 {
        let to = model::from_words(q).unwrap_or(Signed::new(r.coin(), Big::new(1, 511)));
        q = model::to_words(model::judged(model::moved(Some(to), model::product(a[0], b[0]), false)));
    }
    (q, a, b)
}

/// A state's image, written, read, damaged and stepped on from; a batch, and claims about one.
pub fn some(report: &mut Report, r: &mut Random) {
    let (q, other) = (inputs::state(r), inputs::state(r));
    let length = if r.below(4) == 0 { r.below(64) } else { 64 + r.below(67) } as usize;
    write(report, r, q, length);
    write_and_read(report, q);
    let mut image = model::image(model::from_words(q));
    read(report, r, other, &image);
    image[r.below(64) as usize] ^= 1 + r.below(255) as u8;
    read(report, r, other, &image);
    let (a, b) = (r.pattern(), r.pattern());
    read_and_step(report, &image, a, b);

    let (q, a, b) = pairs(r);
    batch(report, q, &a, &b);
    let mut image = rebuilt(&a, &b);
    claim(report, &a, &b, &image, &image);
    let right = image;
    image[r.below(64) as usize] ^= 1 + r.below(255) as u8;
    claim(report, &a, &b, &right, &image);
    // a claim of another length, and lists of which one lacks its end
    let mut cut = right.to_vec();
    cut.resize(r.below(131) as usize, 0);
    claim(report, &a, &b, &right, &cut);
    let less = &b[..r.below(b.len() as u64 + 1) as usize];
    batch(report, q, &a, less);
    claim(report, &a, less, &right, &cut);
}
