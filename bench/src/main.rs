//! bench ROUNDS: nanoseconds of the proved functions and of the Rust source on the same inputs, and their ratio.
//!
//! Both are called through function pointers that the optimiser cannot see through, so neither is inlined into the loop.
//! Ours and theirs take turns within a round. What is timed stands in `main`, a line each.
mod mixes;

use mixes::{size, MIXES};
use softposit::{P32E2, Q32E2};
use stallhitch::ffi::*;
use std::hint::black_box;
use std::time::Instant;

/// How many inputs a mix has.
const INPUTS: usize = 1 << 16;

/// How many states are rounded, each after one more product.
const STATES: usize = 1 << 14;

/// How many pairs a batch has: the most that it may have.
const PAIRS: usize = 1 << 14;

fn p(bits: u32) -> P32E2 {
    P32E2::from_bits(bits)
}

fn main() {
    let rounds = std::env::args().nth(1).map_or(15, |a| a.parse().expect("a number of rounds"));
    let mut bench = Bench { rounds, operations: Vec::new(), steps: Vec::new(), joins: Vec::new() };
    println!("{:<12} {:<16} {:<10}  {:>7}  {:>7}  {:>5}", "", "mix", "", "ours ns", "Rust ns", "ratio");

    bench.operation("add", two(stallhitch_p32e2_add), |a, b, _| p(a).add(p(b)).to_bits());
    bench.operation("sub", two(stallhitch_p32e2_sub), |a, b, _| p(a).sub(p(b)).to_bits());
    bench.operation("mul", two(stallhitch_p32e2_mul), |a, b, _| p(a).mul(p(b)).to_bits());
    bench.operation("div", two(stallhitch_p32e2_div), |a, b, _| p(a).div(p(b)).to_bits());
    bench.operation("recip", one(stallhitch_p32e2_recip), |a, _, _| p(a).recip().to_bits());
    bench.operation("sqrt", one(stallhitch_p32e2_sqrt), |a, _, _| p(a).sqrt().to_bits());
    bench.operation("mul_add", three(stallhitch_p32e2_mul_add), |a, b, c| p(a).mul_add(p(b), p(c)).to_bits());
    // the source's two do not subtract (docs/DIFFERENCES.md, 4), so that most results differ
    bench.operation("mul_sub", three(stallhitch_p32e2_mul_sub), |a, b, c| p(a).mul_sub(p(b), p(c)).to_bits());
    bench.operation("sub_product", three(stallhitch_p32e2_sub_product), |a, b, c| {
        p(a).sub_product(p(b), p(c)).to_bits()
    });

    bench.step("add_product", product(stallhitch_q32e2_add_product), |q, a, b| q.add_product(p(a), p(b)));
    bench.step("sub_product", product(stallhitch_q32e2_sub_product), |q, a, b| q.sub_product(p(a), p(b)));
    bench.step("add_posit", posit(stallhitch_q32e2_add_posit), |q, a, _| *q += p(a));
    bench.to_posit();
    bench.batch();
    bench.claim();
    println!("{:<12} {:<16} {:<10}  {:>7}  {:>7}  {:>5}", "", "mix", "", "ours ns", "step ns", "ratio");
    bench.join("qAddQ", other(stallhitch_q32e2_qAddQ));
    bench.join("qSubQ", other(stallhitch_q32e2_qSubQ));
    bench.join("qAbs", alone(stallhitch_q32e2_qAbs));
    bench.tables();
}

// Ours, by the number of operands.

fn one(f: extern "C" fn(u32) -> u32) -> impl Fn(u32, u32, u32) -> u32 {
    let f = black_box(f);
    move |a, _, _| f(a)
}

fn two(f: extern "C" fn(u32, u32) -> u32) -> impl Fn(u32, u32, u32) -> u32 {
    let f = black_box(f);
    move |a, b, _| f(a, b)
}

fn three(f: extern "C" fn(u32, u32, u32) -> u32) -> impl Fn(u32, u32, u32) -> u32 {
    let f = black_box(f);
    move |a, b, c| f(a, b, c)
}

fn posit(f: extern "C" fn(&mut [u64; 8], u32)) -> impl Fn(&mut [u64; 8], u32, u32) {
    let f = black_box(f);
    move |q, a, _| f(q, a)
}

fn product(f: extern "C" fn(&mut [u64; 8], u32, u32)) -> impl Fn(&mut [u64; 8], u32, u32) {
    let f = black_box(f);
    move |q, a, b| f(q, a, b)
}

fn other(f: extern "C" fn(&mut [u64; 8], &[u64; 8])) -> impl Fn(&mut [u64; 8], &[u64; 8]) {
    let f = black_box(f);
    move |q, p| f(q, p)
}

/// What has no other accumulator is done to a copy of it.
fn alone(f: extern "C" fn(&mut [u64; 8])) -> impl Fn(&mut [u64; 8], &[u64; 8]) {
    let f = black_box(f);
    move |q, p| {
        *q = *p;
        f(q)
    }
}

/// The lowest and the highest figures over the mixes.
struct Spread {
    ours: [f64; 2],
    ratio: [f64; 2],
}

impl Spread {
    fn new() -> Spread {
        Spread { ours: [f64::MAX, 0.0], ratio: [f64::MAX, 0.0] }
    }

    fn add(&mut self, [ours, theirs]: [f64; 2]) {
        let widen = |s: &mut [f64; 2], x: f64| *s = [s[0].min(x), s[1].max(x)];
        widen(&mut self.ours, ours);
        widen(&mut self.ratio, ours / theirs);
    }

    fn row(&self) -> String {
        let range = |[a, b]: [f64; 2], digits: usize| format!("{a:.digits$} to {b:.digits$}");
        format!("{} | {}", range(self.ours, 1), range(self.ratio, 2))
    }
}

struct Bench {
    rounds: u32,
    operations: Vec<String>,
    steps: Vec<String>,
    joins: Vec<String>,
}

impl Bench {
    /// The least nanoseconds of one of n, for ours and theirs.
    fn best(&self, n: usize, mut ours: impl FnMut(), mut theirs: impl FnMut()) -> [f64; 2] {
        let time = |f: &mut dyn FnMut()| {
            let start = Instant::now();
            f();
            start.elapsed().as_nanos() as f64 / n as f64
        };
        let mut least = [f64::MAX; 2];
        for _ in 0..self.rounds {
            least[0] = least[0].min(time(&mut ours));
            least[1] = least[1].min(time(&mut theirs));
        }
        least
    }

    fn line(&self, name: &str, mix: &str, what: &str, [ours, theirs]: [f64; 2]) {
        println!("{name:<12} {mix:<16} {what:<10}  {ours:7.2}  {theirs:7.2}  {:5.2}", ours / theirs);
    }

    fn differ(&self, name: &str, mix: &str, differ: usize, n: usize) {
        if differ > 0 {
            println!("{name:<12} {mix:<16} {differ} of {n} results differ");
        }
    }

    /// An operation: on independent inputs, and with each result in the next first operand.
    fn operation(&mut self, name: &str, ours: impl Fn(u32, u32, u32) -> u32, theirs: fn(u32, u32, u32) -> u32) {
        let theirs = black_box(theirs);
        let [mut apart, mut chained] = [Spread::new(), Spread::new()];
        for mix in MIXES {
            let mut inputs = mix.triples(INPUTS);
            if name == "sqrt" {
                inputs.iter_mut().for_each(|t| t[0] = size(t[0]));
            }
            let differ = inputs.iter().filter(|&&[a, b, c]| ours(a, b, c) != theirs(a, b, c)).count();
            let times = self.best(INPUTS, || independent(&inputs, &ours), || independent(&inputs, theirs));
            self.line(name, mix.name, "throughput", times);
            apart.add(times);
            let times = self.best(INPUTS, || dependent(&inputs, &ours), || dependent(&inputs, theirs));
            self.line(name, mix.name, "latency", times);
            chained.add(times);
            self.differ(name, mix.name, differ, INPUTS);
        }
        self.operations.push(format!("| `{name}` | {} | {} |", apart.row(), chained.row()));
    }

    /// A step of the accumulator: all inputs one after the other, from clear.
    fn step(&mut self, name: &str, ours: impl Fn(&mut [u64; 8], u32, u32), theirs: fn(&mut Q32E2, u32, u32)) {
        let theirs = black_box(theirs);
        let mut spread = Spread::new();
        for mix in MIXES {
            let inputs = mix.triples(INPUTS);
            let (mut q, mut t) = ([0; 8], Q32E2::init());
            for &[a, b, _] in &inputs {
                ours(&mut q, a, b);
                theirs(&mut t, a, b);
            }
            self.differ(name, mix.name, (q != t.to_bits()) as usize, 1);
            let times = self.best(
                INPUTS,
                || {
                    let mut q = [0; 8];
                    inputs.iter().for_each(|&[a, b, _]| ours(&mut q, a, b));
                    black_box(q);
                },
                || {
                    let mut q = Q32E2::init();
                    inputs.iter().for_each(|&[a, b, _]| theirs(&mut q, a, b));
                    black_box(q);
                },
            );
            self.line(name, mix.name, "step", times);
            spread.add(times);
        }
        self.steps.push(format!("| `{name}` | {} |", spread.row()));
    }

    /// The rounding of totals.
    fn to_posit(&mut self) {
        let name = "to_posit";
        let ours = black_box(stallhitch_q32e2_to_posit as extern "C" fn(&[u64; 8]) -> u32);
        let theirs: fn(&Q32E2) -> u32 = black_box(|q| q.to_posit().to_bits());
        let mut spread = Spread::new();
        for mix in MIXES {
            let mut q = [0; 8];
            let mut states = Vec::new();
            for [a, b, _] in mix.triples(STATES) {
                stallhitch_q32e2_add_product(&mut q, a, b);
                states.push(q);
            }
            let same: Vec<Q32E2> = states.iter().map(|&q| Q32E2::from_bits(q)).collect();
            let differ = states.iter().zip(&same).filter(|(a, b)| ours(a) != theirs(b)).count();
            let times = self.best(
                STATES,
                || {
                    black_box(states.iter().fold(0, |s, q| s ^ ours(q)));
                },
                || {
                    black_box(same.iter().fold(0, |s, q| s ^ theirs(q)));
                },
            );
            self.line(name, mix.name, "rounding", times);
            self.differ(name, mix.name, differ, STATES);
            spread.add(times);
        }
        self.steps.push(format!("| `{name}` | {} |", spread.row()));
    }

    /// A whole batch from clear, against a loop of the source's steps.
    fn batch(&mut self) {
        self.whole("batch", |a, b, _| our_batch(a, b), |a, b, _| their_batch(a, b));
    }

    /// A right claim about a whole batch. The source has no claim check: its side is the loop, the image, and its comparison.
    fn claim(&mut self) {
        self.whole("check_claim", our_answer, |a, b, claim| [(image(&their_batch(a, b)) != *claim) as u64; 8]);
    }

    /// What is done once with all pairs of a batch. The figures are for one pair.
    fn whole(&mut self, name: &str, ours: Whole, theirs: Whole) {
        let [ours, theirs] = [black_box(ours), black_box(theirs)];
        let mut spread = Spread::new();
        for mix in MIXES {
            let (a, b): (Vec<u32>, Vec<u32>) = mix.triples(PAIRS).iter().map(|&[a, b, _]| (a, b)).unzip();
            let claim = image(&their_batch(&a, &b));
            self.differ(name, mix.name, (ours(&a, &b, &claim) != theirs(&a, &b, &claim)) as usize, 1);
            let times = self.best(
                PAIRS,
                || {
                    black_box(ours(&a, &b, &claim));
                },
                || {
                    black_box(theirs(&a, &b, &claim));
                },
            );
            self.line(name, mix.name, "a pair", times);
            spread.add(times);
        }
        self.steps.push(format!("| `{name}`, a pair of {PAIRS} | {} |", spread.row()));
    }

    /// Whole accumulators, which the source has not. Each has one product; the other side is our own step that adds such a product.
    fn join(&mut self, name: &str, ours: impl Fn(&mut [u64; 8], &[u64; 8])) {
        let step = product(stallhitch_q32e2_add_product);
        let mut spread = Spread::new();
        for mix in MIXES {
            let inputs = mix.triples(STATES);
            let one = |&[a, b, _]: &[u32; 3]| {
                let mut q = [0; 8];
                step(&mut q, a, b);
                q
            };
            let states: Vec<[u64; 8]> = inputs.iter().map(one).collect();
            let joined = || {
                let mut q = [0; 8];
                states.iter().for_each(|p| ours(&mut q, p));
                q
            };
            let stepped = || {
                let mut q = [0; 8];
                inputs.iter().for_each(|&[a, b, _]| step(&mut q, a, b));
                q
            };
            self.differ(name, mix.name, (name == "qAddQ" && joined() != stepped()) as usize, 1);
            let times = self.best(
                STATES,
                || {
                    black_box(joined());
                },
                || {
                    black_box(stepped());
                },
            );
            self.line(name, mix.name, "step", times);
            spread.add(times);
        }
        self.joins.push(format!("| `{name}` | {} |", spread.row()));
    }

    fn tables(&self) {
        println!("\n| operation | throughput, ours | ratio over the mixes | latency, ours | ratio over the mixes |");
        println!("|---|---|---|---|---|");
        self.operations.iter().for_each(|row| println!("{row}"));
        println!("\n| accumulator | ours | ratio over the mixes |\n|---|---|---|");
        self.steps.iter().for_each(|row| println!("{row}"));
        println!("\n| whole accumulator | ours | ratio to `add_product`, over the mixes |\n|---|---|---|");
        self.joins.iter().for_each(|row| println!("{row}"));
    }
}

/// From two lists of patterns and a claim, the words of the batch, or the answer to the claim eight times.
type Whole = fn(&[u32], &[u32], &[u8; 64]) -> [u64; 8];

fn our_batch(a: &[u32], b: &[u32]) -> [u64; 8] {
    let mut q = [0; 8];
    // SAFETY: each pointer has the length of its slice beside it
    unsafe { stallhitch_add_batch(&mut q, a.as_ptr(), a.len(), b.as_ptr(), b.len()) };
    q
}

fn our_answer(a: &[u32], b: &[u32], claim: &[u8; 64]) -> [u64; 8] {
    // SAFETY: as above
    [unsafe { stallhitch_check_claim(a.as_ptr(), a.len(), b.as_ptr(), b.len(), claim.as_ptr(), claim.len()) }.into(); 8]
}

fn their_batch(a: &[u32], b: &[u32]) -> [u64; 8] {
    let mut q = Q32E2::init();
    a.iter().zip(b).for_each(|(&a, &b)| q.add_product(p(a), p(b)));
    q.to_bits()
}

/// Word 0 first, each word high byte first.
fn image(words: &[u64; 8]) -> [u8; 64] {
    let mut bytes = [0; 64];
    bytes.chunks_exact_mut(8).zip(words).for_each(|(eight, word)| eight.copy_from_slice(&word.to_be_bytes()));
    bytes
}

fn independent(inputs: &[[u32; 3]], f: impl Fn(u32, u32, u32) -> u32) {
    black_box(inputs.iter().fold(0, |s, &[a, b, c]| s ^ f(a, b, c)));
}

/// The last digit of a result is turned into that of the next operand, so that the mix stays what it is.
fn dependent(inputs: &[[u32; 3]], f: impl Fn(u32, u32, u32) -> u32) {
    black_box(inputs.iter().fold(0, |s, &[a, b, c]| f(a ^ (s & 1), b, c)));
}
