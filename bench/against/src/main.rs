//! The steps of this tree against those of an earlier one. `run` links both, each four times, and calls this:
//!
//!     against time ROUNDS                    nanoseconds of every step on every mix
//!     against name STEP SIDE                 the symbol of a step
//!     against once STEP MIX                  every step once on each side, for a count
//!     against counted STEP MIX SIDE COUNT    the line of a count
#[allow(dead_code)] // `size` is for roots, which are no steps
#[path = "../../src/mixes.rs"]
mod mixes;
mod totals;

use mixes::MIXES;
use std::hint::black_box;
use std::time::Instant;
use totals::{across, day};

/// How many pairs each mix has: the most that a batch may have.
const PAIRS: usize = 1 << 14;

/// How many times each archive is linked.
const PLACES: usize = 4;

type Product = extern "C" fn(&mut [u64; 8], u32, u32);
type Posit = extern "C" fn(&mut [u64; 8], u32);
type Batch = unsafe extern "C" fn(&mut [u64; 8], *const u32, usize, *const u32, usize) -> u32;
type Claim = unsafe extern "C" fn(*const u32, usize, *const u32, usize, *const u8, usize) -> u32;

/// One copy of one archive.
#[derive(Clone, Copy)]
struct Copy {
    product: Product,
    posit: Posit,
    batch: Batch,
    claim: Claim,
}

macro_rules! copy {
    ($prefix:literal) => {{
        extern "C" {
            #[link_name = concat!($prefix, "_stallhitch_q32e2_add_product")]
            fn product(q: &mut [u64; 8], a: u32, b: u32);
            #[link_name = concat!($prefix, "_stallhitch_q32e2_add_posit")]
            fn posit(q: &mut [u64; 8], a: u32);
            #[link_name = concat!($prefix, "_stallhitch_add_batch")]
            fn batch(q: &mut [u64; 8], a: *const u32, n: usize, b: *const u32, m: usize) -> u32;
            #[link_name = concat!($prefix, "_stretch")]
            fn stretch();
            #[link_name = concat!($prefix, "_stallhitch_check_claim")]
            fn claim(a: *const u32, n: usize, b: *const u32, m: usize, c: *const u8, k: usize) -> u32;
        }
        black_box(stretch as unsafe extern "C" fn()); // or the linker would leave it out
        // SAFETY: the proved functions ask nothing of their caller but that references and lengths are right
        unsafe {
            Copy {
                product: std::mem::transmute::<unsafe extern "C" fn(&mut [u64; 8], u32, u32), Product>(product),
                posit: std::mem::transmute::<unsafe extern "C" fn(&mut [u64; 8], u32), Posit>(posit),
                batch,
                claim,
            }
        }
    }};
}

fn sides() -> [[Copy; PLACES]; 2] {
    [
        [copy!("before0"), copy!("before1"), copy!("before2"), copy!("before3")],
        [copy!("now0"), copy!("now1"), copy!("now2"), copy!("now3")],
    ]
}

/// What is timed and counted: one call of a step for each pair, or one of a batch or a claim for all.
const STEPS: [(&str, &str); 4] = [
    ("product", "stallhitch_q32e2_add_product"),
    ("posit", "stallhitch_q32e2_add_posit"),
    ("batch", "stallhitch_add_batch"),
    ("claim", "stallhitch_check_claim"),
];

/// How many mixes there are: the four of `bench`, a box's day, and totals on both sides of 0.
const ALL: usize = MIXES.len() + 2;

/// The pairs of a mix.
fn pairs(mix: usize) -> (&'static str, Vec<u32>, Vec<u32>) {
    let (name, triples) = match MIXES.get(mix) {
        Some(m) => (m.name, m.triples(PAIRS)),
        None if mix == MIXES.len() => ("a box's day", day(PAIRS)),
        None => ("across 0", across(PAIRS)),
    };
    let (a, b) = triples.iter().map(|&[a, b, _]| (a, b)).unzip();
    (name, a, b)
}

/// The words after all pairs, from clear; for a claim, its number.
fn once(step: &str, copy: Copy, a: &[u32], b: &[u32]) -> [u64; 8] {
    let mut q = [0; 8];
    match step {
        "product" => a.iter().zip(b).for_each(|(&a, &b)| (copy.product)(&mut q, a, b)),
        "posit" => a.iter().for_each(|&a| (copy.posit)(&mut q, a)),
        // SAFETY: each pointer has its length beside it
        "batch" => assert_eq!(unsafe { (copy.batch)(&mut q, a.as_ptr(), a.len(), b.as_ptr(), b.len()) }, 0),
        _ => q[0] = unsafe { (copy.claim)(a.as_ptr(), a.len(), b.as_ptr(), b.len(), [0; 64].as_ptr(), 64) }.into(),
    }
    q
}

/// The least nanoseconds for one pair, by step, mix, side and place. Everything takes turns, so that what disturbs the machine for a while disturbs all alike.
fn least(rounds: u32) -> Vec<Vec<[[f64; PLACES]; 2]>> {
    let copies = black_box(sides());
    let mixes: Vec<_> = (0..ALL).map(pairs).collect();
    let mut least = vec![vec![[[f64::MAX; PLACES]; 2]; mixes.len()]; STEPS.len()];
    for _ in 0..rounds {
        for ((step, _), rows) in STEPS.iter().zip(&mut least) {
            for ((name, a, b), row) in mixes.iter().zip(rows) {
                let first = once(step, copies[0][0], a, b);
                for place in 0..PLACES {
                    for side in 0..2 {
                        let start = Instant::now();
                        let words = black_box(once(step, copies[side][place], a, b));
                        let taken = start.elapsed().as_nanos() as f64 / PAIRS as f64;
                        assert_eq!(words, first, "{step} on {name}");
                        row[side][place] = row[side][place].min(taken);
                    }
                }
            }
        }
    }
    least
}

fn time(rounds: u32) {
    println!("nanoseconds for one pair: the best of four places, and in brackets the worst");
    println!("{:<8} {:<17} {:>15}  {:>15}  ratio", "", "", "before", "now");
    for ((step, _), rows) in STEPS.iter().zip(least(rounds)) {
        for (mix, row) in rows.into_iter().enumerate() {
            let best = row.map(|l| l.into_iter().fold(f64::MAX, f64::min));
            let worst = row.map(|l| l.into_iter().fold(0.0, f64::max));
            let [before, now] = [0, 1].map(|s| format!("{:.2} ({:.2})", best[s], worst[s]));
            println!("{step:<8} {:<17} {before:>15}  {now:>15}  {:5.2}", pairs(mix).0, best[1] / best[0]);
        }
    }
}

fn main() {
    let words: Vec<String> = std::env::args().skip(1).collect();
    let words: Vec<&str> = words.iter().map(String::as_str).collect();
    match words[..] {
        ["time", rounds] => time(rounds.parse().expect("a number of rounds")),
        ["name", step, side] => {
            let symbol = STEPS.iter().find(|(s, _)| *s == step).expect("a step").1;
            println!("{side}0_{symbol}");
        }
        ["once", step, mix] => {
            let (_, a, b) = pairs(mix.parse().expect("a mix"));
            let [before, now] = sides();
            assert_eq!(once(step, before[0], &a, &b), once(step, now[0], &a, &b));
        }
        ["counted", step, mix, side, count] => {
            let count: f64 = count.parse().expect("a count");
            let (name, ..) = pairs(mix.parse().expect("a mix"));
            println!("{step:<8} {name:<17} {side:<6}  {:7.1} instructions for one pair", count / PAIRS as f64);
        }
        _ => panic!("see the head of this file"),
    }
}
