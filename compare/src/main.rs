//! compare INPUTS SEED: the proved functions, the Rust source and the exact model on the same inputs.
//! compare every: neg, recip and sqrt of every pattern. README.md says more.
mod big;
mod desk;
mod entries;
mod inputs;
mod joins;
mod model;
mod report;
mod same_text;
mod shown;

use big::{Big, Signed};
use inputs::Random;
use model::Words;
use report::{Input, Report, Shown};
use softposit::{P32E2, Q32E2};
use stallhitch::ffi::*;
use std::panic::{catch_unwind, AssertUnwindSafe};
use std::sync::Mutex;

/// Where the source last panicked, and what it said.
static PANIC: Mutex<String> = Mutex::new(String::new());

/// The source's answer, or its panic.
fn theirs(f: impl FnOnce() -> Shown) -> Shown {
    catch_unwind(AssertUnwindSafe(f)).unwrap_or_else(|_| Shown::Panic(PANIC.lock().unwrap().clone()))
}

fn p(bits: u32) -> P32E2 {
    P32E2::from_bits(bits)
}

fn pattern(x: P32E2) -> Shown {
    Shown::Pattern(x.to_bits())
}

/// All operations on one triple.
fn posits(report: &mut Report, [a, b, c]: [u32; 3]) {
    let mut one = |name,
                   patterns: &[u32],
                   ours,
                   model,
                   source: &dyn Fn() -> P32E2,
                   entry: &dyn Fn(u32) -> Option<entries::Entry>| {
        let theirs = theirs(|| pattern(source()));
        let answer = match theirs {
            Shown::Pattern(x) => Some(x),
            _ => None,
        };
        let input = Input { name, words: None, patterns };
        report.compare(input, Shown::Pattern(ours), Shown::Pattern(model), theirs, || entry(answer?));
    };
    let none = |_| None;
    let (x, y, z) = (p(a), p(b), p(c));
    one("neg", &[a], stallhitch_p32e2_neg(a), model::neg(a), &|| x.neg(), &none);
    one("recip", &[a], stallhitch_p32e2_recip(a), model::recip(a), &|| x.recip(), &none);
    one("sqrt", &[a], stallhitch_p32e2_sqrt(a), model::sqrt(a), &|| x.sqrt(), &none);
    one("add", &[a, b], stallhitch_p32e2_add(a, b), model::add(a, b), &|| x.add(y), &none);
    one("sub", &[a, b], stallhitch_p32e2_sub(a, b), model::sub(a, b), &|| x.sub(y), &none);
    one("mul", &[a, b], stallhitch_p32e2_mul(a, b), model::mul(a, b), &|| x.mul(y), &none);
    one("div", &[a, b], stallhitch_p32e2_div(a, b), model::div(a, b), &|| x.div(y), &none);
    let sum = stallhitch_p32e2_mul_add(a, b, c);
    one("mul_add", &[a, b, c], sum, model::mul_add(a, b, c), &|| x.mul_add(y, z), &|t| {
        entries::mul_add(a, b, c, sum, t)
    });
    let difference = stallhitch_p32e2_mul_sub(a, b, c);
    let their_sum = || x.mul_add(y, z).to_bits();
    one("mul_sub", &[a, b, c], difference, model::mul_sub(a, b, c), &|| x.mul_sub(y, z), &|t| {
        entries::mul_sub(a, b, c, difference, t, their_sum())
    });
    one(
        "sub_product",
        &[c, a, b],
        stallhitch_p32e2_sub_product(c, a, b),
        model::sub_product(c, a, b),
        &|| z.sub_product(x, y),
        &|t| entries::sub_product(c, a, b, t, their_sum()),
    );
}

/// What a step brings.
#[derive(Clone, Copy)]
enum Operand {
    Posit(u32),
    Product(u32, u32),
}

/// One step on a state, compared; the state after it, by the model.
fn step(report: &mut Report, q: Words, operand: Operand, plus: bool) -> Words {
    let mut ours = q;
    let patterns: &[u32];
    let pair;
    let (name, value) = match operand {
        Operand::Posit(a) => {
            let f = if plus { stallhitch_q32e2_add_posit } else { stallhitch_q32e2_sub_posit };
            f(&mut ours, a);
            pair = [a, 0];
            patterns = &pair[..1];
            (if plus { "q_add_posit" } else { "q_sub_posit" }, model::value(a))
        }
        Operand::Product(a, b) => {
            let f = if plus { stallhitch_q32e2_add_product } else { stallhitch_q32e2_sub_product };
            f(&mut ours, a, b);
            pair = [a, b];
            patterns = &pair;
            (if plus { "q_add_product" } else { "q_sub_product" }, model::product(a, b))
        }
    };
    let source = theirs(|| {
        let mut t = Q32E2::from_bits(q);
        match (operand, plus) {
            (Operand::Posit(a), true) => t += p(a),
            (Operand::Posit(a), false) => t -= p(a),
            (Operand::Product(a, b), true) => t.add_product(p(a), p(b)),
            (Operand::Product(a, b), false) => t.sub_product(p(a), p(b)),
        }
        Shown::Words(t.to_bits())
    });
    let before = model::from_words(q);
    let total = model::moved(before, value, plus);
    let after = model::to_words(model::judged(total));
    let input = Input { name, words: Some(q), patterns };
    let answer = source.clone();
    report.compare(input, Shown::Words(ours), Shown::Words(after), source, || match answer {
        Shown::Words(t) => entries::step(q, total, t),
        _ => None,
    });
    after
}

/// The questions, the rounding and the negative of a state.
fn views(report: &mut Report, q: Words) {
    let state = model::from_words(q);
    let input = |name| Input { name, words: Some(q), patterns: &[] };
    let zero = state.is_some_and(|t| t.size.is_zero());
    report.compare(
        input("q_is_zero"),
        Shown::Answer(stallhitch_q32e2_is_zero(&q)),
        Shown::Answer(zero),
        theirs(|| Shown::Answer(Q32E2::from_bits(q).is_zero())),
        || entries::is_zero(q, Q32E2::from_bits(q).is_zero()),
    );
    report.compare(
        input("q_is_nar"),
        Shown::Answer(stallhitch_q32e2_is_nar(&q)),
        Shown::Answer(state.is_none()),
        theirs(|| Shown::Answer(Q32E2::from_bits(q).is_nar())),
        || entries::is_nar(q, Q32E2::from_bits(q).is_nar()),
    );
    let posit = stallhitch_q32e2_to_posit(&q);
    let source = theirs(|| pattern(Q32E2::from_bits(q).to_posit()));
    let answer = source.clone();
    report.compare(input("q_to_posit"), Shown::Pattern(posit), Shown::Pattern(model::to_posit(state)), source, || {
        match answer {
            Shown::Pattern(t) => entries::to_posit(q, posit, t),
            _ => None,
        }
    });
    let mut ours = q;
    stallhitch_q32e2_neg(&mut ours);
    let source = theirs(|| {
        let mut t = Q32E2::from_bits(q);
        t.neg();
        Shown::Words(t.to_bits())
    });
    let answer = source.clone();
    let negative = model::to_words(state.map(|t| t.neg()));
    report.compare(input("q_neg"), Shown::Words(ours), Shown::Words(negative), source, || match answer {
        Shown::Words(t) => entries::neg(q, t),
        _ => None,
    });
}

/// Two and three parts. Where they differ, it is by a rounding or a step that differs, and that one's entry is given.
fn parts(report: &mut Report, q: Words) {
    let (mut ours, mut exact) = (q, model::from_words(q));
    let (mut our_parts, mut model_parts) = (Vec::new(), Vec::new());
    for _ in 0..3 {
        let posit = stallhitch_q32e2_to_posit(&ours);
        stallhitch_q32e2_sub_posit(&mut ours, posit);
        our_parts.push(posit);
        let posit = model::to_posit(exact);
        exact = model::judged(model::moved(exact, model::value(posit), false));
        model_parts.push(posit);
    }
    for n in [2, 3] {
        let source = theirs(|| {
            let t = Q32E2::from_bits(q);
            Shown::Parts(if n == 2 {
                let (a, b) = t.into_two_posits();
                vec![a.to_bits(), b.to_bits()]
            } else {
                let (a, b, c) = t.into_three_posits();
                vec![a.to_bits(), b.to_bits(), c.to_bits()]
            })
        });
        let name = if n == 2 { "q_two_parts" } else { "q_three_parts" };
        let input = Input { name, words: Some(q), patterns: &[] };
        let (ours, model) = (our_parts[..n].to_vec(), model_parts[..n].to_vec());
        let panicked = matches!(source, Shown::Panic(_));
        report.compare(input, Shown::Parts(ours), Shown::Parts(model), source, || {
            if panicked {
                None
            } else {
                first_wrong_part(q)
            }
        });
    }
}

/// The entry of the first rounding or step at which the source leaves the right way to the parts of q.
fn first_wrong_part(q: Words) -> Option<entries::Entry> {
    let mut exact = q;
    for _ in 0..3 {
        let mut source = Q32E2::from_bits(exact);
        let posit = model::to_posit(model::from_words(exact));
        let rounded = source.to_posit().to_bits();
        if rounded != posit {
            return entries::to_posit(exact, posit, rounded);
        }
        source -= p(posit);
        let total = model::moved(model::from_words(exact), model::value(posit), false);
        let rest = model::to_words(model::judged(total));
        if source.to_bits() != rest {
            return entries::step(exact, total, source.to_bits());
        }
        exact = rest;
    }
    None
}

/// A state from a posit: the source has a function, ours is clear and one step.
fn from_posit(report: &mut Report, a: u32) {
    let mut ours = [u64::MAX; 8];
    stallhitch_q32e2_clear(&mut ours);
    stallhitch_q32e2_add_posit(&mut ours, a);
    let source = theirs(|| Shown::Words(Q32E2::from_posit(p(a)).to_bits()));
    let input = Input { name: "q_from_posit", words: None, patterns: &[a] };
    report.compare(input, Shown::Words(ours), Shown::Words(model::to_words(model::value(a))), source, || None);
}

fn operand(r: &mut Random) -> Operand {
    if r.below(3) == 0 {
        Operand::Posit(r.pattern())
    } else {
        Operand::Product(r.pattern(), r.pattern())
    }
}

/// A state, looked at, moved in every way, and moved to; in place of NaR an end of the range is moved to.
fn states(report: &mut Report, r: &mut Random) {
    let q = inputs::state(r);
    views(report, q);
    parts(report, q);
    let (a, b) = (r.pattern(), r.pattern());
    from_posit(report, a);
    for plus in [true, false] {
        for (operand, value) in [(Operand::Posit(a), model::value(a)), (Operand::Product(a, b), model::product(a, b))] {
            step(report, q, operand, plus);
            let to = model::from_words(q).unwrap_or(Signed::new(plus, Big::new(1, 511)));
            let before = model::moved(Some(to), value, !plus);
            step(report, model::to_words(model::judged(before)), operand, plus);
        }
    }
}

/// Many steps one after the other, compared after each. Where the source goes wrong it goes on from the right state.
fn history(report: &mut Report, r: &mut Random) {
    let mut q = if r.below(4) == 0 { inputs::state(r) } else { [0; 8] };
    let near_one = r.coin();
    for _ in 0..16 << r.below(6) {
        let next = operand(r);
        let next = match next {
            Operand::Posit(model::NAR) | Operand::Product(model::NAR, _) | Operand::Product(_, model::NAR)
                if r.below(16) > 0 =>
            {
                continue
            }
            Operand::Product(a, b) if near_one => {
                Operand::Product(a % (1 << 28) + 0x3800_0000, b % (1 << 28) + 0x3800_0000)
            }
            other => other,
        };
        let plus = r.below(3) > 0;
        q = step(report, q, next, plus);
        match r.below(32) {
            0 => {
                views(report, q);
                stallhitch_q32e2_neg(&mut q);
            }
            1 => {
                let posit = model::to_posit(model::from_words(q));
                q = step(report, q, Operand::Posit(posit), false);
            }
            _ => {}
        }
        if q == model::NAR_WORDS && r.below(8) == 0 {
            q = [0; 8];
        }
    }
    views(report, q);
    parts(report, q);
}

/// The operations of one operand on all 2^32 patterns, ours against theirs; the model is asked where they differ.
fn every_pattern() -> bool {
    let mut report = Report::default();
    let mut differ = [0u64; 3];
    for a in 0..=u32::MAX {
        let x = p(a);
        let same = [
            stallhitch_p32e2_neg(a) == x.neg().to_bits(),
            stallhitch_p32e2_recip(a) == x.recip().to_bits(),
            stallhitch_p32e2_sqrt(a) == x.sqrt().to_bits(),
        ];
        if same != [true; 3] {
            same.iter().zip(&mut differ).for_each(|(same, n)| *n += !same as u64);
            posits(&mut report, [a, 0, 0]);
        }
    }
    println!(
        "Of 2^32 patterns the source differs in neg on {}, in recip on {}, in sqrt on {}.",
        differ[0], differ[1], differ[2]
    );
    differ == [0; 3] || report.finish("")
}

/// A panic of the source is kept for its answer; any other is shown as usual.
fn keep_panics() {
    let usual = std::panic::take_hook();
    std::panic::set_hook(Box::new(move |info| {
        let place = info.location().map_or(String::new(), |l| format!("{}:{}", l.file(), l.line()));
        if place.contains("softposit") {
            *PANIC.lock().unwrap() = format!("{place} {}", info.payload_as_str().unwrap_or(""));
        } else {
            usual(info);
        }
    }));
}

/// Whether ours is right on about so many inputs, and every difference of the source explained.
fn compared(wanted: u64, seed: u64) -> bool {
    let sparse = inputs::sparse_products();
    let mut r = Random::new(seed);
    let mut report = Report::default();
    // The desk and the joins have random numbers and a report of their own: what the rest meets does not depend on them.
    let own_seed = Random::new(seed).next();
    let [mut desk_r, mut join_r] = [own_seed, !own_seed].map(Random::new);
    let [mut desk_report, mut join_report] = [Report::default(), Report::default()];
    desk::limits(&mut desk_report, &mut desk_r);
    joins::limits(&mut join_report);
    while report.inputs() < wanted {
        for _ in 0..400 {
            posits(&mut report, inputs::triple(&mut r, &sparse));
            states(&mut report, &mut r);
            joins::some(&mut join_report, &mut join_r);
        }
        for _ in 0..4 {
            history(&mut report, &mut r);
            joins::history(&mut join_report, &mut join_r);
        }
        for _ in 0..40 {
            desk::some(&mut desk_report, &mut desk_r);
        }
    }
    report.finish("") & desk_report.finish("of the desk ") & join_report.finish("of whole accumulators ")
}

fn main() {
    if std::env::args().nth(1).as_deref() == Some("every") {
        std::process::exit(!every_pattern() as i32);
    }
    let mut args = std::env::args().skip(1).map(|a| a.parse::<u64>().expect("a number"));
    let (Some(wanted), Some(seed)) = (args.next(), args.next()) else {
        eprintln!("usage: compare INPUTS SEED | compare every");
        std::process::exit(2);
    };
    keep_panics();
    let start = std::time::Instant::now();
    let right = compared(wanted, seed) & shown::hold() & same_text::agrees();
    println!("Seconds: {}", start.elapsed().as_secs());
    std::process::exit(!right as i32);
}
