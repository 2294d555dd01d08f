//! Calls on a bank of models.

use crate::draw::{Draw, Style};
use crate::shapes;
use crate::text::Call;

/// EPSILON, and the numbers beside it.
const LEAST: [u64; 3] = [0x3CAF_FFFF_FFFF_FFFF, 0x3CB0_0000_0000_0000, 0x3CB0_0000_0000_0001];

/// A bank's sizes and its numbers; a model is a, x, p, q and its likelihood.
pub struct Bank {
    pub sizes: [usize; 3],
    pub models: Vec<[Vec<f64>; 5]>,
    pub transition: Vec<f64>,
    pub c: Vec<f64>,
    pub r: Vec<f64>,
    pub mu: Vec<f64>,
}

impl Bank {
    pub fn call(&self, op: &str) -> Call {
        let call = Call::new(op).wholes(&self.sizes);
        let call = self.models.iter().flatten().fold(call, |call, part| call.with(part));
        let call = call.with(&self.transition).with(&self.c).with(&self.r);
        if op == "imm_new" {
            call
        } else {
            call.with(&self.mu)
        }
    }

    /// Model i's part: 0 to 4 are a, x, p, q and the likelihood.
    fn part(&mut self, i: usize, part: usize) -> &mut Vec<f64> {
        &mut self.models[i][part]
    }
}

/// Numbers that sum to 1, about, some of them 0.
fn shares(draw: &mut Draw, count: usize) -> Vec<f64> {
    let mut parts: Vec<f64> = (0..count).map(|_| if draw.once_in(4) { 0.0 } else { draw.unit() }).collect();
    let sum: f64 = parts.iter().sum();
    if sum > 0.0 {
        parts.iter_mut().for_each(|x| *x /= sum);
    }
    parts
}

/// A bank as a bus needs it.
pub fn good(draw: &mut Draw, [n, m, k]: [usize; 3]) -> Bank {
    let mut model = || {
        [
            draw.numbers(Style::Ordinary, n * n),
            draw.numbers(Style::Ordinary, n),
            shapes::definite(draw, n),
            shapes::definite(draw, n),
            vec![draw.unit()],
        ]
    };
    let models = (0..k).map(|_| model()).collect();
    Bank {
        sizes: [n, m, k],
        models,
        transition: (0..k).flat_map(|_| shares(draw, k)).collect(),
        c: draw.numbers(Style::Ordinary, m * n),
        r: shapes::definite(draw, m),
        mu: shares(draw, k),
    }
}

/// A bank of numbers of one style.
pub fn styled(draw: &mut Draw, style: Style, [n, m, k]: [usize; 3]) -> Bank {
    let mut part = |count: usize| draw.numbers(style, count);
    let models = (0..k).map(|_| [part(n * n), part(n), part(n * n), part(n * n), part(1)]).collect();
    Bank { sizes: [n, m, k], models, transition: part(k * k), c: part(m * n), r: part(m * m), mu: part(k) }
}

/// A bank one of whose models is hardly entered, or whose likelihoods hardly add up: `least` is its probability.
pub fn unlikely(draw: &mut Draw, sizes: [usize; 3], least: f64) -> Bank {
    let mut bank = good(draw, sizes);
    let k = sizes[2];
    let j = draw.below(k);
    (0..k).for_each(|i| bank.transition[i * k + j] = 0.0);
    bank.mu = vec![0.0; k];
    bank.mu[0] = 1.0;
    bank.transition[j] = least;
    (0..k).for_each(|i| *bank.part(i, 4) = vec![if i == 0 { least } else { 1.0 }]);
    if draw.once_in(3) {
        bank.part(draw.below(k), 1)[0] = *draw.pick(&[1e200, -1e200, f64::INFINITY]);
    }
    bank
}

fn hard(draw: &mut Draw, sizes: [usize; 3]) -> Bank {
    match draw.below(8) {
        0 | 1 => {
            let least = match draw.below(4) {
                0 => 0.0,
                1 => draw.special(),
                _ => f64::from_bits(*draw.pick(&LEAST)),
            };
            unlikely(draw, sizes, least)
        }
        2 => {
            let mut bank = good(draw, sizes);
            for _ in 0..1 + draw.below(3) {
                let (i, part, special) = (draw.below(sizes[2]), 1 + draw.below(4), draw.special());
                let cells = bank.part(i, part);
                let at = draw.below(cells.len());
                cells[at] = special;
            }
            let at = draw.below(bank.mu.len());
            if draw.once_in(2) {
                bank.mu[at] = draw.special();
            }
            bank
        }
        3 | 4 => {
            let style = draw.style();
            styled(draw, style, sizes)
        }
        _ => good(draw, sizes),
    }
}

/// The worked case of the requirements, and each size; probabilities at EPSILON and beside it, and states whose spread
/// overflows.
pub fn edges(draw: &mut Draw) -> Vec<Call> {
    let model = |x: f64| [vec![1.0], vec![x], vec![1.0], vec![1.0], vec![1.0]];
    let worked = Bank {
        sizes: [1, 1, 2],
        models: vec![model(2.0), model(4.0)],
        transition: vec![0.0, 1.0, 0.0, 1.0],
        c: vec![1.0],
        r: vec![1.0],
        mu: vec![0.5, 0.5],
    };
    let mut calls: Vec<Call> = ["imm_new", "imm_mix", "imm_probs", "imm_fused"].map(|op| worked.call(op)).into();
    for n in 1..=4 {
        for k in 1..=4 {
            let sizes = [n, 1 + (n + k) % 4, k];
            calls.push(good(draw, sizes).call("imm_new"));
            calls.push(good(draw, sizes).call("imm_mix"));
            calls.push(styled(draw, Style::Mixed, sizes).call("imm_mix"));
            calls.push(good(draw, sizes).call("imm_probs"));
            calls.push(good(draw, sizes).call("imm_fused"));
            let mut call = good(draw, sizes).call("imm_prob");
            call.word(&(k - 1).to_string());
            calls.push(call);
        }
    }
    for least in LEAST.map(f64::from_bits).into_iter().chain([0.0, -0.0, -1.0, f64::NAN, f64::INFINITY]) {
        for op in ["imm_mix", "imm_probs"] {
            let bank = unlikely(draw, [2, 1, 2], least);
            calls.push(bank.call(op));
            let mut huge = unlikely(draw, [2, 1, 3], least);
            huge.part(1, 1)[1] = 1e200;
            calls.push(huge.call(op));
        }
    }
    calls
}

pub fn call(draw: &mut Draw) -> Call {
    let sizes = [draw.size(), draw.size(), draw.size()];
    let bank = hard(draw, sizes);
    match draw.below(20) {
        0 => bank.call("imm_new"),
        1..=10 => bank.call("imm_mix"),
        11..=15 => bank.call("imm_probs"),
        16..=18 => bank.call("imm_fused"),
        _ => {
            let mut call = bank.call("imm_prob");
            call.word(&draw.below(sizes[2]).to_string());
            call
        }
    }
}
