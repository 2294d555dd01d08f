//! Model mixing: imm.rs, for f64.

use crate::matrix::{read, write};
use compare::protocol::{Answer, Bad, Words};
use compare::sized;
use oxictl::core::matrix::Matrix;
use oxictl::estimator::imm::{ImmEstimator, ImmModel};

type Bank<const N: usize, const M: usize, const K: usize> = ImmEstimator<f64, N, M, K>;

fn model<const N: usize, const M: usize>(w: &mut Words) -> Result<ImmModel<f64, N, M>, Bad> {
    let (a, x_hat, p, q) = (read(w)?, read(w)?, read(w)?, read(w)?);
    Ok(ImmModel { a, x_hat, p, q, likelihood: w.number()? })
}

fn bank<const N: usize, const M: usize, const K: usize>(w: &mut Words) -> Result<Bank<N, M, K>, Bad> {
    let zero = ImmModel {
        a: Matrix::zeros(),
        x_hat: Matrix::zeros(),
        p: Matrix::zeros(),
        q: Matrix::zeros(),
        likelihood: 0.0,
    };
    let mut models = [zero; K];
    for place in &mut models {
        *place = model(w)?;
    }
    let mut transition = [[0.0; K]; K];
    for row in &mut transition {
        w.fill(row)?;
    }
    Ok(ImmEstimator::new(models, transition, read(w)?, read(w)?))
}

/// The probabilities, and each model's state, covariance and likelihood, that are left behind.
fn left<const N: usize, const M: usize, const K: usize>(bank: &Bank<N, M, K>, answer: &mut Answer) {
    answer.bar();
    answer.numbers(&bank.mu);
    for model in &bank.models {
        write(&model.x_hat, answer);
        write(&model.p, answer);
        answer.number(model.likelihood);
    }
}

fn run<const N: usize, const M: usize, const K: usize>(
    op: &[u8],
    w: &mut Words,
    answer: &mut Answer,
) -> Result<(), Bad> {
    let mut bank = bank::<N, M, K>(w)?;
    if op != b"imm_new" {
        bank.mu = w.vector()?;
    }
    answer.ok();
    match op {
        b"imm_new" => (),
        b"imm_mix" => bank.mix_estimates(),
        b"imm_probs" => bank.update_probabilities(),
        b"imm_fused" => write(&bank.fused_estimate(), answer),
        b"imm_prob" => answer.number(bank.model_probability(w.index(K)?)),
        _ => return Err("unknown call"),
    }
    left(&bank, answer);
    w.end()
}

pub fn call(op: &[u8], words: &mut Words, answer: &mut Answer) -> Result<(), Bad> {
    let (n, m, k) = (words.size()?, words.size()?, words.size()?);
    sized!(run::<N, M, K>(op, words, answer); N = n, M = m, K = k)
}
