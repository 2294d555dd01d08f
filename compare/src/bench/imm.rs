//! Model mixing: mixing, probabilities and the fused state of a bank of two models, one call each.

use crate::entries::*;
use crate::{agree, definite, flat, row, rust};
use oxictl::core::matrix::Matrix;
use oxictl::estimator::imm::{ImmEstimator, ImmModel};
use std::hint::black_box;

type Bank<const N: usize> = ImmEstimator<f64, N, 1, 2>;

#[inline(never)]
fn mix<const N: usize>(bank: &mut Bank<N>) {
    bank.mix_estimates()
}

#[inline(never)]
fn probabilities<const N: usize>(bank: &mut Bank<N>) {
    bank.update_probabilities()
}

#[inline(never)]
fn fused<const N: usize>(bank: &Bank<N>) -> Matrix<f64, N, 1> {
    bank.fused_estimate()
}

/// Two models that differ in their states and likelihoods.
fn bank<const N: usize>() -> Bank<N> {
    let model = |x: f64, likelihood: f64| ImmModel {
        a: rust::transition(),
        x_hat: Matrix::filled(x),
        p: definite(),
        q: definite(),
        likelihood,
    };
    let models = [model(1.0, 0.5), model(2.0, 0.25)];
    ImmEstimator::new(models, [[0.75, 0.25], [0.125, 0.875]], Matrix::filled(1.0), Matrix::filled(1.0))
}

/// The bank as the port lays it out.
fn numbers<const N: usize>(bank: &Bank<N>) -> Vec<f64> {
    let model = |m: &ImmModel<f64, N, 1>| [flat(&m.a), flat(&m.x_hat), flat(&m.p), flat(&m.q), vec![m.likelihood]].concat();
    let shared = [bank.transition.concat(), flat(&bank.c), flat(&bank.r), bank.mu.to_vec()].concat();
    [model(&bank.models[0]), model(&bank.models[1]), shared].concat()
}

fn port<const N: usize>(bank: &mut [f64], out: &mut [f64]) {
    let (at, len) = (bank.as_mut_ptr(), bank.len());
    let told = unsafe {
        estimators_imm_mix_estimates(N, 1, 2, at, len)
            | estimators_imm_update_probabilities(N, 1, 2, at, len)
            | estimators_imm_fused_estimate(N, 1, 2, at, len, out.as_mut_ptr(), out.len())
    };
    assert!(black_box(told) == 0, "the port refused a call of the bench");
}

pub fn mixing<const N: usize>() {
    let name = format!("mixing, 2 models, N = {N}");
    let mut rust = bank::<N>();
    let (mut cells, mut out) = (numbers(&rust), vec![0.0; N]);
    mix(&mut rust);
    probabilities(&mut rust);
    let answer = flat(&fused(&rust));
    port::<N>(&mut cells, &mut out);
    agree(&name, &answer, &out);
    agree(&name, &numbers(&rust), &cells);
    row(
        &name,
        1.0,
        &mut || {
            mix(black_box(&mut rust));
            probabilities(black_box(&mut rust));
            black_box(fused(black_box(&rust)));
        },
        None,
        Some(&mut || port::<N>(black_box(&mut cells), black_box(&mut out))),
    );
}
