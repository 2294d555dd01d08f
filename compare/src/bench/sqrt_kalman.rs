//! The rows of the square-root filter: a prediction and an update, in the Rust and through the C interface.

use crate::entries::{estimators_sqrt_kalman_predict, estimators_sqrt_kalman_update};
use crate::{agree, definite, flat, row, rust};
use oxictl::core::matrix::Matrix;
use oxictl::estimator::sqrt_kalman::SqrtKalman;
use std::hint::black_box;

type Filter<const N: usize, const M: usize, const I: usize> = SqrtKalman<f64, N, M, I>;

/// A filter that measures its first M states.
fn filter<const N: usize, const M: usize, const I: usize>() -> Filter<N, M, I> {
    let mut h = Matrix::zeros();
    (0..M).for_each(|k| h.data[k][k] = 1.0);
    let noise = definite();
    SqrtKalman::new(rust::transition(), Matrix::filled(0.1), h, noise, [1.0; M], [0.0; N], noise)
        .expect("a factor")
}

#[inline(never)]
fn predict<const N: usize, const M: usize, const I: usize>(
    filter: &mut Filter<N, M, I>,
    u: &[f64; I],
) -> bool {
    filter.predict(u).is_ok()
}

#[inline(never)]
fn update<const N: usize, const M: usize, const I: usize>(
    filter: &mut Filter<N, M, I>,
    z: &[f64; M],
) -> bool {
    black_box(filter.update(z)).is_ok()
}

/// The same filter, laid out as the port has it.
fn cells<const N: usize, const M: usize, const I: usize>(filter: &Filter<N, M, I>) -> Vec<f64> {
    [
        flat(&filter.a),
        flat(&filter.b),
        flat(&filter.h),
        flat(&filter.q),
        filter.r_diag.to_vec(),
        filter.state().to_vec(),
        flat(filter.cholesky_factor()),
    ]
    .concat()
}

fn port<const N: usize, const M: usize, const I: usize>(filter: &mut [f64], u: &[f64; I], z: &[f64; M]) {
    let (to, len, mut y) = (filter.as_mut_ptr(), filter.len(), [0.0; M]);
    let told = unsafe {
        estimators_sqrt_kalman_predict(N, M, I, to, len, u.as_ptr(), I)
            | estimators_sqrt_kalman_update(N, M, I, to, len, z.as_ptr(), M, y.as_mut_ptr(), M)
    };
    assert!(black_box(told) == 0, "the port refused a call of the bench");
    black_box(y);
}

pub fn rows<const N: usize, const M: usize, const I: usize>() {
    let name = format!("root: predict + update ({N}, {M})");
    let (u, z) = ([0.5; I], [1.0; M]);
    let mut rust = filter::<N, M, I>();
    let mut lent = cells(&rust);
    for _ in 0..50 {
        assert!(predict(&mut rust, &u) && update(&mut rust, &z), "the Rust refused a call of the bench");
        port::<N, M, I>(&mut lent, &u, &z);
    }
    agree(&name, &cells(&rust), &lent);
    row(
        &name,
        1.0,
        &mut || {
            black_box(predict(&mut rust, black_box(&u)) && update(&mut rust, black_box(&z)));
        },
        None,
        Some(&mut || port::<N, M, I>(&mut lent, black_box(&u), black_box(&z))),
    );
}
