//! The Rust's side of the bench: each function behind one that is not inlined.

use oxictl::core::matrix::{self, Matrix};
use oxictl::estimator::kalman::KalmanFilter;
use oxictl::estimator::rts_smoother::{FilteredState, RtsSmoother, SmoothedData, SmootherError};
use std::hint::black_box;

#[inline(never)]
pub fn root(x: f64) -> f64 {
    num_traits::Float::sqrt(x)
}

#[inline(never)]
pub fn matmul<const N: usize>(a: &Matrix<f64, N, N>, b: &Matrix<f64, N, N>) -> Matrix<f64, N, N> {
    matrix::matmul(a, b)
}

#[inline(never)]
pub fn inv<const N: usize>(a: &Matrix<f64, N, N>) -> Option<Matrix<f64, N, N>> {
    a.inv()
}

#[inline(never)]
pub fn cholesky<const N: usize>(a: &Matrix<f64, N, N>) -> Option<Matrix<f64, N, N>> {
    a.cholesky()
}

/// A depot sheet read, filtered, smoothed and printed.
#[inline(never)]
pub fn sheet(bytes: &[u8], out: &mut Vec<u8>) {
    out.clear();
    compare::sheet::report(bytes, out)
}

/// Ones on the diagonal and a tenth beside it.
pub fn transition<const N: usize>() -> Matrix<f64, N, N> {
    let cell = |r: usize, c: usize| match c {
        _ if r == c => 1.0,
        _ if r + 1 == c => 0.1,
        _ => 0.0,
    };
    Matrix { data: std::array::from_fn(|r| std::array::from_fn(|c| cell(r, c))) }
}

/// A filter that measures its first M states.
pub fn filter<const N: usize, const M: usize, const I: usize>(
    noise: Matrix<f64, N, N>,
    r: Matrix<f64, M, M>,
) -> KalmanFilter<f64, N, M, I> {
    let mut h = Matrix::zeros();
    (0..M).for_each(|k| h.data[k][k] = 1.0);
    KalmanFilter::new(transition(), Matrix::filled(0.1), h, noise, r, [0.0; N], noise)
}

#[inline(never)]
fn predict<const N: usize, const M: usize, const I: usize>(
    filter: &mut KalmanFilter<f64, N, M, I>,
    u: &[f64; I],
) {
    filter.predict(u)
}

#[inline(never)]
fn update<const N: usize, const M: usize, const I: usize>(
    filter: &mut KalmanFilter<f64, N, M, I>,
    z: &[f64; M],
) -> Option<[f64; M]> {
    filter.update(z)
}

pub fn predict_update<const N: usize, const M: usize, const I: usize>(
    filter: &mut KalmanFilter<f64, N, M, I>,
    u: &[f64; I],
    z: &[f64; M],
) {
    predict(filter, u);
    black_box(update(filter, z));
}

/// The state after `times` predictions and updates of a filter like this one.
#[inline(never)]
pub fn steps<const N: usize, const M: usize, const I: usize>(
    from: &KalmanFilter<f64, N, M, I>,
    u: &[f64; I],
    z: &[f64; M],
    times: usize,
) -> [f64; N] {
    let mut filter = from.clone();
    for _ in 0..times {
        filter.predict(u);
        filter.update(z);
    }
    *filter.state()
}

/// A smoother with `count` slots stored, and the slots as the port lays them out, room for 64.
pub fn smoother<const N: usize>(count: usize) -> (RtsSmoother<f64, N, 64>, Vec<f64>) {
    let mut smoother = RtsSmoother::new();
    let mut slots = Vec::new();
    let p = crate::definite::<N>();
    for k in 0..count {
        let x = std::array::from_fn(|i| k as f64 + 0.5 * i as f64);
        smoother.store_forward(FilteredState::new(x, p, x, p)).expect("room for the slot");
        for _ in 0..2 {
            slots.extend_from_slice(&x);
            slots.extend(p.data.concat());
        }
    }
    slots.resize(64 * 2 * (N + N * N), 0.0);
    (smoother, slots)
}

#[inline(never)]
pub fn smooth<const N: usize>(
    smoother: &RtsSmoother<f64, N, 64>,
    a: &Matrix<f64, N, N>,
) -> Result<SmoothedData<f64, N, 64>, SmootherError> {
    smoother.smooth(a)
}
