//! The C interface's side of the bench: the functions of estimators.h over slices.

use crate::entries::*;
use oxictl::estimator::kalman::KalmanFilter;
use std::hint::black_box;

/// A call that the bench makes is never refused.
fn accepted(status: u8) {
    assert!(black_box(status) == 0, "the port refused a call of the bench with {status}");
}

pub fn root(x: f64) -> f64 {
    unsafe { estimators_scalar_sqrt(x) }
}

pub fn matmul(n: usize, a: &[f64], b: &[f64], out: &mut [f64]) {
    let (a, b) = ((a.as_ptr(), a.len()), (b.as_ptr(), b.len()));
    let (to, len) = (out.as_mut_ptr(), out.len());
    accepted(unsafe { estimators_matrix_matmul(n, n, n, a.0, a.1, b.0, b.1, to, len) })
}

pub fn inv(n: usize, a: &[f64], out: &mut [f64]) {
    accepted(unsafe { estimators_matrix_inv(n, a.as_ptr(), a.len(), out.as_mut_ptr(), out.len()) })
}

pub fn cholesky(n: usize, a: &[f64], out: &mut [f64]) {
    accepted(unsafe { estimators_matrix_cholesky(n, a.as_ptr(), a.len(), out.as_mut_ptr(), out.len()) })
}

/// How many bytes of `out` are the answer.
pub fn sheet(bytes: &[u8], out: &mut [u8]) -> usize {
    let mut written = 0;
    let (to, len) = (out.as_mut_ptr(), out.len());
    accepted(unsafe { estimators_sheet_report(bytes.as_ptr(), bytes.len(), to, len, &mut written) });
    written
}

pub struct Filter {
    sizes: [usize; 3],
    cells: Vec<f64>,
    innovation: Vec<f64>,
}

impl Filter {
    /// The same filter, laid out as the port has it.
    pub fn new<const N: usize, const M: usize, const I: usize>(filter: &KalmanFilter<f64, N, M, I>) -> Self {
        let cells = [
            filter.a.data.concat(),
            filter.b.data.concat(),
            filter.h.data.concat(),
            filter.q.data.concat(),
            filter.r.data.concat(),
            filter.state().to_vec(),
            filter.covariance().data.concat(),
        ]
        .concat();
        Filter { sizes: [N, M, I], cells, innovation: vec![0.0; M] }
    }

    /// The whole filter.
    pub fn cells(&self) -> &[f64] {
        &self.cells
    }

    /// The state, then the covariance.
    pub fn estimate(&self) -> &[f64] {
        let n = self.sizes[0];
        &self.cells[self.cells.len() - n - n * n..]
    }

    pub fn predict_update(&mut self, u: &[f64], z: &[f64]) {
        let [n, m, i] = self.sizes;
        let (cells, len) = (self.cells.as_mut_ptr(), self.cells.len());
        accepted(unsafe { estimators_kalman_predict(n, m, i, cells, len, u.as_ptr(), u.len()) });
        let to = self.innovation.as_mut_ptr();
        accepted(unsafe { estimators_kalman_update(n, m, i, cells, len, z.as_ptr(), z.len(), to, m) });
        black_box(&self.innovation);
    }
}

pub struct Smoother {
    n: usize,
    slots: Vec<f64>,
    output: Vec<f64>,
}

impl Smoother {
    pub fn new(n: usize, slots: &[f64]) -> Self {
        Smoother { n, slots: slots.to_vec(), output: vec![0.0; slots.len() / 2] }
    }

    /// The first `count` smoothed pairs.
    pub fn pairs(&self, count: usize) -> &[f64] {
        &self.output[..count * (self.n + self.n * self.n)]
    }

    pub fn smooth(&mut self, count: usize, a: &[f64]) {
        let (slots, len) = (self.slots.as_ptr(), self.slots.len());
        let (to, to_len) = (self.output.as_mut_ptr(), self.output.len());
        accepted(unsafe {
            estimators_rts_smoother_smooth(self.n, 64, count, slots, len, a.as_ptr(), a.len(), to, to_len)
        });
        black_box(&self.output);
    }
}
