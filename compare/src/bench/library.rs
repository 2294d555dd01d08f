//! The library's side of the bench: its functions by value, in the archive of the crate `bench`. A matrix
//! is an array of four rows of four, of which the used part is the first.

use oxictl::core::matrix::Matrix;
use oxictl::estimator::kalman::KalmanFilter;

type Rows = [[f64; 4]; 4];

#[link(name = "bench", kind = "static")]
extern "C" {
    fn bench_matmul(n: usize, a: *const Rows, b: *const Rows, out: *mut Rows);
    fn bench_inv(n: usize, a: *const Rows, out: *mut Rows);
    fn bench_cholesky(n: usize, a: *const Rows, out: *mut Rows);
    fn bench_steps(
        n: usize, m: usize, i: usize,
        a: *const Rows, b: *const Rows, h: *const Rows, q: *const Rows, r: *const Rows,
        x: *const [f64; 4], p: *const Rows, u: *const [f64; 4], z: *const [f64; 4],
        times: usize, out: *mut [f64; 4],
    );
}

/// How many predictions and updates one call makes.
pub const STEPS: usize = 1000;

fn cells(from: &[f64]) -> [f64; 4] {
    std::array::from_fn(|k| from.get(k).copied().unwrap_or(0.0))
}

pub fn rows<const R: usize, const C: usize>(matrix: &Matrix<f64, R, C>) -> Rows {
    std::array::from_fn(|k| matrix.data.get(k).map_or([0.0; 4], |row| cells(row)))
}

/// The n rows of n numbers that are used, one after another.
pub fn used(n: usize, rows: &Rows) -> Vec<f64> {
    rows[..n].iter().flat_map(|row| row[..n].to_vec()).collect()
}

pub fn matmul(n: usize, a: &Rows, b: &Rows, out: &mut Rows) {
    unsafe { bench_matmul(n, a, b, out) }
}

pub fn inv(n: usize, a: &Rows, out: &mut Rows) {
    unsafe { bench_inv(n, a, out) }
}

pub fn cholesky(n: usize, a: &Rows, out: &mut Rows) {
    unsafe { bench_cholesky(n, a, out) }
}

/// A filter's parts, as the library takes them.
pub struct Steps {
    sizes: [usize; 3],
    parts: [Rows; 6],
    state: [f64; 4],
}

impl Steps {
    pub fn new<const N: usize, const M: usize, const I: usize>(f: &KalmanFilter<f64, N, M, I>) -> Self {
        let parts = [rows(&f.a), rows(&f.b), rows(&f.h), rows(&f.q), rows(&f.r), rows(f.covariance())];
        Steps { sizes: [N, M, I], parts, state: cells(f.state()) }
    }

    /// The state after so many steps.
    pub fn run(&self, u: &[f64], z: &[f64]) -> [f64; 4] {
        let [n, m, i] = self.sizes;
        let [a, b, h, q, r, p] = &self.parts;
        let (u, z, mut out) = (cells(u), cells(z), [0.0; 4]);
        unsafe { bench_steps(n, m, i, a, b, h, q, r, &self.state, p, &u, &z, STEPS, &mut out) };
        out
    }
}
