//! The information filter: a prediction and an update, through the C interface beside the Rust.

use crate::entries::{estimators_information_from_information, estimators_information_predict, estimators_information_update};
use crate::{agree, definite, flat, keep, row, rust};
use oxictl::estimator::information_filter::InformationFilter;
use std::hint::black_box;

#[inline(never)]
fn predict<const N: usize, const M: usize, const I: usize>(
    filter: &mut InformationFilter<f64, N, M, I>,
    u: &[f64; I],
) {
    keep(&filter.predict(u).is_ok());
}

#[inline(never)]
fn update<const N: usize, const M: usize, const I: usize>(
    filter: &mut InformationFilter<f64, N, M, I>,
    z: &[f64; M],
) {
    keep(&filter.update(z));
}

/// The port's filter, laid out as its slice is.
struct Port {
    sizes: [usize; 3],
    cells: Vec<f64>,
    innovation: Vec<f64>,
}

impl Port {
    fn new<const N: usize, const M: usize, const I: usize>(filter: &InformationFilter<f64, N, M, I>) -> Self {
        let parts = [
            flat(&filter.a),
            flat(&filter.b),
            flat(&filter.h),
            flat(&filter.q),
            flat(&filter.r),
            flat(filter.information_matrix()),
            filter.information_vector().to_vec(),
        ];
        let mut cells = vec![0.0; parts.iter().map(Vec::len).sum()];
        let [a, b, h, q, r, w, v] = parts.each_ref().map(|part| (part.as_ptr(), part.len()));
        let to = (cells.as_mut_ptr(), cells.len());
        let status = unsafe {
            estimators_information_from_information(
                N, M, I, a.0, a.1, b.0, b.1, h.0, h.1, q.0, q.1, r.0, r.1, w.0, w.1, v.0, v.1, to.0, to.1,
            )
        };
        assert_eq!(status, 0, "the port refused the filter of the bench");
        Port { sizes: [N, M, I], cells, innovation: vec![0.0; M] }
    }

    fn predict_update(&mut self, u: &[f64], z: &[f64]) {
        let [n, m, i] = self.sizes;
        let (cells, len) = (self.cells.as_mut_ptr(), self.cells.len());
        let (to, to_len) = (self.innovation.as_mut_ptr(), self.innovation.len());
        let told = unsafe {
            estimators_information_predict(n, m, i, cells, len, u.as_ptr(), u.len())
                | estimators_information_update(n, m, i, cells, len, z.as_ptr(), z.len(), to, to_len)
        };
        assert!(black_box(told) == 0, "the port refused a call of the bench");
    }
}

pub fn filter<const N: usize, const M: usize, const I: usize>() {
    let name = format!("information ({N}, {M}, {I})");
    let model = rust::filter::<N, M, I>(definite(), definite());
    let mut rust = InformationFilter::new(model.a, model.b, model.h, model.q, model.r, [0.5; N], definite())
        .expect("a filter");
    let mut port = Port::new(&rust);
    let (u, z) = ([0.5; I], [1.0; M]);
    predict(&mut rust, &u);
    update(&mut rust, &z);
    port.predict_update(&u, &z);
    let left = [rust.information_vector().to_vec(), flat(rust.information_matrix())].concat();
    agree(&name, &left, &port.cells[port.cells.len() - N - N * N..]);
    row(
        &name,
        1.0,
        &mut || {
            predict(black_box(&mut rust), black_box(&u));
            update(black_box(&mut rust), black_box(&z));
        },
        None,
        Some(&mut || port.predict_update(black_box(&u), black_box(&z))),
    );
}
