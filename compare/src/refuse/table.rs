//! A row for each C function that takes slices: its sizes, and its arguments in order. An argument is `(a value)`,
//! `[the length of a slice]`, or `{the bits of a cell}` that is lent by its pointer alone.
#![allow(unused_variables)]

use crate::entries::*;
use crate::lent::{Lent, Part, MARKER};

pub struct Row {
    pub name: &'static str,
    /// Each size's name and a value that it may have.
    pub sizes: &'static [(&'static str, usize)],
    /// What is lent at given sizes.
    pub parts: fn(&[usize]) -> Vec<Part>,
    pub call: fn(&[usize], &mut Lent) -> u8,
}

macro_rules! parts {
    ([$($done:tt)*]) => { vec![$($done)*] };
    ([$($done:tt)*] [$length:expr] $($rest:tt)*) => { parts!([$($done)* Part::Slice($length),] $($rest)*) };
    ([$($done:tt)*] {$bits:expr} $($rest:tt)*) => { parts!([$($done)* Part::Cell($bits),] $($rest)*) };
    ([$($done:tt)*] ($value:expr) $($rest:tt)*) => { parts!([$($done)*] $($rest)*) };
}

macro_rules! call {
    ($name:ident $lent:ident [$($done:tt)*]) => { $name($($done)*) };
    ($name:ident $lent:ident [$($done:tt)*] [$length:expr] $($rest:tt)*) => {
        call!($name $lent [$($done)* $lent.pointer(), $lent.length(),] $($rest)*)
    };
    ($name:ident $lent:ident [$($done:tt)*] {$bits:expr} $($rest:tt)*) => {
        call!($name $lent [$($done)* $lent.cell(),] $($rest)*)
    };
    ($name:ident $lent:ident [$($done:tt)*] ($value:expr) $($rest:tt)*) => {
        call!($name $lent [$($done)* $value,] $($rest)*)
    };
}

macro_rules! row {
    ($name:ident($($size:ident = $value:expr),*) $($argument:tt)*) => {
        Row {
            name: stringify!($name),
            sizes: &[$((stringify!($size), $value)),*],
            parts: |sizes| {
                let &[$($size),*] = sizes else { panic!("other sizes than the row's") };
                parts!([] $($argument)*)
            },
            call: |sizes, lent| {
                let &[$($size),*] = sizes else { panic!("other sizes than the row's") };
                unsafe { call!($name lent [] $($argument)*) }
            },
        }
    };
}

fn pair(n: usize) -> usize {
    n + n * n
}

fn sensor(n: usize, m: usize) -> usize {
    m * n + m * m + m
}

fn filter(n: usize, m: usize, i: usize) -> usize {
    2 * n * n + n * i + m * n + m * m + pair(n)
}

fn models(n: usize, k: usize) -> usize {
    k * (2 * n * n + pair(n) + 1)
}

fn bank(n: usize, m: usize, k: usize) -> usize {
    models(n, k) + k * k + m * n + m * m + k
}

fn root(n: usize, m: usize, i: usize) -> usize {
    2 * n * n + n * i + m * n + m + pair(n)
}

#[rustfmt::skip]
pub fn rows() -> Vec<Row> {
    vec![
        row!(estimators_scalar_constants() [6]),
        row!(estimators_matrix_zeros(r = 2, c = 3) (r) (c) [r * c]),
        row!(estimators_matrix_default(r = 2, c = 3) (r) (c) [r * c]),
        row!(estimators_matrix_filled(r = 2, c = 3) (r) (c) (1.0) [r * c]),
        row!(estimators_matrix_identity(n = 2) (n) [n * n]),
        row!(estimators_matrix_transpose(r = 2, c = 3) (r) (c) [r * c] [r * c]),
        row!(estimators_matrix_add_mat(r = 2, c = 3) (r) (c) [r * c] [r * c] [r * c]),
        row!(estimators_matrix_sub_mat(r = 2, c = 3) (r) (c) [r * c] [r * c] [r * c]),
        row!(estimators_matrix_scale(r = 2, c = 3) (r) (c) [r * c] (2.0) [r * c]),
        row!(estimators_matrix_neg(r = 2, c = 3) (r) (c) [r * c] [r * c]),
        row!(estimators_matrix_get(r = 2, c = 3, row = 1, column = 2) (r) (c) (row) (column) [r * c] {MARKER}),
        row!(estimators_matrix_set(r = 2, c = 3, row = 1, column = 2) (r) (c) (row) (column) [r * c] (2.0) [r * c]),
        row!(estimators_matrix_frob_norm(r = 2, c = 3) (r) (c) [r * c] {MARKER}),
        row!(estimators_matrix_trace(n = 2) (n) [n * n] {MARKER}),
        row!(estimators_matrix_eq(r = 2, c = 3) (r) (c) [r * c] [r * c] {0}),
        row!(estimators_matrix_matmul(r = 2, k = 3, c = 4) (r) (k) (c) [r * k] [k * c] [r * c]),
        row!(estimators_matrix_matvec(r = 2, c = 3) (r) (c) [r * c] [c] [r]),
        row!(estimators_matrix_outer(r = 2, c = 3) (r) (c) [r] [c] [r * c]),
        row!(estimators_matrix_vec_add(n = 2) (n) [n] [n] [n]),
        row!(estimators_matrix_vec_sub(n = 2) (n) [n] [n] [n]),
        row!(estimators_matrix_vec_scale(n = 2) (n) [n] (2.0) [n]),
        row!(estimators_matrix_vec_dot(n = 2) (n) [n] [n] {MARKER}),
        row!(estimators_matrix_vec_norm(n = 2) (n) [n] {MARKER}),
        row!(estimators_matrix_inv(n = 2) (n) [n * n] [n * n]),
        row!(estimators_matrix_cholesky(n = 2) (n) [n * n] [n * n]),
        row!(estimators_kalman_new(n = 2, m = 3, i = 1) (n) (m) (i)
            [n * n] [n * i] [m * n] [n * n] [m * m] [n] [n * n] [filter(n, m, i)]),
        row!(estimators_kalman_position_velocity() (1.0) (4.0) (32.0) [filter(2, 1, 1)]),
        row!(estimators_kalman_predict(n = 2, m = 1, i = 1) (n) (m) (i) [filter(n, m, i)] [i]),
        row!(estimators_kalman_update(n = 2, m = 1, i = 1) (n) (m) (i) [filter(n, m, i)] [m] [m]),
        row!(estimators_kalman_predict(n = 4, m = 2, i = 2) (n) (m) (i) [filter(n, m, i)] [i]),
        row!(estimators_kalman_update(n = 4, m = 2, i = 2) (n) (m) (i) [filter(n, m, i)] [m] [m]),
        row!(estimators_kalman_reset(n = 2, m = 3, i = 1) (n) (m) (i) [filter(n, m, i)] [n] [n * n]),
        row!(estimators_kalman_state(n = 2, m = 3, i = 1) (n) (m) (i) [filter(n, m, i)] [n]),
        row!(estimators_kalman_covariance(n = 2, m = 3, i = 1) (n) (m) (i) [filter(n, m, i)] [n * n]),
        row!(estimators_imm_new(n = 2, m = 1, k = 3) (n) (m) (k) [models(n, k)] [k * k] [m * n] [m * m] [bank(n, m, k)]),
        row!(estimators_imm_mix_estimates(n = 2, m = 1, k = 3) (n) (m) (k) [bank(n, m, k)]),
        row!(estimators_imm_update_probabilities(n = 2, m = 1, k = 3) (n) (m) (k) [bank(n, m, k)]),
        row!(estimators_imm_fused_estimate(n = 2, m = 1, k = 3) (n) (m) (k) [bank(n, m, k)] [n]),
        row!(estimators_imm_model_probability(n = 2, m = 1, k = 3, model = 2) (n) (m) (k) [bank(n, m, k)] (model) {MARKER}),
        row!(estimators_sqrt_kalman_new(n = 2, m = 3, i = 1) (n) (m) (i)
            [n * n] [n * i] [m * n] [n * n] [m] [n] [n * n] [root(n, m, i)]),
        row!(estimators_sqrt_kalman_from_cholesky(n = 2, m = 3, i = 1) (n) (m) (i)
            [n * n] [n * i] [m * n] [n * n] [m] [n] [n * n] [root(n, m, i)]),
        row!(estimators_sqrt_kalman_predict(n = 2, m = 3, i = 1) (n) (m) (i) [root(n, m, i)] [i]),
        row!(estimators_sqrt_kalman_update(n = 2, m = 3, i = 1) (n) (m) (i) [root(n, m, i)] [m] [m]),
        row!(estimators_sqrt_kalman_reset(n = 2, m = 3, i = 1) (n) (m) (i) [root(n, m, i)] [n] [n * n]),
        row!(estimators_sqrt_kalman_state(n = 2, m = 3, i = 1) (n) (m) (i) [root(n, m, i)] [n]),
        row!(estimators_sqrt_kalman_cholesky_factor(n = 2, m = 3, i = 1) (n) (m) (i) [root(n, m, i)] [n * n]),
        row!(estimators_sqrt_kalman_covariance(n = 2, m = 3, i = 1) (n) (m) (i) [root(n, m, i)] [n * n]),
        row!(estimators_information_new(n = 2, m = 3, i = 1) (n) (m) (i)
            [n * n] [n * i] [m * n] [n * n] [m * m] [n] [n * n] [filter(n, m, i)]),
        row!(estimators_information_from_information(n = 2, m = 3, i = 1) (n) (m) (i)
            [n * n] [n * i] [m * n] [n * n] [m * m] [n * n] [n] [filter(n, m, i)]),
        row!(estimators_information_predict(n = 4, m = 2, i = 3) (n) (m) (i) [filter(n, m, i)] [i]),
        row!(estimators_information_update(n = 4, m = 2, i = 2) (n) (m) (i) [filter(n, m, i)] [m] [m]),
        row!(estimators_information_fuse_sensor(n = 4, m = 2, i = 1) (n) (m) (i) [filter(n, m, i)] [m * n] [m * m] [m]),
        row!(estimators_information_fuse_sensors(n = 4, m = 2, i = 1, sensors = 3) (n) (m) (i)
            [filter(n, m, i)] (sensors) [3 * sensor(n, m)]),
        row!(estimators_information_reset(n = 2, m = 3, i = 1) (n) (m) (i) [filter(n, m, i)] [n] [n * n]),
        row!(estimators_information_state(n = 2, m = 3, i = 1) (n) (m) (i) [filter(n, m, i)] [n]),
        row!(estimators_information_covariance(n = 2, m = 3, i = 1) (n) (m) (i) [filter(n, m, i)] [n * n]),
        row!(estimators_information_matrix(n = 2, m = 3, i = 1) (n) (m) (i) [filter(n, m, i)] [n * n]),
        row!(estimators_information_vector(n = 2, m = 3, i = 1) (n) (m) (i) [filter(n, m, i)] [n]),
        row!(estimators_rts_smoother_store_forward(n = 2, room = 3, count = 1) (n) (room) {count as u64}
            [room * 2 * pair(n)] [pair(n)] [pair(n)]),
        row!(estimators_rts_smoother_get_state(n = 2, room = 3, count = 1) (n) (room) (count)
            [room * 2 * pair(n)] (0) [2 * pair(n)]),
        row!(estimators_rts_smoother_smooth(n = 2, room = 3, count = 1) (n) (room) (count)
            [room * 2 * pair(n)] [n * n] [room * pair(n)]),
    ]
}
