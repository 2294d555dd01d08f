//! Square matrices that are hard for inversion and for Cholesky's factor, and covariances.

use crate::draw::{times_power, Draw, Style};

/// B times B transposed plus d on the diagonal: symmetric, positive definite.
pub fn definite(draw: &mut Draw, n: usize) -> Vec<f64> {
    let style = *draw.pick(&[Style::Ordinary, Style::Ordinary, Style::Whole, Style::NearOne]);
    let b = draw.numbers(style, n * n);
    let d = *draw.pick(&[0.001, 0.5, 1.0, 3.0]);
    let mut a = product_with_transposed(&b, n);
    for i in 0..n {
        a[i * n + i] += d;
    }
    a
}

fn product_with_transposed(b: &[f64], n: usize) -> Vec<f64> {
    let cell = |i: usize, j: usize| (0..n).map(|k| b[i * n + k] * b[j * n + k]).sum::<f64>() + 0.0;
    (0..n * n).map(|at| cell(at / n, at % n)).collect()
}

/// Of lower rank than n: a zero row or column, a repeated or multiplied row, rank 1, all zero.
pub fn singular(draw: &mut Draw, n: usize) -> Vec<f64> {
    let style = *draw.pick(&[Style::Whole, Style::Ordinary, Style::Power]);
    let mut a = draw.numbers(style, n * n);
    let (from, to) = (draw.below(n), draw.below(n));
    let factor = *draw.pick(&[1.0, -1.0, 2.0, 3.0, 0.1]);
    match draw.below(6) {
        0 => a.fill(*draw.pick(&[0.0, -0.0])),
        1 => a[to * n..to * n + n].fill(0.0),
        2 => (0..n).for_each(|i| a[i * n + to] = -0.0),
        3 if n > 1 => {
            let (v, w) = (draw.numbers(style, n), draw.numbers(style, n));
            (0..n * n).for_each(|at| a[at] = v[at / n] * w[at % n]);
        }
        _ if from != to => (0..n).for_each(|j| a[to * n + j] = factor * a[from * n + j]),
        _ => a[to * n..to * n + n].fill(0.0),
    }
    a
}

/// An upper triangle with its rows in any order, so that each pivot is a diagonal number exactly; one
/// or more of them at the limit or beside it.
pub fn at_limit(draw: &mut Draw, n: usize) -> Vec<f64> {
    let style = *draw.pick(&[Style::Whole, Style::Ordinary, Style::Ordinary]);
    let mut rows: Vec<Vec<f64>> = (0..n).map(|_| draw.numbers(style, n)).collect();
    let place = draw.below(n);
    for (i, row) in rows.iter_mut().enumerate() {
        row[..i].fill(0.0);
        if row[i] == 0.0 {
            row[i] = 1.0;
        }
        if i == place || draw.once_in(4) {
            row[i] = draw.near_limit();
        }
    }
    if draw.once_in(2) {
        for i in (1..n).rev() {
            rows.swap(i, draw.below(i + 1));
        }
    }
    rows.concat()
}

/// Columns in which several magnitudes tie for the pivot, with either sign.
pub fn tied(draw: &mut Draw, n: usize) -> Vec<f64> {
    let style = *draw.pick(&[Style::Ordinary, Style::Power, Style::Special, Style::Whole]);
    let v = draw.number(style);
    let w = draw.number(style);
    (0..n * n).map(|_| *draw.pick(&[v, -v, v, -v, v, w, 0.0])).collect()
}

/// A NaN or an infinity on the diagonal, below it or above it.
pub fn not_finite(draw: &mut Draw, n: usize) -> Vec<f64> {
    let mut a = match draw.below(3) {
        0 => definite(draw, n),
        1 => draw.numbers(Style::Ordinary, n * n),
        _ => at_limit(draw, n),
    };
    for _ in 0..1 + draw.below(2) {
        let (i, j) = (draw.below(n), draw.below(n));
        let at = if draw.once_in(2) { i * n + i } else { i.max(j) * n + i.min(j) };
        let values =
            [0x7FF8_0000_0000_0000, 0xFFF0_0000_0000_0001, 0x7FF0_0000_0000_0000, 0xFFF0_0000_0000_0000];
        a[at] = f64::from_bits(*draw.pick(&values));
    }
    a
}

/// A covariance gone flat: zero, nearly zero or huge.
pub fn flat(draw: &mut Draw, n: usize) -> Vec<f64> {
    let scale = match draw.below(4) {
        0 => return vec![*draw.pick(&[0.0, 0.0, -0.0]); n * n],
        1 => draw.between(-60, -20),
        2 => draw.between(-1070, -500),
        _ => draw.between(300, 1015),
    };
    definite(draw, n).iter().map(|x| times_power(*x, scale as i32)).collect()
}

/// Any square matrix: what inversion is tried with.
pub fn any(draw: &mut Draw, n: usize) -> Vec<f64> {
    match draw.below(16) {
        0..=3 => definite(draw, n),
        4 | 5 => singular(draw, n),
        6 | 7 => at_limit(draw, n),
        8 | 9 => tied(draw, n),
        10 => not_finite(draw, n),
        11 => flat(draw, n),
        _ => {
            let style = draw.style();
            draw.numbers(style, n * n)
        }
    }
}

/// What inversion rejects, mostly: for refusals at a chosen place.
pub fn rejected(draw: &mut Draw, n: usize) -> Vec<f64> {
    match draw.below(4) {
        0 => at_limit(draw, n),
        1 => vec![0.0; n * n],
        _ => singular(draw, n),
    }
}

/// For Cholesky's factor: garbage above the diagonal, and diagonals that reduce to zero or below, or
/// that are NaN.
pub fn for_cholesky(draw: &mut Draw, n: usize) -> Vec<f64> {
    let place = draw.below(n);
    let mut a = match draw.below(8) {
        0..=3 => definite(draw, n),
        4 => {
            // L times L transposed with whole numbers and a zero on L's diagonal: it reduces to 0 exactly.
            let mut l = draw.numbers(Style::Whole, n * n);
            for i in 0..n {
                l[i * n + i] = if i == place { 0.0 } else { *draw.pick(&[1.0, 2.0, 4.0]) };
                l[i * n + i + 1..(i + 1) * n].fill(0.0);
            }
            product_with_transposed(&l, n)
        }
        5 => flat(draw, n),
        _ => return any(draw, n),
    };
    if draw.once_in(4) {
        let diagonal = [0.0, -0.0, -1.0, f64::NAN, 5e-324, f64::INFINITY, f64::NEG_INFINITY, 1e-300];
        a[place * n + place] = *draw.pick(&diagonal);
    }
    if draw.once_in(2) {
        let style = *draw.pick(&[Style::Special, Style::Mixed, Style::Ordinary]);
        for i in 0..n {
            for j in i + 1..n {
                a[i * n + j] = draw.number(style);
            }
        }
    }
    a
}
