//! Calls on the square-root filter.

use crate::draw::{Draw, Style};
use crate::kalman::{self, good, Model};
use crate::shapes;
use crate::text::Call;

/// A factor: a lower triangle, mostly of a positive diagonal; sometimes with numbers above it.
fn factor(draw: &mut Draw, n: usize) -> Vec<f64> {
    let style = *draw.pick(&[Style::Ordinary, Style::Whole, Style::NearOne]);
    let mut l = draw.numbers(style, n * n);
    for i in 0..n {
        l[i * n + i] = *draw.pick(&[0.5, 1.0, 2.0, 3.7]);
        l[i * n + i + 1..(i + 1) * n].fill(0.0);
    }
    if draw.once_in(8) {
        let at = draw.below(n * n);
        l[at] = draw.special();
    }
    l
}

/// A filter whose model is that of a road; r holds the deviations, p a factor.
fn rooted(draw: &mut Draw, n: usize, m: usize, i: usize) -> Model {
    let mut model = good(draw, n, m, i);
    model.r = (0..m).map(|_| *draw.pick(&[0.1, 0.5, 1.0, 2.0, 10.0])).collect();
    model.p = factor(draw, n);
    model
}

/// Component `at` has no variance: its row of H and its deviation are zero.
pub fn no_variance(draw: &mut Draw, n: usize, m: usize, at: usize) -> Model {
    let mut model = rooted(draw, n, m, 1);
    model.h[at * n..(at + 1) * n].fill(0.0);
    model.r[at] = *draw.pick(&[0.0, -0.0]);
    model
}

/// The downdate of component `at` fails in column `column`: only that state is measured, without noise, and the factor
/// is diagonal.
pub fn no_column(draw: &mut Draw, n: usize, m: usize, at: usize, column: usize) -> Model {
    let mut model = rooted(draw, n, m, 1);
    for i in 0..n * n {
        if i / n != i % n {
            model.p[i] = 0.0;
        }
    }
    for k in 0..m {
        let row = &mut model.h[k * n..(k + 1) * n];
        row.fill(0.0);
        row[column] = 1.0;
        model.r[k] = 1.0;
    }
    model.r[at] = 0.0;
    model
}

fn hard(draw: &mut Draw, n: usize, m: usize, i: usize) -> Model {
    match draw.below(12) {
        0..=4 => rooted(draw, n, m, i),
        5 => {
            let at = draw.below(m);
            no_variance(draw, n, m, at)
        }
        6 | 7 => {
            let (at, column) = (draw.below(m), draw.below(n));
            no_column(draw, n, m, at, column)
        }
        8 => {
            // Little noise: later columns of the downdate come near zero, or below.
            let mut model = rooted(draw, n, m, i);
            model.r.fill(*draw.pick(&[0.0, 1e-9, 1e-160, f64::NAN]));
            model
        }
        9 => {
            // A process noise that takes the covariance away.
            let mut model = rooted(draw, n, m, i);
            model.q = (0..n * n).map(|at| if at / n == at % n { -50.0 } else { 0.0 }).collect();
            model
        }
        _ => {
            let style = draw.style();
            let mut model = kalman::styled(draw, style, n, m, i);
            model.r.truncate(m);
            model
        }
    }
}

fn covariance(draw: &mut Draw, n: usize) -> Vec<f64> {
    shapes::for_cholesky(draw, n)
}

/// Two to seven steps.
fn sequence(draw: &mut Draw, model: Model) -> Call {
    let (n, m, i) = (model.n, model.m, model.i);
    let mut call = model.call("sq_seq");
    for _ in 0..2 + draw.below(6) {
        match draw.below(8) {
            0..=2 => {
                call.word("P");
                call.numbers(&draw.numbers(Style::Ordinary, i));
            }
            3..=5 => {
                call.word("U");
                call.numbers(&draw.numbers(Style::Ordinary, m));
            }
            6 => call.word("C"),
            _ => {
                call.word("R");
                call.numbers(&draw.numbers(Style::Ordinary, n));
                call.numbers(&covariance(draw, n));
            }
        }
    }
    call
}

/// An update at every size that is refused with 3 at each component, and with 4 at each component and column; the worked
/// case; a prediction refused with 4; and starts with and without a factor.
pub fn edges(draw: &mut Draw) -> Vec<Call> {
    let one = |r: f64, h: f64, q: f64, s: f64, x: f64| Model {
        n: 1,
        m: 1,
        i: 1,
        a: vec![1.0],
        b: vec![1.0],
        h: vec![h],
        q: vec![q],
        r: vec![r],
        x: vec![x],
        p: vec![s],
    };
    let mut calls = vec![
        one(0.0, 1.0, 0.0, 1.0, 0.0).call("sq_update").with(&[5.0]),
        one(0.0, 1.0, -9.0, 1.0, 2.0).call("sq_predict").with(&[2.0]),
        one(0.0, 0.0, 0.0, 1.0, 2.0).call("sq_update").with(&[2.0]),
        one(f64::NAN, 1.0, 0.0, 1.0, 0.0).call("sq_update").with(&[3.0]),
        one(1.0, 1.0, 0.0, 0.0, 0.0).call("sq_new"),
        one(1.0, 1.0, 0.0, 4.0, 0.0).call("sq_new"),
        one(1.0, 1.0, 0.0, 4.0, 0.0).call("sq_reset").with(&[1.0, -1.0]),
    ];
    // A sequence in which an update is refused with 3 at its second component, and a step follows.
    let mut refused = no_variance(draw, 2, 2, 1).call("sq_seq");
    refused.word("U");
    refused.numbers(&[1.0, 2.0]);
    refused.word("P");
    refused.numbers(&[1.0]);
    calls.push(refused);
    for n in 1..=4 {
        for m in 1..=4 {
            for at in 0..m {
                calls.push(
                    no_variance(draw, n, m, at).call("sq_update").with(&draw.numbers(Style::Ordinary, m)),
                );
                for column in 0..n {
                    let model = no_column(draw, n, m, at, column);
                    calls.push(model.call("sq_update").with(&draw.numbers(Style::Ordinary, m)));
                }
            }
            let model = rooted(draw, n, m, 2);
            calls.push(model.call("sq_from_cholesky"));
            calls.push(model.call("sq_cov"));
            calls.push(model.call("sq_predict").with(&draw.numbers(Style::Ordinary, 2)));
            calls.push(sequence(draw, model));
        }
    }
    calls
}

pub fn call(draw: &mut Draw) -> Call {
    let (n, m, i) = (draw.size(), draw.size(), draw.size());
    let mut model = hard(draw, n, m, i);
    let i = model.i;
    match draw.below(20) {
        0 => {
            model.p = covariance(draw, n);
            model.call("sq_new")
        }
        1 => model.call("sq_from_cholesky"),
        2 => model.call("sq_cov"),
        3 | 4 => model.call("sq_reset").with(&draw.numbers(Style::Ordinary, n)).with(&covariance(draw, n)),
        5..=8 => model.call("sq_predict").with(&draw.numbers(Style::Ordinary, i)),
        9..=15 => model.call("sq_update").with(&draw.numbers(Style::Ordinary, m)),
        _ => sequence(draw, model),
    }
}
