//! Calls on matrices and vectors.

use crate::draw::{Draw, Style};
use crate::shapes;
use crate::text::Call;

const OPS: &[(&str, u64)] = &[
    ("zeros", 1),
    ("default", 1),
    ("filled", 1),
    ("identity", 1),
    ("transpose", 2),
    ("add_mat", 3),
    ("sub_mat", 3),
    ("eq", 3),
    ("scale", 3),
    ("neg", 2),
    ("frob_norm", 3),
    ("trace", 2),
    ("get", 2),
    ("set", 2),
    ("matmul", 10),
    ("matvec", 5),
    ("outer", 3),
    ("vec_add", 2),
    ("vec_sub", 2),
    ("vec_dot", 3),
    ("vec_scale", 2),
    ("vec_norm", 3),
    ("inv", 30),
    ("cholesky", 18),
];

/// Two matrices that are equal, or differ in one cell, or in the sign of a zero, or hold a NaN.
fn equal(draw: &mut Draw, r: usize, c: usize) -> Call {
    let style = *draw.pick(&[Style::Whole, Style::Ordinary, Style::Sprinkled]);
    let mut a = draw.numbers(style, r * c);
    let mut b = a.clone();
    let at = draw.below(r * c);
    match draw.below(5) {
        0 => b[at] = draw.number(style),
        1 => (a[at], b[at]) = (0.0, -0.0),
        2 => (a[at], b[at]) = (f64::NAN, f64::NAN),
        3 => b = draw.numbers(style, r * c),
        _ => (),
    }
    Call::new("eq").wholes(&[r, c]).with(&a).with(&b)
}

/// A call of `op` with these sizes (those that it has of them) and numbers of one style.
pub fn styled(draw: &mut Draw, op: &str, style: Style, [r, k, c]: [usize; 3]) -> Call {
    let call = Call::new(op);
    let rc = r * c;
    match op {
        "zeros" | "default" => call.wholes(&[r, c]),
        "identity" => call.wholes(&[r]),
        "filled" => call.wholes(&[r, c]).with(&draw.numbers(style, 1)),
        "add_mat" | "sub_mat" | "eq" => call.wholes(&[r, c]).with(&draw.numbers(style, 2 * rc)),
        "scale" => call.wholes(&[r, c]).with(&draw.numbers(style, rc + 1)),
        "get" => call.wholes(&[r, c, draw.below(r), draw.below(c)]).with(&draw.numbers(style, rc)),
        "set" => call.wholes(&[r, c, draw.below(r), draw.below(c)]).with(&draw.numbers(style, rc + 1)),
        "trace" | "inv" | "cholesky" => call.wholes(&[r]).with(&draw.numbers(style, r * r)),
        "matmul" => call.wholes(&[r, k, c]).with(&draw.numbers(style, r * k + k * c)),
        "matvec" => call.wholes(&[r, c]).with(&draw.numbers(style, rc + c)),
        "outer" => call.wholes(&[r, c]).with(&draw.numbers(style, r + c)),
        "vec_add" | "vec_sub" | "vec_dot" => call.wholes(&[r]).with(&draw.numbers(style, 2 * r)),
        "vec_scale" => call.wholes(&[r]).with(&draw.numbers(style, r + 1)),
        "vec_norm" => call.wholes(&[r]).with(&draw.numbers(style, r)),
        _ => call.wholes(&[r, c]).with(&draw.numbers(style, rc)),
    }
}

pub fn call(draw: &mut Draw) -> Call {
    let op = *draw.weighted(OPS);
    let sizes = [draw.size(), draw.size(), draw.size()];
    let n = sizes[0];
    match op {
        "eq" => equal(draw, n, sizes[2]),
        "inv" => Call::new(op).wholes(&[n]).with(&shapes::any(draw, n)),
        "cholesky" => Call::new(op).wholes(&[n]).with(&shapes::for_cholesky(draw, n)),
        _ => {
            let style = draw.style();
            styled(draw, op, style, sizes)
        }
    }
}
