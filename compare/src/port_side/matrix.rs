//! Matrices and vectors: the matrix_ functions.

use crate::entries::*;
use crate::lent::Lent;
use compare::protocol::{Answer, Bad, Words};

/// Calls with two sizes, R and C, and one matrix or none.
fn one_matrix(op: &[u8], w: &mut Words, answer: &mut Answer) -> Result<(), Bad> {
    let (r, c) = (w.size()?, w.size()?);
    let rc = r * c;
    let mut out = Lent::new(if matches!(op, b"get" | b"frob_norm") { 1 } else { rc });
    let (to, len) = (out.ptr(), out.len());
    let status = unsafe {
        match op {
            b"zeros" => estimators_matrix_zeros(r, c, to, len),
            b"default" => estimators_matrix_default(r, c, to, len),
            b"filled" => estimators_matrix_filled(r, c, w.number()?, to, len),
            b"transpose" => estimators_matrix_transpose(r, c, w.cells(rc)?.as_ptr(), rc, to, len),
            b"scale" => estimators_matrix_scale(r, c, w.cells(rc)?.as_ptr(), rc, w.number()?, to, len),
            b"neg" => estimators_matrix_neg(r, c, w.cells(rc)?.as_ptr(), rc, to, len),
            b"frob_norm" => estimators_matrix_frob_norm(r, c, w.cells(rc)?.as_ptr(), rc, to),
            b"get" => {
                let (i, j) = (w.index(r)?, w.index(c)?);
                estimators_matrix_get(r, c, i, j, w.cells(rc)?.as_ptr(), rc, to)
            }
            b"set" => {
                let (i, j) = (w.index(r)?, w.index(c)?);
                estimators_matrix_set(r, c, i, j, w.cells(rc)?.as_ptr(), rc, w.number()?, to, len)
            }
            _ => return Err("unknown call"),
        }
    };
    w.end()?;
    out.answer(status, answer)
}

/// Calls with two sizes, R and C, and two slices.
fn two_slices(op: &[u8], w: &mut Words, answer: &mut Answer) -> Result<(), Bad> {
    let (r, c) = (w.size()?, w.size()?);
    let (first, second, result) = match op {
        b"matvec" => (r * c, c, r),
        b"outer" => (r, c, r * c),
        _ => (r * c, r * c, r * c),
    };
    let cells = (w.cells(first)?, w.cells(second)?);
    w.end()?;
    let mut out = Lent::new(result);
    let (to, len) = (out.ptr(), out.len());
    let (a, b) = (cells.0.as_ptr(), cells.1.as_ptr());
    let status = unsafe {
        match op {
            b"add_mat" => estimators_matrix_add_mat(r, c, a, first, b, second, to, len),
            b"sub_mat" => estimators_matrix_sub_mat(r, c, a, first, b, second, to, len),
            b"matvec" => estimators_matrix_matvec(r, c, a, first, b, second, to, len),
            _ => estimators_matrix_outer(r, c, a, first, b, second, to, len),
        }
    };
    out.answer(status, answer)
}

/// Asked twice, with the bool lent false and lent true, so that one which was not written shows.
fn equal(w: &mut Words, answer: &mut Answer) -> Result<(), Bad> {
    let (r, c) = (w.size()?, w.size()?);
    let (a, b) = (w.cells(r * c)?, w.cells(r * c)?);
    w.end()?;
    let ask = |lent: u8| {
        let mut out = lent;
        let status = unsafe { estimators_matrix_eq(r, c, a.as_ptr(), a.len(), b.as_ptr(), b.len(), &mut out) };
        (status, out)
    };
    match (ask(0), ask(1)) {
        ((0, x), (0, y)) if x == y => {
            answer.ok();
            answer.whole(x as usize);
        }
        ((0, _), (0, _)) => return Err("output not written"),
        ((x, 0), (y, 1)) if x == y => answer.refused(x),
        _ => return Err("output touched, or two answers to one call"),
    }
    Ok(())
}

/// Calls with one size: N.
fn square(op: &[u8], w: &mut Words, answer: &mut Answer) -> Result<(), Bad> {
    let n = w.size()?;
    let nn = n * n;
    let mut out = Lent::new(match op {
        b"trace" | b"vec_dot" | b"vec_norm" => 1,
        b"identity" | b"inv" | b"cholesky" => nn,
        _ => n,
    });
    let (to, len) = (out.ptr(), out.len());
    let status = unsafe {
        match op {
            b"identity" => estimators_matrix_identity(n, to, len),
            b"trace" => estimators_matrix_trace(n, w.cells(nn)?.as_ptr(), nn, to),
            b"inv" => estimators_matrix_inv(n, w.cells(nn)?.as_ptr(), nn, to, len),
            b"cholesky" => estimators_matrix_cholesky(n, w.cells(nn)?.as_ptr(), nn, to, len),
            b"vec_add" => {
                let (v, u) = (w.cells(n)?, w.cells(n)?);
                estimators_matrix_vec_add(n, v.as_ptr(), n, u.as_ptr(), n, to, len)
            }
            b"vec_sub" => {
                let (v, u) = (w.cells(n)?, w.cells(n)?);
                estimators_matrix_vec_sub(n, v.as_ptr(), n, u.as_ptr(), n, to, len)
            }
            b"vec_dot" => {
                let (v, u) = (w.cells(n)?, w.cells(n)?);
                estimators_matrix_vec_dot(n, v.as_ptr(), n, u.as_ptr(), n, to)
            }
            b"vec_scale" => estimators_matrix_vec_scale(n, w.cells(n)?.as_ptr(), n, w.number()?, to, len),
            b"vec_norm" => estimators_matrix_vec_norm(n, w.cells(n)?.as_ptr(), n, to),
            _ => return Err("unknown call"),
        }
    };
    w.end()?;
    out.answer(status, answer)
}

fn product(w: &mut Words, answer: &mut Answer) -> Result<(), Bad> {
    let (r, k, c) = (w.size()?, w.size()?, w.size()?);
    let (a, b) = (w.cells(r * k)?, w.cells(k * c)?);
    w.end()?;
    let mut out = Lent::new(r * c);
    let status =
        unsafe { estimators_matrix_matmul(r, k, c, a.as_ptr(), a.len(), b.as_ptr(), b.len(), out.ptr(), out.len()) };
    out.answer(status, answer)
}

pub fn call(op: &[u8], words: &mut Words, answer: &mut Answer) -> Result<(), Bad> {
    match op {
        b"matmul" => product(words, answer),
        b"identity" | b"trace" | b"vec_add" | b"vec_sub" | b"vec_dot" | b"vec_scale" | b"vec_norm"
        | b"inv" | b"cholesky" => square(op, words, answer),
        b"eq" => equal(words, answer),
        b"add_mat" | b"sub_mat" | b"matvec" | b"outer" => two_slices(op, words, answer),
        _ => one_matrix(op, words, answer),
    }
}
