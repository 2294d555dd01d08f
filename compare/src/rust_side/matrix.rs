//! Matrices and vectors: matrix.rs, for f64.

use compare::protocol::{Answer, Bad, Words};
use compare::sized;
use oxictl::core::matrix::{matmul, matvec, outer, vec_add, vec_dot, vec_norm, vec_scale, vec_sub, Matrix};

/// An R x C matrix from the call's words.
pub fn read<const R: usize, const C: usize>(words: &mut Words) -> Result<Matrix<f64, R, C>, Bad> {
    let mut data = [[0.0; C]; R];
    for row in &mut data {
        words.fill(row)?;
    }
    Ok(Matrix { data })
}

/// A matrix's cells by rows.
pub fn write<const R: usize, const C: usize>(matrix: &Matrix<f64, R, C>, answer: &mut Answer) {
    for row in &matrix.data {
        answer.numbers(row);
    }
}

fn answer_matrix<const R: usize, const C: usize>(
    matrix: Matrix<f64, R, C>,
    words: &mut Words,
    answer: &mut Answer,
) -> Result<(), Bad> {
    words.end()?;
    answer.ok();
    write(&matrix, answer);
    Ok(())
}

fn answer_vector(cells: &[f64], words: &mut Words, answer: &mut Answer) -> Result<(), Bad> {
    words.end()?;
    answer.ok();
    answer.numbers(cells);
    Ok(())
}

fn answer_option<const N: usize>(
    result: Option<Matrix<f64, N, N>>,
    refusal: u8,
    words: &mut Words,
    answer: &mut Answer,
) -> Result<(), Bad> {
    match result {
        Some(matrix) => answer_matrix(matrix, words, answer),
        None => {
            words.end()?;
            answer.refused(refusal);
            Ok(())
        }
    }
}

/// Calls with two sizes: R and C.
fn rectangle<const R: usize, const C: usize>(
    op: &[u8],
    w: &mut Words,
    answer: &mut Answer,
) -> Result<(), Bad> {
    let result = match op {
        b"zeros" => Matrix::<f64, R, C>::zeros(),
        b"default" => Matrix::<f64, R, C>::default(),
        b"filled" => Matrix::<f64, R, C>::filled(w.number()?),
        b"transpose" => return answer_matrix(read::<R, C>(w)?.transpose(), w, answer),
        b"add_mat" => read::<R, C>(w)?.add_mat(&read(w)?),
        b"sub_mat" => read::<R, C>(w)?.sub_mat(&read(w)?),
        b"scale" => read::<R, C>(w)?.scale(w.number()?),
        b"neg" => read::<R, C>(w)?.neg(),
        b"outer" => outer(&w.vector::<R>()?, &w.vector::<C>()?),
        b"frob_norm" => return answer_vector(&[read::<R, C>(w)?.frob_norm()], w, answer),
        b"matvec" => return answer_vector(&matvec(&read::<R, C>(w)?, &w.vector()?), w, answer),
        b"get" => {
            let (i, j) = (w.index(R)?, w.index(C)?);
            return answer_vector(&[read::<R, C>(w)?.get(i, j)], w, answer);
        }
        b"set" => {
            let (i, j) = (w.index(R)?, w.index(C)?);
            let mut matrix = read::<R, C>(w)?;
            matrix.set(i, j, w.number()?);
            matrix
        }
        b"eq" => {
            let equal = read::<R, C>(w)? == read::<R, C>(w)?;
            w.end()?;
            answer.ok();
            answer.whole(equal as usize);
            return Ok(());
        }
        _ => return Err("unknown call"),
    };
    answer_matrix(result, w, answer)
}

/// Calls with one size: N.
fn square<const N: usize>(op: &[u8], w: &mut Words, answer: &mut Answer) -> Result<(), Bad> {
    match op {
        b"identity" => answer_matrix(Matrix::<f64, N, N>::identity(), w, answer),
        b"trace" => answer_vector(&[read::<N, N>(w)?.trace()], w, answer),
        b"vec_add" => answer_vector(&vec_add(&w.vector::<N>()?, &w.vector()?), w, answer),
        b"vec_sub" => answer_vector(&vec_sub(&w.vector::<N>()?, &w.vector()?), w, answer),
        b"vec_dot" => answer_vector(&[vec_dot(&w.vector::<N>()?, &w.vector()?)], w, answer),
        b"vec_scale" => answer_vector(&vec_scale(&w.vector::<N>()?, w.number()?), w, answer),
        b"vec_norm" => answer_vector(&[vec_norm(&w.vector::<N>()?)], w, answer),
        b"inv" => answer_option(read::<N, N>(w)?.inv(), 3, w, answer),
        b"cholesky" => answer_option(read::<N, N>(w)?.cholesky(), 4, w, answer),
        _ => Err("unknown call"),
    }
}

fn product<const R: usize, const K: usize, const C: usize>(
    w: &mut Words,
    answer: &mut Answer,
) -> Result<(), Bad> {
    let (a, b) = (read::<R, K>(w)?, read::<K, C>(w)?);
    answer_matrix(matmul(&a, &b), w, answer)
}

pub fn call(op: &[u8], words: &mut Words, answer: &mut Answer) -> Result<(), Bad> {
    match op {
        b"matmul" => {
            let (r, k, c) = (words.size()?, words.size()?, words.size()?);
            sized!(product::<R, K, C>(words, answer); R = r, K = k, C = c)
        }
        b"identity" | b"trace" | b"vec_add" | b"vec_sub" | b"vec_dot" | b"vec_scale" | b"vec_norm"
        | b"inv" | b"cholesky" => {
            let n = words.size()?;
            sized!(square::<N>(op, words, answer); N = n)
        }
        _ => {
            let (r, c) = (words.size()?, words.size()?);
            sized!(rectangle::<R, C>(op, words, answer); R = r, C = c)
        }
    }
}
