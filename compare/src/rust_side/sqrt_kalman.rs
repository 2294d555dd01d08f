//! The square-root filter: sqrt_kalman.rs, for f64.

use crate::matrix::{read, write};
use compare::protocol::{Answer, Bad, Words};
use compare::sized;
use oxictl::estimator::sqrt_kalman::{SqrtKalman, SqrtKfError};

type Filter<const N: usize, const M: usize, const I: usize> = SqrtKalman<f64, N, M, I>;

/// The filter of the call's words; with `new` the last part is a covariance, which may have no factor.
fn filter<const N: usize, const M: usize, const I: usize>(
    new: bool,
    w: &mut Words,
) -> Result<Option<Filter<N, M, I>>, Bad> {
    let (a, b, h) = (read(w)?, read(w)?, read(w)?);
    let (q, r, x) = (read(w)?, w.vector()?, w.vector()?);
    match new {
        true => Ok(SqrtKalman::new(a, b, h, q, r, x, read(w)?)),
        false => Ok(Some(SqrtKalman::from_cholesky(a, b, h, q, r, x, read(w)?))),
    }
}

/// The state and the factor that are left behind.
fn held<const N: usize, const M: usize, const I: usize>(filter: &Filter<N, M, I>, answer: &mut Answer) {
    answer.bar();
    answer.numbers(filter.state());
    write(filter.cholesky_factor(), answer);
}

fn number(error: SqrtKfError) -> u8 {
    match error {
        SqrtKfError::SingularMatrix => 3,
        _ => 4,
    }
}

/// One step on the filter, and its answer.
fn step<const N: usize, const M: usize, const I: usize>(
    name: &[u8],
    filter: &mut Filter<N, M, I>,
    w: &mut Words,
    answer: &mut Answer,
) -> Result<(), Bad> {
    match name {
        b"P" => match filter.predict(&w.vector()?) {
            Ok(()) => answer.ok(),
            Err(error) => answer.refused(number(error)),
        },
        b"U" => match filter.update(&w.vector()?) {
            Ok(innovation) => {
                answer.ok();
                answer.numbers(&innovation);
            }
            Err(error) => answer.refused(number(error)),
        },
        b"C" => {
            answer.ok();
            write(&filter.covariance(), answer);
        }
        b"R" => match filter.reset(w.vector()?, read(w)?) {
            Some(()) => answer.ok(),
            None => answer.refused(4),
        },
        _ => return Err("unknown step"),
    }
    held(filter, answer);
    Ok(())
}

fn run<const N: usize, const M: usize, const I: usize>(
    op: &[u8],
    w: &mut Words,
    answer: &mut Answer,
) -> Result<(), Bad> {
    let Some(mut filter) = filter::<N, M, I>(op == b"sq_new", w)? else {
        answer.refused(4);
        return w.end();
    };
    match op {
        b"sq_new" | b"sq_from_cholesky" => {
            answer.ok();
            held(&filter, answer);
        }
        b"sq_predict" => step(b"P", &mut filter, w, answer)?,
        b"sq_update" => step(b"U", &mut filter, w, answer)?,
        b"sq_cov" => step(b"C", &mut filter, w, answer)?,
        b"sq_reset" => step(b"R", &mut filter, w, answer)?,
        b"sq_seq" => {
            step(w.word()?, &mut filter, w, answer)?;
            while w.more() {
                answer.then();
                step(w.word()?, &mut filter, w, answer)?;
            }
        }
        _ => return Err("unknown call"),
    }
    w.end()
}

pub fn call(op: &[u8], words: &mut Words, answer: &mut Answer) -> Result<(), Bad> {
    let (n, m, i) = (words.size()?, words.size()?, words.size()?);
    sized!(run::<N, M, I>(op, words, answer); N = n, M = m, I = i)
}
