//! The linear filter: kalman.rs, for f64.

use crate::matrix::{read, write};
use compare::protocol::{Answer, Bad, Words};
use compare::sized;
use oxictl::estimator::kalman::KalmanFilter;

type Filter<const N: usize, const M: usize, const I: usize> = KalmanFilter<f64, N, M, I>;

fn filter<const N: usize, const M: usize, const I: usize>(w: &mut Words) -> Result<Filter<N, M, I>, Bad> {
    let (a, b, h) = (read(w)?, read(w)?, read(w)?);
    let (q, r, x) = (read(w)?, read(w)?, w.vector()?);
    Ok(KalmanFilter::new(a, b, h, q, r, x, read(w)?))
}

/// The state and the covariance that are left behind.
fn estimate<const N: usize, const M: usize, const I: usize>(filter: &Filter<N, M, I>, answer: &mut Answer) {
    answer.bar();
    answer.numbers(filter.state());
    write(filter.covariance(), answer);
}

/// One step on the filter, and its answer.
fn step<const N: usize, const M: usize, const I: usize>(
    name: &[u8],
    filter: &mut Filter<N, M, I>,
    w: &mut Words,
    answer: &mut Answer,
) -> Result<(), Bad> {
    match name {
        b"P" => {
            filter.predict(&w.vector()?);
            answer.ok();
        }
        b"U" => match filter.update(&w.vector()?) {
            Some(innovation) => {
                answer.ok();
                answer.numbers(&innovation);
            }
            None => answer.refused(3),
        },
        b"R" => {
            filter.reset(w.vector()?, read(w)?);
            answer.ok();
        }
        _ => return Err("unknown step"),
    }
    estimate(filter, answer);
    Ok(())
}

fn run<const N: usize, const M: usize, const I: usize>(
    op: &[u8],
    w: &mut Words,
    answer: &mut Answer,
) -> Result<(), Bad> {
    let mut filter = filter::<N, M, I>(w)?;
    match op {
        b"kf_new" => {
            answer.ok();
            estimate(&filter, answer);
        }
        b"kf_predict" => step(b"P", &mut filter, w, answer)?,
        b"kf_update" => step(b"U", &mut filter, w, answer)?,
        b"kf_reset" => step(b"R", &mut filter, w, answer)?,
        b"kf_seq" => {
            step(w.word()?, &mut filter, w, answer)?;
            while w.more() {
                answer.then();
                step(w.word()?, &mut filter, w, answer)?;
            }
        }
        _ => return Err("unknown call"),
    }
    w.end()
}

fn position_velocity(w: &mut Words, answer: &mut Answer) -> Result<(), Bad> {
    let filter = Filter::<2, 1, 1>::position_velocity(w.number()?, w.number()?, w.number()?);
    w.end()?;
    answer.ok();
    write(&filter.a, answer);
    write(&filter.b, answer);
    write(&filter.h, answer);
    write(&filter.q, answer);
    write(&filter.r, answer);
    estimate(&filter, answer);
    Ok(())
}

pub fn call(op: &[u8], words: &mut Words, answer: &mut Answer) -> Result<(), Bad> {
    if op == b"kf_posvel" {
        return position_velocity(words, answer);
    }
    let (n, m, i) = (words.size()?, words.size()?, words.size()?);
    sized!(run::<N, M, I>(op, words, answer); N = n, M = m, I = i)
}
