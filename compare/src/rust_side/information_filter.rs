//! The information filter: information_filter.rs, for f64.

use crate::matrix::{read, write};
use compare::protocol::{Answer, Bad, Words};
use compare::sized;
use oxictl::estimator::information_filter::InformationFilter;

type Filter<const N: usize, const M: usize, const I: usize> = InformationFilter<f64, N, M, I>;

/// Omega and xi, that are left behind.
fn left<const N: usize, const M: usize, const I: usize>(filter: &Filter<N, M, I>, answer: &mut Answer) {
    answer.bar();
    write(filter.information_matrix(), answer);
    answer.numbers(filter.information_vector());
}

/// One step on the filter, and its answer.
fn step<const N: usize, const M: usize, const I: usize>(
    name: &[u8],
    filter: &mut Filter<N, M, I>,
    w: &mut Words,
    answer: &mut Answer,
) -> Result<(), Bad> {
    match name {
        b"P" => match filter.predict(&w.vector()?) {
            Ok(()) => answer.ok(),
            Err(_) => answer.refused(3),
        },
        b"U" => match filter.update(&w.vector()?) {
            Ok(innovation) => {
                answer.ok();
                answer.numbers(&innovation);
            }
            Err(_) => answer.refused(3),
        },
        b"F" => {
            let count = w.whole::<usize>()?;
            let sensors =
                (0..count).map(|_| Ok((read(w)?, read(w)?, w.vector()?))).collect::<Result<Vec<_>, Bad>>()?;
            match filter.fuse_sensors(&sensors) {
                Ok(()) => answer.ok(),
                Err(_) => answer.refused(3),
            }
        }
        b"S" => match filter.state() {
            Some(state) => {
                answer.ok();
                answer.numbers(&state);
            }
            None => answer.refused(3),
        },
        b"C" => match filter.covariance() {
            Some(covariance) => {
                answer.ok();
                write(&covariance, answer);
            }
            None => answer.refused(3),
        },
        b"R" => match filter.reset(w.vector()?, read(w)?) {
            Some(()) => answer.ok(),
            None => answer.refused(3),
        },
        _ => return Err("unknown step"),
    }
    left(filter, answer);
    Ok(())
}

fn run<const N: usize, const M: usize, const I: usize>(
    op: &[u8],
    w: &mut Words,
    answer: &mut Answer,
) -> Result<(), Bad> {
    let (a, b, h, q, r) = (read(w)?, read(w)?, read(w)?, read(w)?, read(w)?);
    if op == b"if_new" {
        let x0 = w.vector()?;
        match Filter::<N, M, I>::new(a, b, h, q, r, x0, read(w)?) {
            Some(filter) => {
                answer.ok();
                left(&filter, answer);
            }
            None => answer.refused(3),
        }
        return w.end();
    }
    let omega = read(w)?;
    let mut filter = Filter::<N, M, I>::from_information(a, b, h, q, r, omega, w.vector()?);
    match op {
        b"if_from_information" => {
            answer.ok();
            left(&filter, answer);
        }
        b"if_predict" => step(b"P", &mut filter, w, answer)?,
        b"if_update" => step(b"U", &mut filter, w, answer)?,
        b"if_fuse" => step(b"F", &mut filter, w, answer)?,
        b"if_state" => step(b"S", &mut filter, w, answer)?,
        b"if_cov" => step(b"C", &mut filter, w, answer)?,
        b"if_reset" => step(b"R", &mut filter, w, answer)?,
        b"if_seq" => {
            step(w.word()?, &mut filter, w, answer)?;
            while w.more() {
                answer.then();
                step(w.word()?, &mut filter, w, answer)?;
            }
        }
        _ => return Err("unknown call"),
    }
    w.end()
}

pub fn call(op: &[u8], words: &mut Words, answer: &mut Answer) -> Result<(), Bad> {
    let (n, m, i) = (words.size()?, words.size()?, words.size()?);
    sized!(run::<N, M, I>(op, words, answer); N = n, M = m, I = i)
}
