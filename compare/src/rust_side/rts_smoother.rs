//! The smoother: rts_smoother.rs, for f64.

use crate::matrix::{read, write};
use compare::protocol::{Answer, Bad, Words};
use compare::{roomed, sized};
use oxictl::core::matrix::Matrix;
use oxictl::estimator::rts_smoother::{FilteredState, RtsSmoother, SmootherError};

fn number(error: SmootherError) -> u8 {
    match error {
        SmootherError::InsufficientData => 2,
        SmootherError::SingularMatrix => 3,
        SmootherError::BufferFull => 5,
        SmootherError::IndexOutOfRange => 6,
    }
}

fn slot<const N: usize>(w: &mut Words) -> Result<FilteredState<f64, N>, Bad> {
    Ok(FilteredState::new(w.vector()?, read(w)?, w.vector()?, read(w)?))
}

fn write_slot<const N: usize>(slot: &FilteredState<f64, N>, answer: &mut Answer) {
    answer.numbers(&slot.x);
    write(&slot.p, answer);
    answer.numbers(&slot.x_pred);
    write(&slot.p_pred, answer);
}

/// Offers the next `count` slots; `told` gets each store's 0 or refusal.
fn offer<const N: usize, const T: usize>(
    smoother: &mut RtsSmoother<f64, N, T>,
    count: usize,
    w: &mut Words,
    mut told: impl FnMut(u8),
) -> Result<(), Bad> {
    for _ in 0..count {
        match smoother.store_forward(slot(w)?) {
            Ok(()) => told(0),
            Err(error) => told(number(error)),
        }
    }
    Ok(())
}

fn store<const N: usize, const T: usize>(w: &mut Words, answer: &mut Answer) -> Result<(), Bad> {
    let mut smoother = RtsSmoother::<f64, N, T>::new();
    let offered = w.slots()?;
    answer.ok();
    offer(&mut smoother, offered, w, |refusal| answer.whole(refusal as usize))?;
    w.end()?;
    answer.bar();
    answer.whole(smoother.len());
    answer.whole(smoother.is_empty() as usize);
    for k in 0..smoother.len() {
        write_slot(smoother.get_state(k).ok_or("a slot kept is not there")?, answer);
    }
    Ok(())
}

fn get<const N: usize, const T: usize>(w: &mut Words, answer: &mut Answer) -> Result<(), Bad> {
    let mut smoother = RtsSmoother::<f64, N, T>::new();
    let (offered, k) = (w.slots()?, w.whole()?);
    offer(&mut smoother, offered, w, |_| ())?;
    w.end()?;
    match smoother.get_state(k) {
        Some(slot) => {
            answer.ok();
            write_slot(slot, answer);
        }
        None => answer.refused(6),
    }
    Ok(())
}

/// The smoothed pairs, those past the count among them.
fn answer_smooth<const N: usize, const T: usize>(
    smoother: &RtsSmoother<f64, N, T>,
    a: &Matrix<f64, N, N>,
    answer: &mut Answer,
) {
    match smoother.smooth(a) {
        Ok(smoothed) => {
            answer.ok();
            answer.whole(smoothed.len);
            answer.bar();
            for pair in &smoothed.states {
                answer.numbers(&pair.x);
                write(&pair.p, answer);
            }
        }
        Err(error) => answer.refused(number(error)),
    }
}

fn smooth<const N: usize, const T: usize>(w: &mut Words, answer: &mut Answer) -> Result<(), Bad> {
    let mut smoother = RtsSmoother::<f64, N, T>::new();
    let offered = w.slots()?;
    let a = read(w)?;
    offer(&mut smoother, offered, w, |_| ())?;
    w.end()?;
    answer_smooth(&smoother, &a, answer);
    Ok(())
}

fn stale<const N: usize, const T: usize>(w: &mut Words, answer: &mut Answer) -> Result<(), Bad> {
    let mut smoother = RtsSmoother::<f64, N, T>::new();
    let (before, offered) = (w.slots()?, w.slots()?);
    let a = read(w)?;
    offer(&mut smoother, before, w, |_| ())?;
    smoother.reset();
    offer(&mut smoother, offered, w, |_| ())?;
    w.end()?;
    answer_smooth(&smoother, &a, answer);
    Ok(())
}

fn run<const N: usize, const T: usize>(op: &[u8], words: &mut Words, answer: &mut Answer) -> Result<(), Bad> {
    match op {
        b"rts_store" => store::<N, T>(words, answer),
        b"rts_get" => get::<N, T>(words, answer),
        b"rts_smooth" => smooth::<N, T>(words, answer),
        b"rts_stale" => stale::<N, T>(words, answer),
        _ => Err("unknown call"),
    }
}

pub fn call(op: &[u8], words: &mut Words, answer: &mut Answer) -> Result<(), Bad> {
    let (n, room) = (words.size()?, words.whole::<usize>()?);
    sized!(roomed!(run::<N, T>(op, words, answer); T = room); N = n)
}
