//! Calls on the smoother.

use crate::draw::{Draw, Style};
use crate::shapes;
use crate::text::Call;

/// The length of a slot.
pub fn slot_len(n: usize) -> usize {
    2 * (n + n * n)
}

/// A slot with ordinary states and definite covariances.
pub fn good_slot(draw: &mut Draw, n: usize) -> Vec<f64> {
    let mut slot = draw.numbers(Style::Ordinary, n);
    slot.extend(shapes::definite(draw, n));
    slot.extend(draw.numbers(Style::Ordinary, n));
    slot.extend(shapes::definite(draw, n));
    slot
}

pub fn good_slots(draw: &mut Draw, n: usize, count: usize) -> Vec<Vec<f64>> {
    (0..count).map(|_| good_slot(draw, n)).collect()
}

/// Another predicted covariance for a slot.
pub fn predict(slot: &mut [f64], covariance: &[f64]) {
    let from = slot.len() - covariance.len();
    slot[from..].copy_from_slice(covariance);
}

/// A slot to be rejected: the first, a middle one, the last but one, the last (where it must not
/// matter), or any.
fn broken_place(draw: &mut Draw, count: usize) -> usize {
    match draw.below(5) {
        0 => 0,
        1 => count / 2,
        2 => count.saturating_sub(2),
        3 => count - 1,
        _ => draw.below(count),
    }
}

fn hard_slots(draw: &mut Draw, n: usize, count: usize) -> Vec<Vec<f64>> {
    let mut slots = good_slots(draw, n, count);
    if count == 0 {
        return slots;
    }
    match draw.below(12) {
        0..=3 => (),
        4..=6 => {
            let place = broken_place(draw, count);
            predict(&mut slots[place], &shapes::rejected(draw, n));
        }
        7 => {
            let place = broken_place(draw, count);
            predict(&mut slots[place], &shapes::any(draw, n));
        }
        8 => {
            for slot in &mut slots {
                predict(slot, &shapes::flat(draw, n));
            }
        }
        9 => {
            for _ in 0..1 + draw.below(3) {
                let (k, at) = (draw.below(count), draw.below(slot_len(n)));
                slots[k][at] = draw.special();
            }
        }
        _ => {
            let style = draw.style();
            slots = (0..count).map(|_| draw.numbers(style, slot_len(n))).collect();
        }
    }
    slots
}

fn transition(draw: &mut Draw, n: usize) -> Vec<f64> {
    match draw.below(4) {
        0 => {
            let style = draw.style();
            draw.numbers(style, n * n)
        }
        1 => (0..n * n).map(|at| (at / n <= at % n) as usize as f64).collect(),
        2 => draw.numbers(Style::Whole, n * n),
        _ => draw.numbers(Style::Ordinary, n * n),
    }
}

/// How many slots are offered to a room: often all, sometimes more, sometimes none.
fn offered(draw: &mut Draw, room: usize) -> usize {
    match draw.below(8) {
        0..=2 => room,
        3 => room + 1 + draw.below(2),
        4 if draw.once_in(2) => 0,
        _ => draw.below(room + 1),
    }
}

/// A slot number: mostly of a slot kept or just beyond, sometimes far outside.
fn index(draw: &mut Draw, kept: usize, room: usize) -> usize {
    match draw.below(6) {
        0 => kept,
        1 => room,
        2 => *draw.pick(&[kept + 1, 1000, usize::MAX, usize::MAX - 1, 1 << 63, 1 << 32]),
        _ => draw.below(kept.max(1)),
    }
}

pub fn with_slots(mut call: Call, slots: &[Vec<f64>]) -> Call {
    for slot in slots {
        call.numbers(slot);
    }
    call
}

pub fn call(draw: &mut Draw, short: bool) -> Call {
    let n = draw.size();
    let rooms = [(1, 15), (2, 20), (3, 30), (8, 30), (64, if short { 0 } else { 4 })];
    let room = *draw.weighted(&rooms);
    let s = offered(draw, room);
    match draw.below(10) {
        0 => with_slots(Call::new("rts_store").wholes(&[n, room, s]), &hard_slots(draw, n, s)),
        1 => {
            let k = index(draw, s.min(room), room);
            with_slots(Call::new("rts_get").wholes(&[n, room, s, k]), &hard_slots(draw, n, s))
        }
        2 | 3 => {
            let before = offered(draw, room);
            let call = Call::new("rts_stale").wholes(&[n, room, before, s]);
            let call = call.with(&transition(draw, n));
            with_slots(with_slots(call, &hard_slots(draw, n, before)), &hard_slots(draw, n, s))
        }
        _ => {
            let call = Call::new("rts_smooth").wholes(&[n, room, s]).with(&transition(draw, n));
            with_slots(call, &hard_slots(draw, n, s))
        }
    }
}
