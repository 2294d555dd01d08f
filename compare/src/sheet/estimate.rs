//! The Rust's filter and smoother over a sheet's readings.

use super::read::{Refusal, Sheet};
use oxictl::core::matrix::Matrix;
use oxictl::estimator::kalman::KalmanFilter;
use oxictl::estimator::rts_smoother::{FilteredState, RtsSmoother, SmoothedData};

/// As many slots as a sheet has readings at most.
pub type Slots = RtsSmoother<f64, 2, 64>;

fn tracker(sheet: &Sheet) -> KalmanFilter<f64, 2, 1, 1> {
    KalmanFilter::position_velocity(sheet.step as f64, sheet.process as f64, sheet.measurement as f64)
}

/// A slot for each reading, or 3 at the first whose update is refused.
pub fn filter(sheet: &Sheet) -> Result<Slots, Refusal> {
    let mut filter = tracker(sheet);
    let mut slots = Slots::new();
    for (k, reading) in sheet.readings.iter().enumerate() {
        filter.predict(&[0.0]);
        if let Some(metres) = reading {
            filter.update(&[*metres as f64]).ok_or(sheet.at_reading(3, k))?;
        }
        let mut next = filter.clone();
        next.predict(&[0.0]);
        let slot =
            FilteredState::new(*filter.state(), *filter.covariance(), *next.state(), *next.covariance());
        slots.store_forward(slot).expect("a sheet has at most 64 readings");
    }
    Ok(slots)
}

/// The latest slot, the last excepted, whose predicted covariance has no inverse.
fn rejected(slots: &Slots) -> Option<usize> {
    (0..slots.len() - 1).rev().find(|k| slots.get_state(*k).is_some_and(|slot| slot.p_pred.inv().is_none()))
}

/// The smoothed slots, or 3 at the latest one rejected.
pub fn smooth(sheet: &Sheet, slots: &Slots) -> Result<SmoothedData<f64, 2, 64>, Refusal> {
    let transition: Matrix<f64, 2, 2> = tracker(sheet).a;
    slots.smooth(&transition).map_err(|_| sheet.at_reading(3, rejected(slots).expect("a slot was rejected")))
}

/// Rounded down, unless NaN or outside what is printed.
pub fn whole_metres(position: f64) -> Option<i32> {
    let metres = position.floor();
    (metres.abs() <= 9_999_999.0).then_some(metres as i32)
}
