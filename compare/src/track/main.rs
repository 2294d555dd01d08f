//! What examples/track.c has to print, by the unchanged Rust: the readings and the table are that program's.

use oxictl::estimator::kalman::KalmanFilter;
use oxictl::estimator::rts_smoother::{FilteredState, RtsSmoother};

const STEP: usize = 10;
const READINGS: usize = 14;
const WHEEL: [f64; READINGS] =
    [38., 121., 214., 262., 301., 390., -1., -1., -1., 561., 640., 722., 753., 760.];
const ENDS: [f64; 4] = [280., 600., 740., 1200.];

fn stage_of(place: f64) -> usize {
    1 + ENDS.iter().position(|end| *end >= place).unwrap_or(ENDS.len() - 1)
}

fn main() {
    let mut filter = KalmanFilter::<f64, 2, 1, 1>::position_velocity(STEP as f64, 0.25, 8.0);
    let mut slots = RtsSmoother::<f64, 2, READINGS>::new();
    for reading in WHEEL {
        filter.predict(&[0.0]);
        if reading >= 0.0 {
            filter.update(&[reading]).expect("an update");
        }
        let mut ahead = filter.clone();
        ahead.predict(&[0.0]);
        let slot =
            FilteredState::new(*filter.state(), *filter.covariance(), *ahead.state(), *ahead.covariance());
        slots.store_forward(slot).expect("room");
    }
    let smoothed = slots.smooth(&filter.a).expect("a smoothed duty");

    println!(
        "metres from the depot gate; stages end at {}, {}, {} and {}",
        ENDS[0], ENDS[1], ENDS[2], ENDS[3]
    );
    println!(" time   wheel  filtered  smoothed  stage");
    for (k, reading) in WHEEL.iter().enumerate() {
        let filtered = slots.get_state(k).expect("a slot").x[0];
        let place = smoothed.states[k].x[0];
        let (aboard, stage) = (stage_of(filtered), stage_of(place));
        let wheel = if *reading >= 0.0 { format!("{reading}") } else { "-".to_string() };
        let moved = if aboard == stage { String::new() } else { format!("  (aboard: {aboard})") };
        println!(
            "{:3} s  {:>6}  {:8.1}  {:8.1}  {:5}{}",
            (k + 1) * STEP,
            wheel,
            filtered,
            place,
            stage,
            moved
        );
    }
    println!("A dash is a missing reading: the filter aboard goes on by its speed, and at 90 s is a stage too far.");
    println!("The depot smooths the whole duty, so the readings after the gap put that right.");
}
