//! A bus from the depot gate on: where the filter aboard has it at each reading, and where the depot has it once the
//! whole duty is smoothed. The same as track.c, from Rust. Built and run by examples/run.

const N: usize = 2;
const M: usize = 1;
const I: usize = 1;
const STEP: usize = 10;
const READINGS: usize = 14;
const PAIR: usize = N + N * N;
const SLOT: usize = 2 * PAIR;
const FILTER: usize = 2 * N * N + N * I + M * N + M * M + PAIR;
const STATE: usize = FILTER - PAIR;

/// Metres from the gate that the wheel says, every STEP seconds; below 0 is no reading.
const WHEEL: [f64; READINGS] = [38., 121., 214., 262., 301., 390., -1., -1., -1., 561., 640., 722., 753., 760.];
/// Where each fare stage ends, in metres.
const ENDS: [f64; 4] = [280., 600., 740., 1200.];

/// The C functions, as include/estimators.h declares them: a slice is a pointer and its length.
mod entries {
    #[link(name = "estimators", kind = "static")]
    extern "C" {
        pub fn estimators_kalman_position_velocity(dt: f64, process_noise: f64, measurement_noise: f64, filter: *mut f64, len: usize) -> u8;
        pub fn estimators_kalman_predict(n: usize, m: usize, i: usize, filter: *mut f64, len: usize, u: *const f64, u_len: usize) -> u8;
        pub fn estimators_kalman_update(
            n: usize, m: usize, i: usize, filter: *mut f64, len: usize,
            z: *const f64, z_len: usize, innovation: *mut f64, innovation_len: usize,
        ) -> u8;
        pub fn estimators_rts_smoother_store_forward(
            n: usize, room: usize, count: *mut usize, slots: *mut f64, slots_len: usize,
            filtered: *const f64, filtered_len: usize, predicted: *const f64, predicted_len: usize,
        ) -> u8;
        pub fn estimators_rts_smoother_smooth(
            n: usize, room: usize, count: usize, slots: *const f64, slots_len: usize,
            transition: *const f64, transition_len: usize, output: *mut f64, output_len: usize,
        ) -> u8;
    }
}

/// `Ok`, or the number of the refusal.
fn told(number: u8) -> Result<(), u8> {
    if number == 0 { Ok(()) } else { Err(number) }
}

// Each call lends slices of their own, for as long as it runs; the library keeps no pointer.

fn predict(filter: &mut [f64]) -> Result<(), u8> {
    let none = [0.0; I];
    told(unsafe { entries::estimators_kalman_predict(N, M, I, filter.as_mut_ptr(), filter.len(), none.as_ptr(), none.len()) })
}

fn update(filter: &mut [f64], reading: &[f64], innovation: &mut [f64]) -> Result<(), u8> {
    told(unsafe {
        entries::estimators_kalman_update(
            N, M, I, filter.as_mut_ptr(), filter.len(),
            reading.as_ptr(), reading.len(), innovation.as_mut_ptr(), innovation.len(),
        )
    })
}

fn store(count: &mut usize, slots: &mut [f64], filtered: &[f64], predicted: &[f64]) -> Result<(), u8> {
    told(unsafe {
        entries::estimators_rts_smoother_store_forward(
            N, READINGS, count, slots.as_mut_ptr(), slots.len(),
            filtered.as_ptr(), filtered.len(), predicted.as_ptr(), predicted.len(),
        )
    })
}

fn smooth(count: usize, slots: &[f64], transition: &[f64], output: &mut [f64]) -> Result<(), u8> {
    told(unsafe {
        entries::estimators_rts_smoother_smooth(
            N, READINGS, count, slots.as_ptr(), slots.len(),
            transition.as_ptr(), transition.len(), output.as_mut_ptr(), output.len(),
        )
    })
}

/// The first stage that ends at or after a place, else the last; stages count from 1.
fn stage_of(place: f64) -> usize {
    1 + ENDS.iter().position(|end| *end >= place).unwrap_or(ENDS.len() - 1)
}

/// The filtered and the smoothed places.
fn duty() -> Result<(Vec<f64>, Vec<f64>), u8> {
    let (mut filter, mut slots, mut stored) = ([0.0; FILTER], [0.0; READINGS * SLOT], 0);
    let mut filtered = Vec::new();
    told(unsafe { entries::estimators_kalman_position_velocity(STEP as f64, 0.25, 8.0, filter.as_mut_ptr(), FILTER) })?;
    for reading in WHEEL {
        predict(&mut filter)?;
        if reading >= 0.0 {
            update(&mut filter, &[reading], &mut [0.0; M])?;
        }
        filtered.push(filter[STATE]);
        // A slot's predicted pair is for the reading after it.
        let mut ahead = filter;
        predict(&mut ahead)?;
        store(&mut stored, &mut slots, &filter[STATE..], &ahead[STATE..])?;
    }
    // A filter begins with its transition.
    let mut smoothed = [0.0; READINGS * PAIR];
    smooth(stored, &slots, &filter[..N * N], &mut smoothed)?;
    Ok((filtered, smoothed.chunks(PAIR).map(|pair| pair[0]).collect()))
}

fn print(filtered: &[f64], smoothed: &[f64]) {
    println!("metres from the depot gate; stages end at {}, {}, {} and {}", ENDS[0], ENDS[1], ENDS[2], ENDS[3]);
    println!(" time   wheel  filtered  smoothed  stage");
    for k in 0..READINGS {
        let (aboard, stage) = (stage_of(filtered[k]), stage_of(smoothed[k]));
        let wheel = if WHEEL[k] >= 0.0 { format!("{}", WHEEL[k]) } else { "-".to_string() };
        let moved = if aboard == stage { String::new() } else { format!("  (aboard: {aboard})") };
        println!("{:3} s  {:>6}  {:8.1}  {:8.1}  {:5}{}", (k + 1) * STEP, wheel, filtered[k], smoothed[k], stage, moved);
    }
    println!("A dash is a missing reading: the filter aboard goes on by its speed, and at 90 s is a stage too far.");
    println!("The depot smooths the whole duty, so the readings after the gap put that right.");
}

fn main() -> std::process::ExitCode {
    match duty() {
        Ok((filtered, smoothed)) => {
            print(&filtered, &smoothed);
            std::process::ExitCode::SUCCESS
        }
        Err(number) => {
            println!("refused {number}");
            number.into()
        }
    }
}
