//! Drawn sheets: duties as they are driven, readings that a filter meets exactly, noises at their limits, jumps over
//! the whole range, covariances close to losing their rank, and good sheets with bytes changed.

use super::draw::Draw;
use super::mutate;
use super::plan::{Plan, FAR, READINGS, STAGES};

#[derive(Clone, Copy)]
enum Kind {
    Duty,
    Exact,
    Extreme,
    Jumps,
    Certain,
}

const KINDS: [(Kind, u64); 5] =
    [(Kind::Duty, 35), (Kind::Exact, 20), (Kind::Extreme, 15), (Kind::Jumps, 15), (Kind::Certain, 15)];

/// 1 to `most`, the ends more often.
fn count(draw: &mut Draw, most: usize) -> usize {
    match draw.below(8) {
        0 => 1,
        1 | 2 => most,
        _ => 1 + draw.below(most),
    }
}

/// One of the limits and their neighbours, or anything between.
fn limited(draw: &mut Draw, low: i64, high: i64) -> i64 {
    match draw.below(6) {
        0 => low,
        1 => high,
        2 => low + 1,
        3 => high - 1,
        _ => draw.between(low, high),
    }
}

fn noises(draw: &mut Draw) -> [i64; 3] {
    [limited(draw, 1, 99), limited(draw, 0, 9999), limited(draw, 1, 9999)]
}

/// About normal: the sum of four draws around 0, of about this deviation.
fn error(draw: &mut Draw, deviation: i64) -> i64 {
    let sum: f64 = (0..4).map(|_| draw.unit() - 0.5).sum();
    (sum * 1.7 * deviation as f64) as i64
}

/// Ends at, beside and between the metres that were read.
fn ends(draw: &mut Draw, readings: &[[i64; 2]]) -> Vec<i64> {
    let top = readings.iter().map(|[_, metres]| *metres).max().unwrap_or(0).max(10);
    let mut ends: Vec<i64> = (0..count(draw, STAGES))
        .map(|_| match draw.below(3) {
            0 => draw.between(1, top),
            _ => draw.pick(readings)[1] + draw.between(-2, 2),
        })
        .map(|end| end.clamp(1, FAR))
        .collect();
    ends.sort_unstable();
    ends.dedup();
    ends
}

/// A bus that drives, stops and loses its readings for a while.
fn duty(draw: &mut Draw) -> Plan {
    let (step, deviation) = (draw.between(1, 40), draw.between(1, 60));
    let (mut position, mut speed, mut missing) = (0, 0, 0);
    let mut readings = Vec::new();
    for _ in 0..count(draw, READINGS) {
        if draw.once_in(4) {
            speed = if draw.once_in(3) { 0 } else { draw.between(2, 17) };
        }
        if missing == 0 && draw.once_in(12) {
            missing = draw.between(1, 12);
        }
        position += step * speed;
        if missing > 0 {
            missing -= 1;
            readings.push([0, 0]);
        } else {
            readings.push([1, position + error(draw, deviation)]);
        }
    }
    let first = [step, draw.between(0, 9), deviation];
    Plan { first, ends: ends(draw, &readings), readings }
}

/// A bus at a whole speed, read without error: positions close to whole metres.
fn exact(draw: &mut Draw) -> Plan {
    let mut first = noises(draw);
    if draw.once_in(2) {
        first = [draw.between(1, 9), 0, draw.between(1, 3)];
    }
    let (start, speed) = match draw.below(4) {
        0 => (0, 0),
        1 => (draw.between(-50, 50), 0),
        2 => (0, draw.between(-20, 20)),
        _ => (draw.between(-99_999, 99_999), draw.between(-20, 20)),
    };
    let gaps = *draw.pick(&[2, 8, 64, 1000]);
    let count = count(draw, READINGS) as i64;
    let metres = (1..=count).map(|k| start + speed * first[0] * k);
    let readings: Vec<[i64; 2]> = metres.map(|z| if draw.once_in(gaps) { [0, 0] } else { [1, z] }).collect();
    Plan { first, ends: ends(draw, &readings), readings }
}

/// Noises and steps at their limits, readings within a range that is drawn.
fn extreme(draw: &mut Draw) -> Plan {
    let first = noises(draw);
    let range = *draw.pick(&[1, 10, 1000, 100_000, 3_000_000]);
    let present = *draw.pick(&[2, 10, 100]);
    let mut readings = Vec::new();
    for _ in 0..count(draw, READINGS) {
        readings.push(if draw.once_in(present) { [0, 0] } else { [1, draw.between(-range, range)] });
    }
    Plan { first, ends: ends(draw, &readings), readings }
}

/// From one end of the metres to the other, and anywhere between.
fn jumps(draw: &mut Draw) -> Plan {
    let mut first = noises(draw);
    if draw.once_in(2) {
        first[1] = draw.between(0, 3);
    }
    let wild = *draw.pick(&[2, 5, 40]);
    let calm = draw.between(-FAR, FAR);
    let mut readings = Vec::new();
    for _ in 0..count(draw, READINGS) {
        let metres = if draw.once_in(wild) { limited(draw, -FAR, FAR) } else { calm };
        readings.push(if draw.once_in(6) { [0, 0] } else { [1, metres] });
    }
    Plan { first, ends: ends(draw, &readings), readings }
}

/// As much known as a sheet allows, or little known for long and then much at once: predicted covariances whose second
/// pivot is small beside the first.
fn certain(draw: &mut Draw) -> Plan {
    let step = if draw.once_in(2) { 99 } else { draw.between(1, 99) };
    let process = *draw.pick(&[0, 0, 0, 1, 9999]);
    let first = [step, process, draw.between(1, 2)];
    let (speed, start) = (draw.between(-3, 3), draw.below(READINGS));
    let count = READINGS - draw.below(3);
    let late = draw.once_in(3);
    let gaps = *draw.pick(&[5, 100, 10_000]);
    let mut readings = Vec::new();
    for k in 0..count {
        let missing = (late && k < start) || draw.once_in(gaps);
        readings.push(if missing { [0, 0] } else { [1, speed * step * k as i64] });
    }
    Plan { first, ends: ends(draw, &readings), readings }
}

fn plan(draw: &mut Draw) -> Plan {
    match *draw.weighted(&KINDS) {
        Kind::Duty => duty(draw),
        Kind::Exact => exact(draw),
        Kind::Extreme => extreme(draw),
        Kind::Jumps => jumps(draw),
        Kind::Certain => certain(draw),
    }
}

/// One sheet; of six, one has bytes, fields or lines changed.
pub fn sheet(draw: &mut Draw) -> Vec<u8> {
    let plan = plan(draw);
    match draw.once_in(6) {
        true => mutate::changed(draw, &plan),
        false => plan.bytes(),
    }
}
