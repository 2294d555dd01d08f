//! The edge cases: the worked cases of the requirements, matrix calls, predictions and updates at every size, each
//! refusal at each place, smoothers of several sizes and rooms. The list is the same on every run.

use crate::draw::{Draw, Style, LIMIT, SPECIAL};
use crate::imm;
use crate::information_filter;
use crate::kalman::{good, refusing, sequence, styled as styled_filter, Model};
use crate::matrix::styled;
use crate::rts_smoother::{good_slots, predict, with_slots};
use crate::shapes;
use crate::text::Call;
use compare::ops::{Family, OPS};

const NAN: f64 = f64::NAN;
const INFINITY: f64 = f64::INFINITY;

/// All sizes, 1 to 4.
const SIZES: std::ops::RangeInclusive<usize> = 1..=4;

/// The worked cases of the requirements that these modules have.
fn worked() -> Vec<Call> {
    let root = |x: f64| Call::new("sqrt").with(&[x]);
    let square = |op: &str, cells: &[f64]| {
        let n = [1, 2, 3, 4].into_iter().find(|n| n * n == cells.len()).unwrap();
        Call::new(op).wholes(&[n]).with(cells)
    };
    let smoothing = [1.0, 1.0, 1.0, 1.0, 2.0, 3.0, 1.0, 0.0, 0.0];
    let mut tracked = position_velocity(1.0, 4288.0, 32.0).call("kf_seq");
    tracked.word("P");
    tracked.number(0.0);
    tracked.word("U");
    tracked.number(400.0);
    vec![
        Call::new("consts"),
        root(4.0),
        root(2.0),
        root(f64::from_bits(1)),
        root(-0.0),
        square("inv", &[0.0, 2.0, 4.0, 0.0]),
        square("inv", &[1.0, 2.0, 2.0, 4.0]),
        square("inv", &[NAN]),
        square("cholesky", &[4.0, 9.0, 2.0, 5.0]),
        square("cholesky", &[1.0, 0.0, 1.0, 1.0]),
        Call::new("rts_smooth").wholes(&[1, 2, 2]).with(&smoothing),
        Call::new("rts_smooth").wholes(&[1, 8, 2]).with(&smoothing),
        Call::new("kf_posvel").with(&[1.0, 4288.0, 32.0]),
        tracked,
        Call::new("matmul").wholes(&[1, 1, 1]).with(&[-0.0, 1.0]),
        Call::new("rts_store").wholes(&[1, 64, 64]).with(&[1.0; 64 * 4]),
        Call::new("rts_store").wholes(&[1, 64, 65]).with(&[1.0; 65 * 4]),
    ]
}

/// The tracker that kf_posvel makes, for sequences.
fn position_velocity(dt: f64, process: f64, measurement: f64) -> Model {
    let (dt2, dt3) = (dt * dt, dt * dt * dt);
    let cross = process * dt3 * 0.5;
    Model {
        n: 2,
        m: 1,
        i: 1,
        a: vec![1.0, dt, 0.0, 1.0],
        b: vec![dt2 * 0.5, dt],
        h: vec![1.0, 0.0],
        q: vec![process * (dt3 * dt) * 0.25, cross, cross, process * dt2],
        r: vec![measurement * measurement],
        x: vec![0.0, 0.0],
        p: vec![1000.0, 0.0, 0.0, 1000.0],
    }
}

/// Every special number in every function of one number, and ends that tie or stand the wrong way.
fn numbers() -> Vec<Call> {
    let mut calls = Vec::new();
    for op in ["sqrt", "abs", "pid_abs", "from_f64", "to_f64"] {
        calls.extend(SPECIAL.map(|bits| Call::new(op).with(&[f64::from_bits(bits)])));
    }
    let few = [NAN, -1.0, -0.0, 0.0, 2.0, INFINITY];
    for x in few {
        for low in few {
            calls.push(Call::new("saturate").with(&[x, low]));
            for high in few {
                calls.push(Call::new("clamp_val").with(&[x, low, high]));
            }
            calls.push(Call::new("clamp_pid").with(&[x, low, 0.0]));
            calls.push(Call::new("clamp_pid").with(&[x, 0.0, low]));
        }
    }
    for value in ["0", "1", "-1", "7", "2147483647", "-2147483648", "-2147483647", "16777217"] {
        let mut call = Call::new("from_int");
        call.word(value);
        calls.push(call);
    }
    calls
}

/// Every call on matrices at every size, with whole numbers, with mixed ones and with special ones.
fn matrices(draw: &mut Draw) -> Vec<Call> {
    let mut calls = Vec::new();
    for (op, _) in OPS.iter().filter(|(_, family)| *family == Family::Matrix) {
        for r in SIZES {
            for c in SIZES {
                let k = 1 + (r + c) % 4;
                match *op {
                    "matmul" => {
                        let styles = [Style::Whole, Style::Mixed, Style::Sprinkled, Style::Ordinary];
                        calls.extend(SIZES.map(|k| styled(draw, op, styles[k - 1], [r, k, c])));
                    }
                    "zeros" | "default" | "filled" => calls.push(styled(draw, op, Style::Special, [r, k, c])),
                    "identity" if c == 1 => calls.push(styled(draw, op, Style::Whole, [r, k, c])),
                    "identity" => (),
                    "inv" | "cholesky" | "trace" if c > 1 => (),
                    _ => {
                        calls.push(styled(draw, op, Style::Whole, [r, k, c]));
                        calls.push(styled(draw, op, Style::Mixed, [r, k, c]));
                    }
                }
            }
        }
    }
    calls.push(Call::new("eq").wholes(&[1, 2]).with(&[0.0, 1.0, -0.0, 1.0]));
    calls.push(Call::new("eq").wholes(&[1, 2]).with(&[NAN, 1.0, NAN, 1.0]));
    calls
}

fn neighbour(x: f64, by: i64) -> f64 {
    f64::from_bits((x.to_bits() as i64 + by) as u64)
}

/// An upper triangle of ones and twos, whose pivots are the ones.
fn upper(n: usize) -> Vec<f64> {
    let cell = |(i, j): (usize, usize)| match i.cmp(&j) {
        std::cmp::Ordering::Less => 2.0,
        std::cmp::Ordering::Equal => 1.0,
        std::cmp::Ordering::Greater => 0.0,
    };
    (0..n * n).map(|at| cell((at / n, at % n))).collect()
}

/// Inversion: each pivot at the limit and beside it, NaN and infinity at each place on and below the
/// diagonal, ties, and matrices of lower rank.
fn inversions(draw: &mut Draw) -> Vec<Call> {
    let mut calls = Vec::new();
    for n in SIZES {
        let inv = |cells: &[f64]| Call::new("inv").wholes(&[n]).with(cells);
        for at in 0..n * n {
            let (i, j) = (at / n, at % n);
            let mut changed = |value: f64, mut a: Vec<f64>| {
                a[at] = value;
                calls.push(inv(&a));
            };
            if i == j {
                for by in [-1, 0, 1] {
                    changed(neighbour(LIMIT, by), upper(n));
                    changed(-neighbour(LIMIT, by), upper(n));
                }
                changed(INFINITY, upper(n));
                changed(0.0, upper(n));
            }
            changed(NAN, shapes::definite(draw, n));
            if i > j {
                changed(-1.0, upper(n));
                changed(1.0, upper(n));
                changed(INFINITY, shapes::definite(draw, n));
                changed(LIMIT, vec![0.0; n * n]);
            }
        }
        calls.push(inv(&vec![0.0; n * n]));
        calls.push(inv(&vec![3.0; n * n]));
        for _ in 0..3 {
            calls.push(inv(&shapes::tied(draw, n)));
            calls.push(inv(&shapes::singular(draw, n)));
            calls.push(inv(&shapes::flat(draw, n)));
            calls.push(inv(&shapes::definite(draw, n)));
        }
    }
    calls
}

/// Cholesky's factor: each diagonal number zero, below zero, NaN, tiny or infinite; garbage above.
fn factors(draw: &mut Draw) -> Vec<Call> {
    let mut calls = Vec::new();
    for n in SIZES {
        for place in 0..n {
            for value in [0.0, -0.0, -1.0, NAN, 5e-324, INFINITY, -INFINITY] {
                let mut a = shapes::definite(draw, n);
                a[place * n + place] = value;
                calls.push(Call::new("cholesky").wholes(&[n]).with(&a));
            }
        }
        for _ in 0..8 {
            calls.push(Call::new("cholesky").wholes(&[n]).with(&shapes::for_cholesky(draw, n)));
        }
    }
    calls
}

/// A prediction and an update whose numbers are all of one style.
fn steps(draw: &mut Draw, style: Style, [n, m, i]: [usize; 3]) -> [Call; 2] {
    let (first, second) = (styled_filter(draw, style, n, m, i), styled_filter(draw, style, n, m, i));
    [
        first.call("kf_predict").with(&draw.numbers(style, i)),
        second.call("kf_update").with(&draw.numbers(style, m)),
    ]
}

/// The filter at one size: predictions and updates with ordinary numbers, whole and mixed ones, and another
/// call that depends on the input's size.
fn filters_at(draw: &mut Draw, n: usize, m: usize, i: usize) -> Vec<Call> {
    let model = good(draw, n, m, i);
    let other = match i {
        1 => model.call("kf_new"),
        2 => {
            let (x0, p0) = (draw.numbers(Style::Ordinary, n), shapes::definite(draw, n));
            model.call("kf_reset").with(&x0).with(&p0)
        }
        3 => sequence(draw, model),
        _ => {
            let refused = refusing(draw, n, m, i);
            sequence(draw, refused)
        }
    };
    let (first, second) = (good(draw, n, m, i), good(draw, n, m, i));
    let mut calls = vec![
        other,
        first.call("kf_predict").with(&draw.numbers(Style::Ordinary, i)),
        second.call("kf_update").with(&draw.numbers(Style::Ordinary, m)),
    ];
    calls.extend(steps(draw, Style::Whole, [n, m, i]));
    calls.extend(steps(draw, Style::Mixed, [n, m, i]));
    calls
}

/// The sizes that a road needs, in every style of numbers: special ones between ordinary ones, −0 and
/// subnormal ones, overflow.
fn road_filters(draw: &mut Draw) -> Vec<Call> {
    let styles = [
        Style::Whole,
        Style::NearOne,
        Style::Sprinkled,
        Style::Sprinkled,
        Style::Sprinkled,
        Style::Special,
        Style::Mixed,
        Style::Power,
        Style::Scaled(-1060),
        Style::Scaled(-530),
        Style::Scaled(510),
    ];
    let sizes = [[2, 1, 1], [4, 2, 2]];
    sizes.iter().flat_map(|size| styles.map(|style| steps(draw, style, *size))).flatten().collect()
}

/// Refused, predicted and accepted, set back and refused again.
fn refused_sequence() -> Call {
    let mut model = position_velocity(1.0, 4.0, 0.0);
    model.p = vec![0.0; 4];
    let mut call = model.call("kf_seq");
    let steps = [("U", vec![1.0]), ("P", vec![0.5]), ("U", vec![2.0]), ("R", vec![0.0; 6]), ("U", vec![3.0])];
    for (name, cells) in steps {
        call.word(name);
        call.numbers(&cells);
    }
    call
}

/// The filter: every size, refused updates, and sequences that go on after them.
fn filters(draw: &mut Draw) -> Vec<Call> {
    let mut calls = Vec::new();
    for n in SIZES {
        for m in SIZES {
            for i in SIZES {
                calls.extend(filters_at(draw, n, m, i));
            }
            let mut flat = good(draw, n, m, 1);
            (flat.h, flat.r) = (vec![0.0; m * n], vec![0.0; m * m]);
            calls.push(flat.call("kf_update").with(&vec![1.0; m]));
        }
    }
    calls.extend(road_filters(draw));
    let trackers =
        [[0.0, 1.0, 1.0], [1.0, 0.0, 0.0], [NAN, 1.0, 1.0], [-0.0, -1.0, -0.0], [0.1, 1e300, 1e200]];
    calls.extend(trackers.map(|given| Call::new("kf_posvel").with(&given)));
    calls.push(refused_sequence());
    calls
}

/// Smoothing, storing and asking, for one state size and room.
fn smoothers(draw: &mut Draw, n: usize, room: usize) -> Vec<Call> {
    let mut calls = Vec::new();
    let f = upper(n);
    let smooth = |slots: &[Vec<f64>]| {
        with_slots(Call::new("rts_smooth").wholes(&[n, room, slots.len()]).with(&f), slots)
    };
    for s in [0, 1, room / 2, room, room + 1] {
        let slots = good_slots(draw, n, s);
        calls.push(smooth(&slots));
        if room < 8 || n < 3 {
            calls.push(with_slots(Call::new("rts_store").wholes(&[n, room, s]), &slots));
        }
    }
    // A predicted covariance rejected at one place; at the last it must not matter.
    for place in [0, room / 2, room.saturating_sub(2), room - 1] {
        let mut slots = good_slots(draw, n, room);
        predict(&mut slots[place], &shapes::singular(draw, n));
        calls.push(smooth(&slots));
    }
    let far = [(1, 1 << 32), (1, 1 << 63), (1, usize::MAX)];
    let near = [(0, 0), (1, 0), (1, 1), (room, room - 1), (room, room), (room + 1, room)];
    for (s, k) in near.into_iter().chain(far) {
        let slots = good_slots(draw, n, s);
        calls.push(with_slots(Call::new("rts_get").wholes(&[n, room, slots.len(), k]), &slots));
    }
    for (before, s) in [(room, 0), (room, 1), (1, room.min(8)), (room + 1, room / 2)] {
        let mut slots = good_slots(draw, n, before + s);
        if before > room && s > 1 {
            predict(&mut slots[before], &vec![0.0; n * n]);
        }
        let call = Call::new("rts_stale").wholes(&[n, room, before, s]).with(&f);
        calls.push(with_slots(call, &slots));
    }
    calls
}

pub fn calls() -> Vec<Call> {
    let mut draw = Draw::new(0, 0);
    let mut calls = worked();
    calls.extend(numbers());
    calls.extend(matrices(&mut draw));
    calls.extend(inversions(&mut draw));
    calls.extend(factors(&mut draw));
    calls.extend(filters(&mut draw));
    calls.extend(imm::edges(&mut draw));
    calls.extend(information_filter::edges(&mut Draw::new(1, 0)));
    for (n, rooms) in [(1, vec![1, 2, 3, 8, 64]), (2, vec![1, 2, 3, 8]), (3, vec![1, 3]), (4, vec![2, 3])] {
        for room in rooms {
            calls.extend(smoothers(&mut draw, n, room));
        }
    }
    calls.extend(crate::sqrt_kalman::edges(&mut draw));
    // The greatest: four states, 64 slots.
    let slots = good_slots(&mut draw, 4, 64);
    calls.push(with_slots(Call::new("rts_smooth").wholes(&[4, 64, 64]).with(&upper(4)), &slots));
    calls
}
