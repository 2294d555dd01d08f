//! Calls on the information filter: models and estimates as the linear filter's, with the matrix that is kept among the hard ones.

use crate::draw::{Draw, Style};
use crate::kalman::{covariance, good, hard, vector, Model};
use crate::shapes;
use crate::text::Call;

/// The beginning of a call on a filter of omega and xi; if_new has an estimate's order.
pub fn begun(model: &Model, op: &str) -> Call {
    let call = Call::new(op).wholes(&[model.n, model.m, model.i]);
    let last = if op == "if_new" { [&model.x, &model.p] } else { [&model.p, &model.x] };
    [&model.a, &model.b, &model.h, &model.q, &model.r]
        .iter()
        .chain(&last)
        .fold(call, |call, part| call.with(part))
}

/// A filter one of whose matrices is rejected at a later place: omega, the new omega, the noise, or what is predicted.
pub fn refusing(draw: &mut Draw, n: usize, m: usize, i: usize) -> Model {
    let mut model = hard(draw, n, m, i);
    match draw.below(5) {
        0 => (model.p, model.h) = (vec![0.0; n * n], vec![0.0; m * n]),
        1 => model.p = vec![0.0; n * n],
        2 => model.r = shapes::rejected(draw, m),
        3 => (model.a, model.q) = (vec![0.0; n * n], shapes::rejected(draw, n)),
        _ => (model.p, model.r) = (shapes::rejected(draw, n), shapes::definite(draw, m)),
    }
    model
}

fn model(draw: &mut Draw) -> Model {
    let (n, m, i) = (draw.size(), draw.size(), draw.size());
    match draw.below(3) {
        0 => refusing(draw, n, m, i),
        _ => hard(draw, n, m, i),
    }
}

/// Sensors behind their count: of each h, its inverted noise, and what it measured.
fn sensors(draw: &mut Draw, model: &Model, count: usize, call: &mut Call) {
    call.word(&count.to_string());
    for _ in 0..count {
        call.numbers(&draw.numbers(Style::Ordinary, model.m * model.n));
        call.numbers(&covariance(draw, model.m));
        call.numbers(&vector(draw, model.m));
    }
}

fn fusion(draw: &mut Draw, model: &Model, count: usize) -> Call {
    let mut call = begun(model, "if_fuse");
    sensors(draw, model, count, &mut call);
    call
}

/// How many sensors: mostly one to three, now and then none or many.
fn some(draw: &mut Draw) -> usize {
    *draw.pick(&[0, 1, 1, 1, 2, 2, 3, 7])
}

/// Two to seven steps.
pub fn sequence(draw: &mut Draw, model: Model) -> Call {
    let (n, m, i) = (model.n, model.m, model.i);
    let mut call = begun(&model, "if_seq");
    for _ in 0..2 + draw.below(6) {
        match draw.below(10) {
            0..=2 => {
                call.word("P");
                call.numbers(&vector(draw, i));
            }
            3..=5 => {
                call.word("U");
                call.numbers(&vector(draw, m));
            }
            6 => {
                call.word("F");
                let count = some(draw);
                sensors(draw, &model, count, &mut call);
            }
            7 => call.word("S"),
            8 => call.word("C"),
            _ => {
                call.word("R");
                call.numbers(&vector(draw, n));
                call.numbers(&covariance(draw, n));
            }
        }
    }
    call
}

pub fn call(draw: &mut Draw) -> Call {
    let model = model(draw);
    match draw.below(20) {
        0 | 1 => begun(&model, "if_new"),
        2 => begun(&model, "if_from_information"),
        3 => begun(&model, "if_reset").with(&vector(draw, model.n)).with(&covariance(draw, model.n)),
        4 => begun(&model, "if_state"),
        5 => begun(&model, "if_cov"),
        6 | 7 => {
            let count = some(draw);
            fusion(draw, &model, count)
        }
        8..=11 => begun(&model, "if_predict").with(&vector(draw, model.i)),
        12..=16 => begun(&model, "if_update").with(&vector(draw, model.m)),
        _ => sequence(draw, model),
    }
}

/// The worked case of the requirements and its neighbours, every size once, each refusal, and lists of sensors of several
/// lengths.
pub fn edges(draw: &mut Draw) -> Vec<Call> {
    let zeros = |r: f64| Model {
        n: 2,
        m: 1,
        i: 1,
        a: vec![1.0, 0.0, 0.0, 1.0],
        b: vec![0.0, 0.0],
        h: vec![1.0, 0.0],
        q: vec![1.0, 0.0, 0.0, 1.0],
        r: vec![r],
        x: vec![0.0, 0.0],
        p: vec![0.0; 4],
    };
    let mut calls: Vec<Call> = [1.0, 0.0].map(|r| begun(&zeros(r), "if_update").with(&[3.0])).into();
    for op in ["if_new", "if_state", "if_cov"] {
        calls.push(begun(&zeros(1.0), op));
    }
    calls.push(begun(&zeros(1.0), "if_predict").with(&[0.5]));
    calls.push(begun(&zeros(1.0), "if_reset").with(&[0.0; 6]));
    // An update that is refused keeps its addition, and two sensors behind it make a state.
    let mut mended = begun(&zeros(1.0), "if_seq");
    mended.word("U");
    mended.number(3.0);
    mended.word("F");
    mended.word("2");
    mended.numbers(&[1.0, 0.0, 1.0, 3.0, 0.0, 1.0, 0.25, 2.0]);
    mended.word("S");
    calls.push(mended);
    let many = good(draw, 2, 1, 1);
    calls.push(fusion(draw, &many, 64));
    for n in 1..=4 {
        let model = good(draw, n, 1, 1);
        calls.push(begun(&model, "if_state"));
        calls.push(begun(&model, "if_cov"));
        calls.push(begun(&model, "if_reset").with(&vector(draw, n)).with(&shapes::definite(draw, n)));
        for m in 1..=4 {
            for i in 1..=4 {
                let model = good(draw, n, m, i);
                calls.push(begun(&model, "if_predict").with(&vector(draw, i)));
                calls.push(begun(&model, "if_update").with(&vector(draw, m)));
            }
            let model = good(draw, n, m, 1);
            calls.push(begun(&model, "if_from_information"));
            calls.push(fusion(draw, &model, [0, 1, 2, 7][(n + m) % 4]));
            calls.push(sequence(draw, model));
            let refused = refusing(draw, n, m, 1);
            calls.push(begun(&refused, "if_update").with(&vector(draw, m)));
            calls.push(begun(&good(draw, n, m, 2), "if_new"));
        }
    }
    calls
}
