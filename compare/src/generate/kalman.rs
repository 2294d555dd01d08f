//! Calls on the linear filter.

use crate::draw::{Draw, Style};
use crate::shapes;
use crate::text::Call;

/// A filter's sizes and its numbers.
pub struct Model {
    pub n: usize,
    pub m: usize,
    pub i: usize,
    pub a: Vec<f64>,
    pub b: Vec<f64>,
    pub h: Vec<f64>,
    pub q: Vec<f64>,
    pub r: Vec<f64>,
    pub x: Vec<f64>,
    pub p: Vec<f64>,
}

impl Model {
    /// The beginning of a call: its name, the sizes and the filter.
    pub fn call(&self, op: &str) -> Call {
        let call = Call::new(op).wholes(&[self.n, self.m, self.i]);
        [&self.a, &self.b, &self.h, &self.q, &self.r, &self.x, &self.p]
            .iter()
            .fold(call, |call, part| call.with(part))
    }

    fn parts(&mut self) -> [&mut Vec<f64>; 7] {
        let Model { a, b, h, q, r, x, p, .. } = self;
        [a, b, h, q, r, x, p]
    }
}

/// A step of about 1 second: ones on the diagonal, small numbers above it.
fn transition(draw: &mut Draw, n: usize) -> Vec<f64> {
    let step = *draw.pick(&[1.0, 0.1, 0.5, 2.0]);
    let cell = |at: usize| match (at / n, at % n) {
        (i, j) if i == j => 1.0,
        (i, j) if i + 1 == j => step,
        (i, j) if i < j => step * step / 2.0,
        _ => 0.0,
    };
    (0..n * n).map(cell).collect()
}

/// A filter as a road needs it.
pub fn good(draw: &mut Draw, n: usize, m: usize, i: usize) -> Model {
    let mut h = draw.numbers(Style::Ordinary, m * n);
    if draw.once_in(2) {
        (0..m * n).for_each(|at| h[at] = (at % n == at / n % n) as usize as f64);
    }
    let small = *draw.pick(&[1.0, 0.01]);
    Model {
        n,
        m,
        i,
        a: transition(draw, n),
        b: draw.numbers(Style::Ordinary, n * i),
        h,
        q: shapes::definite(draw, n).iter().map(|x| x * small).collect(),
        r: shapes::definite(draw, m),
        x: draw.numbers(Style::Ordinary, n),
        p: shapes::definite(draw, n),
    }
}

/// A filter of numbers of one style.
pub fn styled(draw: &mut Draw, style: Style, n: usize, m: usize, i: usize) -> Model {
    let mut part = |count: usize| draw.numbers(style, count);
    Model {
        n,
        m,
        i,
        a: part(n * n),
        b: part(n * i),
        h: part(m * n),
        q: part(n * n),
        r: part(m * m),
        x: part(n),
        p: part(n * n),
    }
}

/// A filter whose updates are refused, or nearly.
pub fn refusing(draw: &mut Draw, n: usize, m: usize, i: usize) -> Model {
    let mut model = good(draw, n, m, i);
    match draw.below(6) {
        0 => (model.h, model.r) = (vec![0.0; m * n], vec![0.0; m * m]),
        1 => (model.p, model.r) = (vec![0.0; n * n], vec![0.0; m * m]),
        2 => (model.h, model.r) = (vec![0.0; m * n], shapes::rejected(draw, m)),
        3 => (model.h, model.r) = (vec![0.0; m * n], shapes::at_limit(draw, m)),
        4 => (model.p, model.r) = (shapes::flat(draw, n), vec![0.0; m * m]),
        _ => {
            // The same measurement twice without noise; with m = 1 noise that takes all away.
            let row = model.h[..n].to_vec();
            model.h = row.repeat(m);
            model.r = vec![0.0; m * m];
            if m == 1 {
                model.h = vec![1.0; n];
                model.p = vec![1.0; n * n];
                model.r = vec![-((n * n) as f64)];
            }
        }
    }
    model
}

pub fn hard(draw: &mut Draw, n: usize, m: usize, i: usize) -> Model {
    let mut model = good(draw, n, m, i);
    match draw.below(12) {
        0..=3 => (),
        4 | 5 => model = refusing(draw, n, m, i),
        6 => {
            model.p = shapes::flat(draw, n);
            if draw.once_in(2) {
                model.q = shapes::flat(draw, n);
            }
        }
        7 => (model.r, model.p) = (shapes::any(draw, m), shapes::any(draw, n)),
        8 => {
            for _ in 0..1 + draw.below(3) {
                let which = draw.below(7);
                let special = draw.special();
                let part = &mut model.parts()[which];
                let at = draw.below(part.len());
                part[at] = special;
            }
        }
        _ => {
            let style = draw.style();
            model = styled(draw, style, n, m, i);
        }
    }
    model
}

/// A vector for a filter: mostly ordinary.
pub fn vector(draw: &mut Draw, count: usize) -> Vec<f64> {
    let style = match draw.below(4) {
        0 => draw.style(),
        1 => Style::Whole,
        _ => Style::Ordinary,
    };
    draw.numbers(style, count)
}

pub fn covariance(draw: &mut Draw, n: usize) -> Vec<f64> {
    match draw.below(4) {
        0 => shapes::any(draw, n),
        1 => shapes::flat(draw, n),
        _ => shapes::definite(draw, n),
    }
}

/// Two to seven steps. Some sequences have no measurement noise and are set to a covariance of zero on
/// the way, so that an update is refused, and a later one is not.
pub fn sequence(draw: &mut Draw, mut model: Model) -> Call {
    let (n, m, i) = (model.n, model.m, model.i);
    let noiseless = draw.once_in(3);
    if noiseless {
        model.r = vec![0.0; m * m];
    }
    let mut call = model.call("kf_seq");
    for _ in 0..2 + draw.below(6) {
        match draw.below(7) {
            0..=2 => {
                call.word("P");
                call.numbers(&vector(draw, i));
            }
            3..=5 => {
                call.word("U");
                call.numbers(&vector(draw, m));
            }
            _ => {
                call.word("R");
                call.numbers(&vector(draw, n));
                let p0 = if noiseless { vec![0.0; n * n] } else { covariance(draw, n) };
                call.numbers(&p0);
            }
        }
    }
    call
}

pub fn call(draw: &mut Draw) -> Call {
    let (n, m, i) = (draw.size(), draw.size(), draw.size());
    let choice = draw.below(20);
    if choice == 0 {
        let style = *draw.pick(&[Style::Ordinary, Style::Whole, Style::Sprinkled, Style::Mixed, Style::Bits]);
        return Call::new("kf_posvel").with(&draw.numbers(style, 3));
    }
    let model = hard(draw, n, m, i);
    match choice {
        1 => model.call("kf_new"),
        2 => model.call("kf_reset").with(&vector(draw, n)).with(&covariance(draw, n)),
        3..=7 => model.call("kf_predict").with(&vector(draw, i)),
        8..=14 => model.call("kf_update").with(&vector(draw, m)),
        _ => sequence(draw, model),
    }
}
