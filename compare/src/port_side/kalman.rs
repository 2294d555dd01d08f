//! The linear filter: the kalman_ functions, on a filter that this driver lends.

use crate::entries::*;
use crate::lent::Lent;
use compare::protocol::{same, Answer, Bad, Words};

struct Filter {
    n: usize,
    m: usize,
    i: usize,
    lent: Lent,
}

impl Filter {
    /// How many numbers stand before the state: a, b, h, q, r.
    fn model_len(&self) -> usize {
        let (n, m, i) = (self.n, self.m, self.i);
        2 * n * n + n * i + m * n + m * m
    }

    fn model(&self) -> &[f64] {
        &self.lent.cells()[..self.model_len()]
    }

    fn estimate(&self) -> &[f64] {
        &self.lent.cells()[self.model_len()..]
    }

    /// The filter that estimators_kalman_new makes of the call's words.
    fn read(w: &mut Words) -> Result<Self, Bad> {
        let (n, m, i) = (w.size()?, w.size()?, w.size()?);
        let sizes = [n * n, n * i, m * n, n * n, m * m, n, n * n];
        let given = w.cells(sizes.iter().sum())?;
        let mut lent = Lent::new(given.len());
        let mut parts = [given.as_ptr(); 7];
        for k in 1..7 {
            parts[k] = given[sizes[..k].iter().sum()..].as_ptr();
        }
        let [a, b, h, q, r, x, p] = parts;
        let (to, len) = (lent.ptr(), lent.len());
        let status = unsafe {
            estimators_kalman_new(
                n, m, i, a, sizes[0], b, sizes[1], h, sizes[2], q, sizes[3], r, sizes[4], x, sizes[5], p,
                sizes[6], to, len,
            )
        };
        match status {
            0 if same(lent.cells(), &given) => Ok(Filter { n, m, i, lent }),
            0 => Err("estimators_kalman_new made another filter"),
            _ => Err("estimators_kalman_new refused"),
        }
    }

    /// The state and the covariance left behind; estimators_kalman_state and estimators_kalman_covariance must copy them.
    fn answer_estimate(&mut self, answer: &mut Answer) -> Result<(), Bad> {
        self.lent.ends()?;
        let (n, m, i) = (self.n, self.m, self.i);
        let (mut x, mut p) = (Lent::new(n), Lent::new(n * n));
        let (from, len) = (self.lent.cells().as_ptr(), self.lent.len());
        let statuses = unsafe {
            [
                estimators_kalman_state(n, m, i, from, len, x.ptr(), n),
                estimators_kalman_covariance(n, m, i, from, len, p.ptr(), n * n),
            ]
        };
        x.ends()?;
        p.ends()?;
        let copies = [x.cells(), p.cells()].concat();
        if statuses != [0, 0] || !same(&copies, self.estimate()) {
            return Err("estimators_kalman_state or estimators_kalman_covariance gave other numbers than the filter's");
        }
        answer.bar();
        answer.numbers(self.estimate());
        Ok(())
    }

    fn predict(&mut self, w: &mut Words, answer: &mut Answer) -> Result<u8, Bad> {
        let u = w.cells(self.i)?;
        let (filter, len) = (self.lent.ptr(), self.lent.len());
        let status = unsafe { estimators_kalman_predict(self.n, self.m, self.i, filter, len, u.as_ptr(), u.len()) };
        if status == 0 {
            answer.ok();
        }
        Ok(status)
    }

    fn update(&mut self, w: &mut Words, answer: &mut Answer) -> Result<u8, Bad> {
        let z = w.cells(self.m)?;
        let mut innovation = Lent::new(self.m);
        let (filter, len) = (self.lent.ptr(), self.lent.len());
        let (to, to_len) = (innovation.ptr(), innovation.len());
        let status =
            unsafe { estimators_kalman_update(self.n, self.m, self.i, filter, len, z.as_ptr(), z.len(), to, to_len) };
        match status {
            0 => innovation.answer(status, answer)?,
            _ => innovation.untouched()?,
        }
        Ok(status)
    }

    fn reset(&mut self, w: &mut Words, answer: &mut Answer) -> Result<u8, Bad> {
        let (x0, p0) = (w.cells(self.n)?, w.cells(self.n * self.n)?);
        let (filter, len) = (self.lent.ptr(), self.lent.len());
        let status = unsafe {
            estimators_kalman_reset(self.n, self.m, self.i, filter, len, x0.as_ptr(), x0.len(), p0.as_ptr(), p0.len())
        };
        if status == 0 {
            answer.ok();
        }
        Ok(status)
    }

    /// One step, its answer, and what it may not have touched.
    fn step(&mut self, name: &[u8], w: &mut Words, answer: &mut Answer) -> Result<(), Bad> {
        let before = self.lent.cells().to_vec();
        let status = match name {
            b"P" => self.predict(w, answer)?,
            b"U" => self.update(w, answer)?,
            b"R" => self.reset(w, answer)?,
            _ => return Err("unknown step"),
        };
        if !same(self.model(), &before[..self.model_len()]) {
            return Err("model touched");
        }
        if status != 0 {
            if !same(self.lent.cells(), &before) {
                return Err("filter touched by a refused call");
            }
            answer.refused(status);
        }
        self.answer_estimate(answer)
    }
}

fn position_velocity(w: &mut Words, answer: &mut Answer) -> Result<(), Bad> {
    let mut filter = Filter { n: 2, m: 1, i: 1, lent: Lent::new(19) };
    let (dt, q, r) = (w.number()?, w.number()?, w.number()?);
    w.end()?;
    let to = filter.lent.ptr();
    let status = unsafe { estimators_kalman_position_velocity(dt, q, r, to, 19) };
    if status != 0 {
        filter.lent.untouched()?;
        answer.refused(status);
        return Ok(());
    }
    answer.ok();
    answer.numbers(filter.model());
    filter.answer_estimate(answer)
}

pub fn call(op: &[u8], w: &mut Words, answer: &mut Answer) -> Result<(), Bad> {
    if op == b"kf_posvel" {
        return position_velocity(w, answer);
    }
    let mut filter = Filter::read(w)?;
    match op {
        b"kf_new" => {
            answer.ok();
            filter.answer_estimate(answer)?;
        }
        b"kf_predict" => filter.step(b"P", w, answer)?,
        b"kf_update" => filter.step(b"U", w, answer)?,
        b"kf_reset" => filter.step(b"R", w, answer)?,
        b"kf_seq" => {
            filter.step(w.word()?, w, answer)?;
            while w.more() {
                answer.then();
                filter.step(w.word()?, w, answer)?;
            }
        }
        _ => return Err("unknown call"),
    }
    w.end()
}
