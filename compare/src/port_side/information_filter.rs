//! The information filter: the information_ functions, on a filter that this driver lends.

use crate::entries::*;
use crate::lent::Lent;
use compare::protocol::{same, Answer, Bad, Words};

struct Filter {
    n: usize,
    m: usize,
    i: usize,
    lent: Lent,
}

/// What a step tells, and whether its refusal may have changed the filter: an update's may.
type Told = (u8, bool);

impl Filter {
    /// How many numbers stand before xi: a, b, h, q, r.
    fn model_len(&self) -> usize {
        let (n, m, i) = (self.n, self.m, self.i);
        2 * n * n + n * i + m * n + m * m
    }

    fn kept(&self) -> &[f64] {
        &self.lent.cells()[self.model_len()..]
    }

    /// The filter that the call's words make by estimators_information_new, or by estimators_information_from_information; none where it is refused.
    fn read(new: bool, w: &mut Words, answer: &mut Answer) -> Result<Option<Self>, Bad> {
        let (n, m, i) = (w.size()?, w.size()?, w.size()?);
        let model = [w.cells(n * n)?, w.cells(n * i)?, w.cells(m * n)?, w.cells(n * n)?, w.cells(m * m)?];
        let last = if new { [w.cells(n)?, w.cells(n * n)?] } else { [w.cells(n * n)?, w.cells(n)?] };
        let len = model.iter().chain(&last).map(|part| part.len()).sum();
        let mut lent = Lent::new(len);
        let [a, b, h, q, r] = &model;
        let [s, t] = &last;
        let to = lent.ptr();
        let entry = if new { estimators_information_new } else { estimators_information_from_information };
        let status = unsafe {
            entry(
                n,
                m,
                i,
                a.as_ptr(),
                a.len(),
                b.as_ptr(),
                b.len(),
                h.as_ptr(),
                h.len(),
                q.as_ptr(),
                q.len(),
                r.as_ptr(),
                r.len(),
                s.as_ptr(),
                s.len(),
                t.as_ptr(),
                t.len(),
                to,
                len,
            )
        };
        if status != 0 {
            lent.untouched()?;
            answer.refused(status);
            return Ok(None);
        }
        let filter = Filter { n, m, i, lent };
        if !same(&filter.lent.cells()[..filter.model_len()], &model.concat()) {
            return Err("another model was made");
        }
        if !new && !same(filter.kept(), &[t.as_slice(), s.as_slice()].concat()) {
            return Err("estimators_information_from_information made another filter");
        }
        Ok(Some(filter))
    }

    /// A vector or a matrix out of the filter by `entry`.
    fn read_out(
        &self,
        entry: unsafe extern "C" fn(usize, usize, usize, *const f64, usize, *mut f64, usize) -> u8,
        count: usize,
    ) -> (u8, Lent) {
        let mut out = Lent::new(count);
        let (from, len, to) = (self.lent.cells().as_ptr(), self.lent.len(), out.ptr());
        let status = unsafe { entry(self.n, self.m, self.i, from, len, to, count) };
        (status, out)
    }

    /// Omega and xi left behind; estimators_information_matrix and estimators_information_vector must copy them.
    fn answer_left(&mut self, answer: &mut Answer) -> Result<(), Bad> {
        self.lent.ends()?;
        let n = self.n;
        let (matrix, omega) = self.read_out(estimators_information_matrix, n * n);
        let (vector, xi) = self.read_out(estimators_information_vector, n);
        omega.ends()?;
        xi.ends()?;
        if [matrix, vector] != [0, 0] || !same(&[xi.cells(), omega.cells()].concat(), self.kept()) {
            return Err("estimators_information_matrix or estimators_information_vector gave other numbers than the filter's");
        }
        answer.bar();
        answer.numbers(omega.cells());
        answer.numbers(xi.cells());
        Ok(())
    }

    fn predict(&mut self, w: &mut Words, answer: &mut Answer) -> Result<Told, Bad> {
        let u = w.cells(self.i)?;
        let (filter, len) = (self.lent.ptr(), self.lent.len());
        let status = unsafe { estimators_information_predict(self.n, self.m, self.i, filter, len, u.as_ptr(), u.len()) };
        if status == 0 {
            answer.ok();
        }
        Ok((status, false))
    }

    fn update(&mut self, w: &mut Words, answer: &mut Answer) -> Result<Told, Bad> {
        let z = w.cells(self.m)?;
        let mut innovation = Lent::new(self.m);
        let (filter, len) = (self.lent.ptr(), self.lent.len());
        let (to, to_len) = (innovation.ptr(), innovation.len());
        let status = unsafe {
            estimators_information_update(self.n, self.m, self.i, filter, len, z.as_ptr(), z.len(), to, to_len)
        };
        match status {
            0 => innovation.answer(status, answer)?,
            _ => innovation.untouched()?,
        }
        Ok((status, true))
    }

    /// One sensor's numbers by estimators_information_fuse_sensor.
    fn fuse_one(&mut self, sensor: &[f64]) -> u8 {
        let (h, rest) = sensor.split_at(self.m * self.n);
        let (r_inv, z) = rest.split_at(self.m * self.m);
        let (filter, len) = (self.lent.ptr(), self.lent.len());
        unsafe {
            estimators_information_fuse_sensor(
                self.n,
                self.m,
                self.i,
                filter,
                len,
                h.as_ptr(),
                h.len(),
                r_inv.as_ptr(),
                r_inv.len(),
                z.as_ptr(),
                z.len(),
            )
        }
    }

    /// Sensors in one call; one by one they must leave the same.
    fn fuse(&mut self, w: &mut Words, answer: &mut Answer) -> Result<Told, Bad> {
        let each = self.m * self.n + self.m * self.m + self.m;
        let count = w.whole::<usize>()?;
        let sensors = w.cells(count * each)?;
        let mut single = Filter { lent: self.lent.clone(), ..*self };
        let (filter, len) = (self.lent.ptr(), self.lent.len());
        let (from, from_len) = (sensors.as_ptr(), sensors.len());
        let status = unsafe {
            estimators_information_fuse_sensors(self.n, self.m, self.i, filter, len, count, from, from_len)
        };
        if sensors.chunks(each).any(|sensor| single.fuse_one(sensor) != status) {
            return Err("the sensors of a list told something else one by one");
        }
        if !same(self.lent.cells(), single.lent.cells()) {
            return Err("the sensors of a list left another filter one by one");
        }
        if status == 0 {
            answer.ok();
        }
        Ok((status, false))
    }

    fn reset(&mut self, w: &mut Words, answer: &mut Answer) -> Result<Told, Bad> {
        let (x0, p0) = (w.cells(self.n)?, w.cells(self.n * self.n)?);
        let (filter, len) = (self.lent.ptr(), self.lent.len());
        let status = unsafe {
            estimators_information_reset(
                self.n,
                self.m,
                self.i,
                filter,
                len,
                x0.as_ptr(),
                x0.len(),
                p0.as_ptr(),
                p0.len(),
            )
        };
        if status == 0 {
            answer.ok();
        }
        Ok((status, false))
    }

    /// The state, or the covariance.
    fn told(&mut self, state: bool, answer: &mut Answer) -> Result<Told, Bad> {
        let n = self.n;
        let (status, mut out) = match state {
            true => self.read_out(estimators_information_state, n),
            false => self.read_out(estimators_information_covariance, n * n),
        };
        match status {
            0 => out.answer(status, answer)?,
            _ => out.untouched()?,
        }
        Ok((status, false))
    }

    /// One step, its answer, and what it may not have touched.
    fn step(&mut self, name: &[u8], w: &mut Words, answer: &mut Answer) -> Result<(), Bad> {
        let before = self.lent.cells().to_vec();
        let (status, may_change) = match name {
            b"P" => self.predict(w, answer)?,
            b"U" => self.update(w, answer)?,
            b"F" => self.fuse(w, answer)?,
            b"S" => self.told(true, answer)?,
            b"C" => self.told(false, answer)?,
            b"R" => self.reset(w, answer)?,
            _ => return Err("unknown step"),
        };
        if !same(&self.lent.cells()[..self.model_len()], &before[..self.model_len()]) {
            return Err("model touched");
        }
        if status != 0 {
            if !may_change && !same(self.lent.cells(), &before) {
                return Err("filter touched by a refused call");
            }
            answer.refused(status);
        }
        self.answer_left(answer)
    }
}

pub fn call(op: &[u8], w: &mut Words, answer: &mut Answer) -> Result<(), Bad> {
    let Some(mut filter) = Filter::read(op == b"if_new", w, answer)? else {
        return w.end();
    };
    match op {
        b"if_new" | b"if_from_information" => {
            answer.ok();
            filter.answer_left(answer)?;
        }
        b"if_predict" => filter.step(b"P", w, answer)?,
        b"if_update" => filter.step(b"U", w, answer)?,
        b"if_fuse" => filter.step(b"F", w, answer)?,
        b"if_state" => filter.step(b"S", w, answer)?,
        b"if_cov" => filter.step(b"C", w, answer)?,
        b"if_reset" => filter.step(b"R", w, answer)?,
        b"if_seq" => {
            filter.step(w.word()?, w, answer)?;
            while w.more() {
                answer.then();
                filter.step(w.word()?, w, answer)?;
            }
        }
        _ => return Err("unknown call"),
    }
    w.end()
}
