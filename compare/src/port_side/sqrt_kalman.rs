//! The square-root filter: the sqrt_kalman_ functions, on a filter that this driver lends.

use crate::entries::*;
use crate::lent::Lent;
use compare::protocol::{same, Answer, Bad, Words};

struct Filter {
    n: usize,
    m: usize,
    i: usize,
    lent: Lent,
}

impl Filter {
    /// How many numbers stand before the state: a, b, h, q, r_diag.
    fn model_len(&self) -> usize {
        let (n, m, i) = (self.n, self.m, self.i);
        2 * n * n + n * i + m * n + m
    }

    fn held(&self) -> &[f64] {
        &self.lent.cells()[self.model_len()..]
    }

    /// The filter of the call's words, and the refusal's number where `new` has none.
    fn read(new: bool, w: &mut Words) -> Result<(Self, u8), Bad> {
        let (n, m, i) = (w.size()?, w.size()?, w.size()?);
        let sizes = [n * n, n * i, m * n, n * n, m, n, n * n];
        let given = w.cells(sizes.iter().sum())?;
        let mut lent = Lent::new(given.len());
        let mut parts = [given.as_ptr(); 7];
        for k in 1..7 {
            parts[k] = given[sizes[..k].iter().sum()..].as_ptr();
        }
        let [a, b, h, q, r, x, s] = parts;
        let (to, len) = (lent.ptr(), lent.len());
        let make = if new { estimators_sqrt_kalman_new } else { estimators_sqrt_kalman_from_cholesky };
        let status = unsafe {
            make(
                n, m, i, a, sizes[0], b, sizes[1], h, sizes[2], q, sizes[3], r, sizes[4], x, sizes[5], s,
                sizes[6], to, len,
            )
        };
        let copied = given.len() - if new { n * n } else { 0 };
        match status {
            0 if !same(&lent.cells()[..copied], &given[..copied]) => Err("the filter has other parts"),
            0 => Ok((Filter { n, m, i, lent }, 0)),
            _ => {
                lent.untouched()?;
                Ok((Filter { n, m, i, lent }, status))
            }
        }
    }

    /// The state and the factor left behind; estimators_sqrt_kalman_state and estimators_sqrt_kalman_cholesky_factor must copy them.
    fn answer_held(&mut self, answer: &mut Answer) -> Result<(), Bad> {
        self.lent.ends()?;
        let (n, m, i) = (self.n, self.m, self.i);
        let (mut x, mut s) = (Lent::new(n), Lent::new(n * n));
        let (from, len) = (self.lent.cells().as_ptr(), self.lent.len());
        let statuses = unsafe {
            [
                estimators_sqrt_kalman_state(n, m, i, from, len, x.ptr(), n),
                estimators_sqrt_kalman_cholesky_factor(n, m, i, from, len, s.ptr(), n * n),
            ]
        };
        x.ends()?;
        s.ends()?;
        if statuses != [0, 0] || !same(&[x.cells(), s.cells()].concat(), self.held()) {
            return Err(
                "estimators_sqrt_kalman_state or estimators_sqrt_kalman_cholesky_factor gave other numbers than the filter's",
            );
        }
        answer.bar();
        answer.numbers(self.held());
        Ok(())
    }

    fn predict(&mut self, w: &mut Words, answer: &mut Answer) -> Result<u8, Bad> {
        let u = w.cells(self.i)?;
        let (filter, len) = (self.lent.ptr(), self.lent.len());
        let status = unsafe { estimators_sqrt_kalman_predict(self.n, self.m, self.i, filter, len, u.as_ptr(), u.len()) };
        if status == 0 {
            answer.ok();
        }
        Ok(status)
    }

    fn update(&mut self, w: &mut Words, answer: &mut Answer) -> Result<u8, Bad> {
        let z = w.cells(self.m)?;
        let mut innovation = Lent::new(self.m);
        let (filter, len) = (self.lent.ptr(), self.lent.len());
        let (to, to_len) = (innovation.ptr(), innovation.len());
        let status = unsafe {
            estimators_sqrt_kalman_update(self.n, self.m, self.i, filter, len, z.as_ptr(), z.len(), to, to_len)
        };
        match status {
            0 => innovation.answer(status, answer)?,
            _ => innovation.untouched()?,
        }
        Ok(status)
    }

    fn covariance(&mut self, answer: &mut Answer) -> Result<u8, Bad> {
        let mut p = Lent::new(self.n * self.n);
        let (from, len) = (self.lent.cells().as_ptr(), self.lent.len());
        let (to, to_len) = (p.ptr(), p.len());
        let status = unsafe { estimators_sqrt_kalman_covariance(self.n, self.m, self.i, from, len, to, to_len) };
        if status == 0 {
            p.answer(status, answer)?;
        }
        Ok(status)
    }

    fn reset(&mut self, w: &mut Words, answer: &mut Answer) -> Result<u8, Bad> {
        let (x0, p0) = (w.cells(self.n)?, w.cells(self.n * self.n)?);
        let before = self.lent.cells().to_vec();
        let (filter, len) = (self.lent.ptr(), self.lent.len());
        let status = unsafe {
            estimators_sqrt_kalman_reset(
                self.n,
                self.m,
                self.i,
                filter,
                len,
                x0.as_ptr(),
                x0.len(),
                p0.as_ptr(),
                p0.len(),
            )
        };
        match status {
            0 => answer.ok(),
            _ if !same(self.lent.cells(), &before) => return Err("filter touched by a refused reset"),
            _ => (),
        }
        Ok(status)
    }

    /// One step, its answer, and what it may not have touched.
    fn step(&mut self, name: &[u8], w: &mut Words, answer: &mut Answer) -> Result<(), Bad> {
        let model = self.lent.cells()[..self.model_len()].to_vec();
        let status = match name {
            b"P" => self.predict(w, answer)?,
            b"U" => self.update(w, answer)?,
            b"C" => self.covariance(answer)?,
            b"R" => self.reset(w, answer)?,
            _ => return Err("unknown step"),
        };
        if !same(&self.lent.cells()[..self.model_len()], &model) {
            return Err("model touched");
        }
        if status != 0 {
            answer.refused(status);
        }
        self.answer_held(answer)
    }
}

pub fn call(op: &[u8], w: &mut Words, answer: &mut Answer) -> Result<(), Bad> {
    let (mut filter, status) = Filter::read(op == b"sq_new", w)?;
    if status != 0 {
        answer.refused(status);
        return w.end();
    }
    match op {
        b"sq_new" | b"sq_from_cholesky" => {
            answer.ok();
            filter.answer_held(answer)?;
        }
        b"sq_predict" => filter.step(b"P", w, answer)?,
        b"sq_update" => filter.step(b"U", w, answer)?,
        b"sq_cov" => filter.step(b"C", w, answer)?,
        b"sq_reset" => filter.step(b"R", w, answer)?,
        b"sq_seq" => {
            filter.step(w.word()?, w, answer)?;
            while w.more() {
                answer.then();
                filter.step(w.word()?, w, answer)?;
            }
        }
        _ => return Err("unknown call"),
    }
    w.end()
}
