//! Model mixing: the imm_ functions, on a bank that this driver lends.

use crate::entries::*;
use crate::lent::Lent;
use compare::protocol::{same, Answer, Bad, Words};

struct Bank {
    n: usize,
    m: usize,
    k: usize,
    lent: Lent,
}

impl Bank {
    fn model_len(&self) -> usize {
        3 * self.n * self.n + self.n + 1
    }

    fn mu(&self) -> &[f64] {
        &self.lent.cells()[self.lent.len() - self.k..]
    }

    /// The bank that estimators_imm_new makes of the call's words.
    fn read(w: &mut Words) -> Result<Self, Bad> {
        let (n, m, k) = (w.size()?, w.size()?, w.size()?);
        let sizes = [k * (3 * n * n + n + 1), k * k, m * n, m * m];
        let given = w.cells(sizes.iter().sum())?;
        let mut lent = Lent::new(given.len() + k);
        let mut parts = [given.as_ptr(); 4];
        for part in 1..4 {
            parts[part] = given[sizes[..part].iter().sum()..].as_ptr();
        }
        let [models, transition, c, r] = parts;
        let (to, len) = (lent.ptr(), lent.len());
        let status = unsafe {
            estimators_imm_new(n, m, k, models, sizes[0], transition, sizes[1], c, sizes[2], r, sizes[3], to, len)
        };
        match status {
            0 if same(&lent.cells()[..given.len()], &given) => Ok(Bank { n, m, k, lent }),
            0 => Err("estimators_imm_new made another bank"),
            _ => Err("estimators_imm_new refused"),
        }
    }

    /// Other probabilities than those of estimators_imm_new.
    fn set_mu(&mut self, mu: &[f64]) {
        let from = self.lent.len() - self.k;
        let cells = unsafe { std::slice::from_raw_parts_mut(self.lent.ptr().add(from), self.k) };
        cells.copy_from_slice(mu);
    }

    /// Nothing but the states, the covariances and the probabilities may differ from what was there before.
    fn kept(&self, before: &[f64]) -> Result<(), Bad> {
        let (n, length) = (self.n, self.model_len());
        let cells = self.lent.cells();
        for i in 0..self.k {
            let (from, to) = (i * length + n * n, i * length + n * n + n + n * n);
            if !same(&cells[i * length..from], &before[i * length..from])
                || !same(&cells[to..(i + 1) * length], &before[to..(i + 1) * length])
            {
                return Err("model touched");
            }
        }
        match same(&cells[self.k * length..cells.len() - self.k], &before[self.k * length..cells.len() - self.k]) {
            true => Ok(()),
            false => Err("transition, c or r touched"),
        }
    }

    /// The probabilities, and each model's state, covariance and likelihood, that are left behind.
    fn left(&self, answer: &mut Answer) -> Result<(), Bad> {
        self.lent.ends()?;
        answer.bar();
        answer.numbers(self.mu());
        let n = self.n;
        for model in self.lent.cells().chunks(self.model_len()).take(self.k) {
            answer.numbers(&model[n * n..2 * n * n + n]);
            answer.number(model[3 * n * n + n]);
        }
        Ok(())
    }

    fn fused(&mut self, answer: &mut Answer) -> Result<u8, Bad> {
        let mut out = Lent::new(self.n);
        let (bank, len) = (self.lent.cells().as_ptr(), self.lent.len());
        let status = unsafe { estimators_imm_fused_estimate(self.n, self.m, self.k, bank, len, out.ptr(), self.n) };
        out.ends()?;
        answer.numbers(out.cells());
        Ok(status)
    }

    fn probability(&mut self, w: &mut Words, answer: &mut Answer) -> Result<u8, Bad> {
        let mut out = Lent::new(1);
        let model = w.index(self.k)?;
        let (bank, len) = (self.lent.cells().as_ptr(), self.lent.len());
        let status = unsafe { estimators_imm_model_probability(self.n, self.m, self.k, bank, len, model, out.ptr()) };
        out.ends()?;
        answer.numbers(out.cells());
        Ok(status)
    }
}

pub fn call(op: &[u8], w: &mut Words, answer: &mut Answer) -> Result<(), Bad> {
    let mut bank = Bank::read(w)?;
    if op != b"imm_new" {
        let mu = w.cells(bank.k)?;
        bank.set_mu(&mu);
    }
    let before = bank.lent.cells().to_vec();
    let (n, m, k) = (bank.n, bank.m, bank.k);
    let (at, len) = (bank.lent.ptr(), bank.lent.len());
    answer.ok();
    let status = match op {
        b"imm_new" => 0,
        b"imm_mix" => unsafe { estimators_imm_mix_estimates(n, m, k, at, len) },
        b"imm_probs" => unsafe { estimators_imm_update_probabilities(n, m, k, at, len) },
        b"imm_fused" => bank.fused(answer)?,
        b"imm_prob" => bank.probability(w, answer)?,
        _ => return Err("unknown call"),
    };
    if status != 0 {
        return Err("a call on a bank was refused");
    }
    bank.kept(&before)?;
    bank.left(answer)?;
    w.end()
}
