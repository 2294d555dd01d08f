//! The smoother: the rts_smoother_ functions, on slots and an output that this driver lends.

use crate::entries::*;
use crate::lent::Lent;
use compare::protocol::{same, Answer, Bad, Words};
use compare::sizes::ROOMS;

struct Smoother {
    n: usize,
    room: usize,
    count: usize,
    slots: Lent,
}

impl Smoother {
    fn read(w: &mut Words) -> Result<Self, Bad> {
        let (n, room) = (w.size()?, w.whole()?);
        if !ROOMS.contains(&room) {
            return Err("a room other than 1, 2, 3, 8 or 64");
        }
        let slots = Lent::new(room * 2 * pair(n));
        Ok(Smoother { n, room, count: 0, slots })
    }

    /// One store; refused, it leaves count and slots as they were.
    fn store(&mut self, filtered: &[f64], predicted: &[f64]) -> Result<u8, Bad> {
        let before = self.count;
        let full = match before == self.room {
            true => self.slots.cells().to_vec(),
            false => Vec::new(),
        };
        let (slots, len) = (self.slots.ptr(), self.slots.len());
        let (x, xlen) = (filtered.as_ptr(), filtered.len());
        let (y, ylen) = (predicted.as_ptr(), predicted.len());
        let status = unsafe {
            estimators_rts_smoother_store_forward(self.n, self.room, &mut self.count, slots, len, x, xlen, y, ylen)
        };
        self.slots.ends()?;
        match status {
            0 if self.count == before + 1 => Ok(0),
            0 => Err("an accepted store left another count"),
            _ if self.count != before => Err("a refused store changed the count"),
            _ if !full.is_empty() && !same(&full, self.slots.cells()) => {
                Err("a refused store touched the slots")
            }
            _ => Ok(status),
        }
    }

    /// Offers the next `count` slots; `told` gets each store's 0 or refusal.
    fn offer(&mut self, count: usize, w: &mut Words, mut told: impl FnMut(u8)) -> Result<(), Bad> {
        for _ in 0..count {
            let slot = w.cells(2 * pair(self.n))?;
            let (filtered, predicted) = slot.split_at(pair(self.n));
            told(self.store(filtered, predicted)?);
        }
        Ok(())
    }

    fn kept(&self) -> &[f64] {
        &self.slots.cells()[..self.count * 2 * pair(self.n)]
    }

    fn smooth(&mut self, a: &[f64], answer: &mut Answer) -> Result<(), Bad> {
        let mut output = Lent::new(self.room * pair(self.n));
        let (slots, len) = (self.slots.cells().as_ptr(), self.slots.len());
        let (to, to_len) = (output.ptr(), output.len());
        let (n, room, count) = (self.n, self.room, self.count);
        let status =
            unsafe { estimators_rts_smoother_smooth(n, room, count, slots, len, a.as_ptr(), a.len(), to, to_len) };
        if status != 0 {
            return output.answer(status, answer);
        }
        output.ends()?;
        answer.ok();
        answer.whole(self.count);
        answer.bar();
        answer.numbers(output.cells());
        Ok(())
    }
}

/// The length of a state and its covariance.
fn pair(n: usize) -> usize {
    n + n * n
}

fn store(smoother: &mut Smoother, w: &mut Words, answer: &mut Answer) -> Result<(), Bad> {
    let offered = w.slots()?;
    answer.ok();
    smoother.offer(offered, w, |refusal| answer.whole(refusal as usize))?;
    w.end()?;
    smoother.slots.marked_from(smoother.kept().len())?;
    answer.bar();
    answer.whole(smoother.count);
    answer.whole((smoother.count == 0) as usize);
    answer.numbers(smoother.kept());
    Ok(())
}

fn get(smoother: &mut Smoother, w: &mut Words, answer: &mut Answer) -> Result<(), Bad> {
    let (offered, k) = (w.slots()?, w.whole()?);
    smoother.offer(offered, w, |_| ())?;
    w.end()?;
    let mut out = Lent::new(2 * pair(smoother.n));
    let (slots, len) = (smoother.slots.cells().as_ptr(), smoother.slots.len());
    let (to, to_len) = (out.ptr(), out.len());
    let status = unsafe {
        estimators_rts_smoother_get_state(smoother.n, smoother.room, smoother.count, slots, len, k, to, to_len)
    };
    out.answer(status, answer)
}

fn smooth(smoother: &mut Smoother, w: &mut Words, answer: &mut Answer) -> Result<(), Bad> {
    let offered = w.slots()?;
    let a = w.cells(smoother.n * smoother.n)?;
    smoother.offer(offered, w, |_| ())?;
    w.end()?;
    smoother.slots.marked_from(smoother.kept().len())?;
    smoother.smooth(&a, answer)
}

fn stale(smoother: &mut Smoother, w: &mut Words, answer: &mut Answer) -> Result<(), Bad> {
    let (before, offered) = (w.slots()?, w.slots()?);
    let a = w.cells(smoother.n * smoother.n)?;
    smoother.offer(before, w, |_| ())?;
    smoother.count = 0;
    smoother.offer(offered, w, |_| ())?;
    w.end()?;
    smoother.smooth(&a, answer)
}

pub fn call(op: &[u8], w: &mut Words, answer: &mut Answer) -> Result<(), Bad> {
    let mut smoother = Smoother::read(w)?;
    match op {
        b"rts_store" => store(&mut smoother, w, answer),
        b"rts_get" => get(&mut smoother, w, answer),
        b"rts_smooth" => smooth(&mut smoother, w, answer),
        b"rts_stale" => stale(&mut smoother, w, answer),
        _ => Err("unknown call"),
    }
}
