//! Slices lent to the port. Every cell holds a marker before the call, and so does one cell beyond
//! each end, so that a result that was not written, or a write where none belongs, is seen.

use compare::protocol::{Answer, Bad};

/// No result of the comparison is likely to have these bits, and they are no NaN.
const MARKER: u64 = 0xC0DE_C0DE_C0DE_C0DE;

#[derive(Clone)]
pub struct Lent {
    cells: Vec<f64>,
}

impl Lent {
    pub fn new(count: usize) -> Self {
        Lent { cells: vec![f64::from_bits(MARKER); count + 2] }
    }

    pub fn len(&self) -> usize {
        self.cells.len() - 2
    }

    pub fn ptr(&mut self) -> *mut f64 {
        // The allocation has two cells more than the slice.
        unsafe { self.cells.as_mut_ptr().add(1) }
    }

    pub fn cells(&self) -> &[f64] {
        &self.cells[1..self.cells.len() - 1]
    }

    /// The first `count` cells are the port's; every other cell must hold the marker.
    pub fn marked_from(&self, count: usize) -> Result<(), Bad> {
        let marked = |cell: &f64| cell.to_bits() == MARKER;
        match marked(&self.cells[0]) && self.cells[1 + count..].iter().all(marked) {
            true => Ok(()),
            false => Err("output touched"),
        }
    }

    /// After an accepted call: nothing written beyond the ends.
    pub fn ends(&self) -> Result<(), Bad> {
        self.marked_from(self.len())
    }

    /// After a refused call: nothing written.
    pub fn untouched(&self) -> Result<(), Bad> {
        self.marked_from(0)
    }

    /// The answer of a call that returned `status` and has this slice as its whole result.
    pub fn answer(&self, status: u8, answer: &mut Answer) -> Result<(), Bad> {
        if status != 0 {
            self.untouched()?;
            answer.refused(status);
            return Ok(());
        }
        self.ends()?;
        answer.ok();
        answer.numbers(self.cells());
        Ok(())
    }
}
