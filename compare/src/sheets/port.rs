//! The port's answer to a sheet, by the C function estimators_sheet_report, on an output that is marked within and beyond its
//! ends.

use crate::entries::estimators_sheet_report;

/// No printed byte, and no byte of a refusal.
const MARKER: u8 = 0xC5;

/// What the count of written bytes holds before a call.
const UNSET: usize = 0xC0DE_C0DE;

/// How many marked bytes stand beyond each end of an output.
const BEYOND: usize = 64;

/// Outputs that are long enough, and some that are too short.
const ENOUGH: [usize; 4] = [1600, 1601, 1625, 4096];
const SHORT: [usize; 6] = [0, 1, 17, 25, 1575, 1599];

/// An output, with what stands beyond it.
#[derive(Default)]
pub struct Lent {
    bytes: Vec<u8>,
}

impl Lent {
    /// What the function returns for an output of a length, and what it leaves as the count.
    fn call(&mut self, sheet: &[u8], length: usize) -> (u8, usize) {
        self.bytes.clear();
        self.bytes.resize(length + 2 * BEYOND, MARKER);
        let out = self.bytes[BEYOND..].as_mut_ptr();
        let mut written = UNSET;
        let status = unsafe { estimators_sheet_report(sheet.as_ptr(), sheet.len(), out, length, &mut written) };
        (status, written)
    }

    /// Whether everything but the first `count` bytes of the output holds the marker.
    fn marked_from(&self, count: usize) -> bool {
        let (before, out) = self.bytes.split_at(BEYOND);
        before.iter().chain(&out[count..]).all(|byte| *byte == MARKER)
    }

    /// Too short an output is refused with 1, and nothing is written.
    fn refuse(&mut self, sheet: &[u8], length: usize) -> Result<(), String> {
        let (status, written) = self.call(sheet, length);
        match status == 1 && written == UNSET && self.marked_from(0) {
            true => Ok(()),
            false => {
                Err(format!("an output of {length} bytes: told {status}, written {written}, or touched"))
            }
        }
    }

    /// What is printed for sheet k; what was told or touched that should not be.
    pub fn report(&mut self, k: u64, sheet: &[u8]) -> Result<&[u8], String> {
        let before = sheet.to_vec();
        self.refuse(sheet, SHORT[k as usize % SHORT.len()])?;
        let length = ENOUGH[k as usize % ENOUGH.len()];
        let (status, written) = self.call(sheet, length);
        if status != 0 {
            return Err(format!("an output of {length} bytes: refused with {status}"));
        }
        if written > length || !self.marked_from(written) {
            return Err(format!("an output of {length} bytes: {written} written, or touched past these"));
        }
        if sheet != before {
            return Err("the sheet was changed".into());
        }
        Ok(&self.bytes[BEYOND..BEYOND + written])
    }
}
