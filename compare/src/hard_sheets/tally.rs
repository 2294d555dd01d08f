//! How often each outcome of a sheet occurred.

use crate::sheet::read::{self, Place, Refusal, Sheet};
use crate::sheet::Line;

/// The outcomes that sheets are known to have.
const KNOWN: [&str; 12] = [
    "answered",
    "answered, a reading in the last of several stages",
    "7, line 1",
    "7, a stage's line",
    "7, a reading's line",
    "7, the line after the last",
    "8, line 1",
    "8, a stage's line",
    "8, a reading's line",
    "9, the first reading",
    "9, a reading between",
    "9, the last reading",
];

/// No sheet is known that has it.
const REJECTED: &str = "3, a reading's line";

#[derive(Default)]
pub struct Tally {
    known: [u64; KNOWN.len()],
    rejected: u64,
}

/// The outcome of a sheet that was read.
fn of_duty(sheet: &Sheet, answer: &Result<Vec<Line>, Refusal>) -> &'static str {
    let stages = sheet.ends.len();
    match answer {
        Ok(lines) if stages > 1 && lines.iter().any(|line| line.stage as usize == stages) => KNOWN[1],
        Ok(_) => KNOWN[0],
        Err(Refusal { number: 3, .. }) => REJECTED,
        Err(refusal) if *refusal == sheet.at_reading(9, 0) => "9, the first reading",
        Err(refusal) if *refusal == sheet.at_reading(9, sheet.readings.len() - 1) => "9, the last reading",
        Err(_) => "9, a reading between",
    }
}

/// The outcome of a sheet that is not in order.
fn of_form(refusal: &Refusal) -> &'static str {
    match (refusal.number, refusal.place) {
        (7, Place::First) => "7, line 1",
        (7, Place::Stage) => "7, a stage's line",
        (7, Place::Reading) => "7, a reading's line",
        (_, Place::Extra) => "7, the line after the last",
        (_, Place::First) => "8, line 1",
        (_, Place::Stage) => "8, a stage's line",
        (_, Place::Reading) => "8, a reading's line",
    }
}

impl Tally {
    pub fn add(&mut self, bytes: &[u8], answer: &Result<Vec<Line>, Refusal>) {
        let outcome = match read::sheet(bytes) {
            Ok(sheet) => of_duty(&sheet, answer),
            Err(refusal) => of_form(&refusal),
        };
        match KNOWN.iter().position(|name| *name == outcome) {
            Some(place) => self.known[place] += 1,
            None => self.rejected += 1,
        }
    }

    pub fn print(&self) {
        KNOWN.iter().zip(self.known).for_each(|(name, count)| println!("{count:>9}  {name}"));
        println!("{:>9}  {REJECTED}", self.rejected);
    }

    /// The outcomes that did not occur though sheets are known that have them.
    pub fn gaps(&self) -> Vec<&'static str> {
        KNOWN.iter().zip(self.known).filter(|(_, count)| *count == 0).map(|(name, _)| *name).collect()
    }

    /// How many sheets were refused with 3.
    pub fn rejected(&self) -> u64 {
        self.rejected
    }
}
