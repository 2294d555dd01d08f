//! Reads a depot sheet: its lines one after another, on each its form (7) before its ranges (8).

use std::ops::RangeInclusive;

/// The width of a field.
const COLUMNS: usize = 8;

/// What metres may be printed, and what a wheel distance may be.
const METRES: RangeInclusive<i32> = -9_999_999..=9_999_999;

/// A sheet that is in order.
#[derive(Clone)]
pub struct Sheet {
    pub step: i32,
    pub process: i32,
    pub measurement: i32,
    /// Where each stage ends.
    pub ends: Vec<i32>,
    /// The wheel distance of each reading that has one.
    pub readings: Vec<Option<i32>>,
}

/// Where a sheet was refused: the kind of its line.
#[derive(Clone, Copy, PartialEq, Eq, Debug)]
pub enum Place {
    First,
    Stage,
    Reading,
    /// After the last line.
    Extra,
}

/// The refusal's number, and the line of the sheet from 1.
#[derive(Clone, Copy, PartialEq, Eq, Debug)]
pub struct Refusal {
    pub number: u8,
    pub line: usize,
    pub place: Place,
}

impl Sheet {
    /// The refusal of reading k, from 0.
    pub fn at_reading(&self, number: u8, k: usize) -> Refusal {
        Refusal { number, line: 2 + self.ends.len() + k, place: Place::Reading }
    }
}

/// The number in a field: spaces, then 0, or digits that do not begin with 0 and may have a minus before them.
fn number(field: &[u8]) -> Option<i32> {
    let start = field.iter().position(|byte| *byte != b' ')?;
    let (minus, digits) = match &field[start..] {
        [b'-', digits @ ..] => (true, digits),
        digits => (false, digits),
    };
    let mut value = 0;
    for digit in digits {
        if !digit.is_ascii_digit() {
            return None;
        }
        value = 10 * value + (digit - b'0') as i32;
    }
    match digits {
        [] => None,
        [b'0'] if !minus => Some(0),
        [b'0', ..] => None,
        _ => Some(if minus { -value } else { value }),
    }
}

/// What is still to be read, and the number of the line read last.
struct Lines<'a> {
    rest: &'a [u8],
    line: usize,
}

impl Lines<'_> {
    fn refused(&self, number: u8, place: Place) -> Refusal {
        Refusal { number, line: self.line, place }
    }

    /// The numbers of the next line, which is so many fields and one byte 0A.
    fn next<const FIELDS: usize>(&mut self, place: Place) -> Result<[i32; FIELDS], Refusal> {
        self.line += 1;
        let bad = self.refused(7, place);
        let end = FIELDS * COLUMNS;
        if self.rest.len() <= end || self.rest[end] != b'\n' {
            return Err(bad);
        }
        let (line, rest) = self.rest.split_at(end + 1);
        let mut numbers = [0; FIELDS];
        for (value, field) in numbers.iter_mut().zip(line.chunks_exact(COLUMNS)) {
            *value = number(field).ok_or(bad)?;
        }
        self.rest = rest;
        Ok(numbers)
    }
}

/// The sheet in these bytes, and nothing after it.
pub fn sheet(bytes: &[u8]) -> Result<Sheet, Refusal> {
    let mut lines = Lines { rest: bytes, line: 0 };
    let first = lines.next::<5>(Place::First)?;
    let limits = [1..=99, 0..=9999, 1..=9999, 1..=32, 1..=64];
    if !limits.iter().zip(&first).all(|(limit, value)| limit.contains(value)) {
        return Err(lines.refused(8, Place::First));
    }
    let [step, process, measurement, stages, readings] = first;

    let mut ends: Vec<i32> = Vec::with_capacity(stages as usize);
    for _ in 0..stages {
        let [end] = lines.next(Place::Stage)?;
        if end <= ends.last().copied().unwrap_or(0) || end > *METRES.end() {
            return Err(lines.refused(8, Place::Stage));
        }
        ends.push(end);
    }

    let mut distances = Vec::with_capacity(readings as usize);
    for _ in 0..readings {
        distances.push(match lines.next(Place::Reading)? {
            [0, 0] => None,
            [1, metres] if METRES.contains(&metres) => Some(metres),
            _ => return Err(lines.refused(8, Place::Reading)),
        });
    }

    if !lines.rest.is_empty() {
        lines.line += 1;
        return Err(lines.refused(7, Place::Extra));
    }
    Ok(Sheet { step, process, measurement, ends, readings: distances })
}
