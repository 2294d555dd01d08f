//! The depot sheet (README.md) over the unchanged Rust: bytes in, bytes out. Reading and writing are ordinary code of
//! this file's folder; the filter and the smoother are the Rust's.

pub mod estimate;
pub mod read;
pub mod write;

use read::{Refusal, Sheet};

/// One printed line: whole metres, and the stage from 1.
#[derive(Clone, Copy)]
pub struct Line {
    pub metres: i32,
    pub stage: i32,
}

/// The first stage whose end is not below these metres, else the last; from 1.
fn stage(ends: &[i32], metres: i32) -> i32 {
    1 + ends.iter().position(|end| *end >= metres).unwrap_or(ends.len() - 1) as i32
}

/// The lines of a sheet that was read, or 3 or 9.
fn lines(sheet: &Sheet) -> Result<Vec<Line>, Refusal> {
    let smoothed = estimate::smooth(sheet, &estimate::filter(sheet)?)?;
    let mut lines = Vec::with_capacity(smoothed.len);
    for (k, state) in smoothed.states[..smoothed.len].iter().enumerate() {
        let metres = estimate::whole_metres(state.x[0]).ok_or(sheet.at_reading(9, k))?;
        lines.push(Line { metres, stage: stage(&sheet.ends, metres) });
    }
    Ok(lines)
}

/// What a sheet's bytes give.
pub fn answer(bytes: &[u8]) -> Result<Vec<Line>, Refusal> {
    lines(&read::sheet(bytes)?)
}

/// The printed lines of an answer.
pub fn print(answer: &Result<Vec<Line>, Refusal>, out: &mut Vec<u8>) {
    match answer {
        Ok(lines) => {
            for (k, line) in lines.iter().enumerate() {
                write::line(out, &[k as i32 + 1, line.metres, line.stage]);
            }
        }
        Err(refusal) => write::line(out, &[refusal.number as i32, refusal.line as i32]),
    }
}

/// What is printed for a sheet, after what `out` holds.
pub fn report(bytes: &[u8], out: &mut Vec<u8>) {
    print(&answer(bytes), out)
}
