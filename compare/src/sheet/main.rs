//! sheet: a depot sheet on standard input, what the Rust gives for it on standard output.
//! sheet SEED COUNT: so many hard sheets through the Rust alone: how often each outcome occurred, and the smallest
//! pivot beside the limit below which inversion refuses, which is refusal 3.

use compare::hard_sheets::known::KNOWN;
use compare::hard_sheets::tally::Tally;
use compare::hard_sheets::Sheets;
use compare::sheet::estimate::Slots;
use compare::sheet::{answer, estimate, read, report};
use std::io::{self, Read, Write};

/// The two pivots that inversion meets in a matrix of 2 x 2.
fn pivots(p: &[[f64; 2]; 2]) -> [f64; 2] {
    let [top, other] = if p[1][0].abs() > p[0][0].abs() { [p[1], p[0]] } else { *p };
    [top[0].abs(), (other[1] - other[0] * (top[1] * (1.0 / top[0]))).abs()]
}

/// The smallest pivot of the predicted covariances that smoothing inverts.
fn smallest(slots: &Slots) -> f64 {
    let inverted = (0..slots.len() - 1).filter_map(|k| slots.get_state(k));
    inverted.flat_map(|slot| pivots(&slot.p_pred.data)).fold(f64::INFINITY, f64::min)
}

fn known() {
    for (sheet, expected) in KNOWN {
        let mut out = Vec::new();
        report(sheet.as_bytes(), &mut out);
        assert_eq!(String::from_utf8_lossy(&out), expected, "for the sheet\n{sheet}");
    }
}

fn count(seed: u64, count: u64) {
    known();
    let sheets = Sheets::new(seed);
    let mut tally = Tally::default();
    let (mut least, mut of) = (f64::INFINITY, 0);
    for k in 0..count {
        let bytes = sheets.sheet(k);
        if let Some(slots) = read::sheet(&bytes).ok().and_then(|sheet| estimate::filter(&sheet).ok()) {
            let pivot = smallest(&slots);
            if pivot < least {
                (least, of) = (pivot, k);
            }
        }
        tally.add(&bytes, &answer(&bytes));
    }
    tally.print();
    println!("smallest pivot {least:e}, of sheet {of}; the limit is {:e}", f64::EPSILON * 1e6);
    println!("{count} sheets, {} refused with 3", tally.rejected());
}

fn main() -> io::Result<()> {
    let arguments: Vec<String> = std::env::args().skip(1).collect();
    let numbers: Option<Vec<u64>> = arguments.iter().map(|text| text.parse().ok()).collect();
    match numbers.as_deref() {
        Some([]) => {
            let (mut sheet, mut out) = (Vec::new(), Vec::new());
            io::stdin().lock().read_to_end(&mut sheet)?;
            report(&sheet, &mut out);
            io::stdout().lock().write_all(&out)
        }
        Some([seed, sheets]) => {
            count(*seed, *sheets);
            Ok(())
        }
        _ => {
            eprintln!("usage: sheet < SHEET, or sheet SEED COUNT");
            std::process::exit(2)
        }
    }
}
