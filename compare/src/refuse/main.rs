//! refuse: calls each C function that takes slices with each length and each size that is wrong by itself. Exits with 1
//! unless every such call returns 1 and leaves everything lent as it was. The calls are rows of table.rs.

#[path = "../port_side/entries.rs"]
mod entries;
mod lent;
mod table;

use lent::{Lent, Part};
use table::{rows, Row};

/// The calls made, and what was wrong with them.
#[derive(Default)]
struct Tally {
    calls: usize,
    faults: Vec<String>,
}

/// What a size may not be, by its name. The table has 3 slots of room, and asks in row 1 of 2, column 2 of 3 and model
/// 2 of 3. It lends the numbers of 3 sensors, 14 each: 14 times the last of their counts is as many modulo 2^64.
fn wrong_sizes(name: &str) -> &'static [usize] {
    match name {
        "room" => &[0, 65],
        "count" => &[4, usize::MAX],
        "row" => &[2, usize::MAX],
        "column" => &[3, usize::MAX],
        "model" => &[3, usize::MAX],
        "sensors" => &[0, 2, 4, usize::MAX, (1 << 63) + 3],
        _ => &[0, 5],
    }
}

/// The header's functions that take slices of doubles, and how many each one takes. An output of bytes may be longer than
/// asked for; the program `sheets` has its lengths.
fn functions() -> impl Iterator<Item = &'static (&'static str, usize)> {
    entries::SLICES.iter().filter(|(_, count)| *count > 0)
}

impl Tally {
    /// One call that has to be refused with 1.
    fn refused(&mut self, row: &Row, sizes: &[usize], parts: &[Part]) {
        let mut lent = Lent::new(parts);
        let status = (row.call)(sizes, &mut lent);
        self.calls += 1;
        if status != 1 || !lent.is_untouched() {
            let touched = if lent.is_untouched() { "" } else { ", and wrote" };
            self.faults.push(format!("{} with sizes {sizes:?}, {parts:?} told {status}{touched}", row.name));
        }
    }

    /// The right sizes and lengths: any answer but 1, else the refusals below would say nothing.
    fn accepted(&mut self, row: &Row, sizes: &[usize], parts: &[Part]) {
        if (row.call)(sizes, &mut Lent::new(parts)) == 1 {
            self.faults.push(format!("{} refused the sizes {sizes:?}, {parts:?}", row.name));
        }
    }

    /// Each slice by itself too short, too long and empty.
    fn lengths(&mut self, row: &Row, sizes: &[usize], parts: &[Part]) {
        for (k, part) in parts.iter().enumerate() {
            let Part::Slice(length) = *part else { continue };
            for wrong in [length - 1, length + 1, 0] {
                let mut changed = parts.to_vec();
                changed[k] = Part::Slice(wrong);
                self.refused(row, sizes, &changed);
            }
        }
    }

    fn row(&mut self, row: &Row) {
        let sizes: Vec<usize> = row.sizes.iter().map(|(_, value)| *value).collect();
        let parts = (row.parts)(&sizes);
        self.accepted(row, &sizes, &parts);
        self.lengths(row, &sizes, &parts);
        // Each size by itself wrong, with the lengths that it asks for.
        for (k, (name, _)) in row.sizes.iter().enumerate() {
            for wrong in wrong_sizes(name) {
                let mut changed = sizes.clone();
                changed[k] = *wrong;
                self.refused(row, &changed, &(row.parts)(&changed));
            }
        }
    }

    /// The table has a row for each function of the header with slices, and as many slices in it.
    fn coverage(&mut self, rows: &[Row]) {
        let slices = |row: &Row| {
            let sizes: Vec<usize> = row.sizes.iter().map(|(_, value)| *value).collect();
            (row.parts)(&sizes).iter().filter(|part| matches!(part, Part::Slice(_))).count()
        };
        for (name, count) in functions() {
            let found: Vec<usize> = rows.iter().filter(|row| row.name == *name).map(slices).collect();
            if found.is_empty() || found.iter().any(|slices| slices != count) {
                self.faults.push(format!("{name} takes {count} slices, and the table has {found:?} for it"));
            }
        }
    }
}

fn main() {
    let rows = rows();
    let mut tally = Tally::default();
    tally.coverage(&rows);
    rows.iter().for_each(|row| tally.row(row));
    tally.faults.iter().for_each(|fault| println!("{fault}"));
    println!(
        "{} calls with wrong sizes over {} functions, {} faults",
        tally.calls,
        functions().count(),
        tally.faults.len()
    );
    if !tally.faults.is_empty() {
        std::process::exit(1);
    }
}
