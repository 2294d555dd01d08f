//! sheets SEED COUNT: so many hard sheets, edge cases first, through the port's estimators_sheet_report and through the Rust,
//! answers compared byte by byte. Prints the first differences in full, how often each outcome occurred, and last
//! `N sheets, K differ`; the exit is 1 unless K is 0. From as many sheets on as there are edge cases, an outcome that
//! did not occur is a gap: the last line counts it, and the exit is 1.

#[path = "../port_side/entries.rs"]
mod entries;
mod port;

use compare::hard_sheets::known::KNOWN;
use compare::hard_sheets::tally::Tally;
use compare::hard_sheets::Sheets;
use compare::sheet::{answer, print};

/// How many differences are printed in full.
const SHOWN: u64 = 10;

/// As long as a sheet may be, and one byte.
const LONGEST: usize = 1418;

/// The text with every byte visible, a line each; after the longest sheet's length only how much there is.
fn visible(bytes: &[u8]) -> String {
    let (shown, rest) = bytes.split_at(bytes.len().min(LONGEST));
    let lines =
        shown.split_inclusive(|byte| *byte == b'\n').map(|line| format!("  |{}\n", line.escape_ascii()));
    let more = if rest.is_empty() { String::new() } else { format!("  and {} bytes more\n", rest.len()) };
    lines.collect::<String>() + &more
}

#[derive(Default)]
struct Comparison {
    tally: Tally,
    port: port::Lent,
    rust: Vec<u8>,
    sheets: u64,
    differ: u64,
}

impl Comparison {
    fn differs(&mut self, k: u64, sheet: &[u8], rust: &str, port: &str) {
        self.differ += 1;
        if self.differ <= SHOWN {
            println!("sheet {k}, {} bytes\n{}rust\n{rust}port\n{port}", sheet.len(), visible(sheet));
        }
    }

    /// Sheet k of the seed through both.
    fn sheet(&mut self, k: u64, sheet: &[u8]) {
        self.sheets += 1;
        let answer = answer(sheet);
        self.tally.add(sheet, &answer);
        self.rust.clear();
        print(&answer, &mut self.rust);
        let port = self.port.report(k, sheet);
        if port == Ok(&self.rust[..]) {
            return;
        }
        let port = port.map_or_else(|fault| format!("  {fault}\n"), visible);
        self.differs(k, sheet, &visible(&self.rust.clone()), &port);
    }

    /// The sheets worked by hand, held against the Rust's answer; the first sheets of every seed are these.
    fn known(&mut self) {
        for (k, (sheet, expected)) in KNOWN.iter().enumerate() {
            let mut rust = Vec::new();
            print(&answer(sheet.as_bytes()), &mut rust);
            if rust != expected.as_bytes() {
                let by_hand = visible(expected.as_bytes());
                self.differs(k as u64, sheet.as_bytes(), &visible(&rust), &format!("by hand\n{by_hand}"));
            }
        }
    }
}

fn main() {
    let numbers: Option<Vec<u64>> = std::env::args().skip(1).map(|text| text.parse().ok()).collect();
    let Some(&[seed, count]) = numbers.as_deref() else {
        eprintln!("usage: sheets SEED COUNT");
        std::process::exit(2)
    };
    let sheets = Sheets::new(seed);
    let mut comparison = Comparison::default();
    comparison.known();
    (0..count).for_each(|k| comparison.sheet(k, &sheets.sheet(k)));
    comparison.tally.print();
    let gaps = if count < sheets.edges() { Vec::new() } else { comparison.tally.gaps() };
    gaps.iter().for_each(|gap| println!("no sheet has: {gap}"));
    let missing = if gaps.is_empty() { String::new() } else { format!(", {} gaps", gaps.len()) };
    println!("{} sheets, {} differ{missing}", comparison.sheets, comparison.differ);
    if comparison.differ > 0 || comparison.sheets == 0 || !gaps.is_empty() {
        std::process::exit(1);
    }
}
