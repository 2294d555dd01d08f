//! generate [--edge|--list] SEED COUNT [FIRST]: COUNT calls from call FIRST on; call k depends on SEED and k alone.
//! With --edge the first calls are the edge cases (`generate --edge` prints these only); with --list too, and
//! every call after them is short.

mod draw;
mod edge;
mod imm;
mod information_filter;
mod kalman;
mod matrix;
mod rts_smoother;
mod scalar;
mod shapes;
mod sqrt_kalman;
mod text;

use compare::ops::Family;
use draw::Draw;
use std::io::{self, BufWriter, Write};
use text::Call;

/// How many of 100 calls each module gets.
const SHARES: [(Family, u64); 7] = [
    (Family::Scalar, 8),
    (Family::Matrix, 24),
    (Family::Kalman, 15),
    (Family::Information, 15),
    (Family::SqrtKalman, 15),
    (Family::Imm, 9),
    (Family::RtsSmoother, 14),
];

/// Call k of a seed. A short one keeps off the smoother's room of 64 slots.
fn call(seed: u64, k: u64, short: bool) -> Call {
    let mut draw = Draw::new(seed, k);
    match *draw.weighted(&SHARES) {
        Family::Scalar => scalar::call(&mut draw),
        Family::Matrix => matrix::call(&mut draw),
        Family::Kalman => kalman::call(&mut draw),
        Family::Imm => imm::call(&mut draw),
        Family::SqrtKalman => sqrt_kalman::call(&mut draw),
        Family::Information => information_filter::call(&mut draw),
        Family::RtsSmoother => rts_smoother::call(&mut draw, short),
    }
}

fn usage() -> ! {
    eprintln!("usage: generate [--edge|--list] SEED COUNT [FIRST], or generate --edge");
    std::process::exit(2)
}

fn main() -> io::Result<()> {
    let arguments: Vec<String> = std::env::args().skip(1).collect();
    let flag = arguments.first().filter(|a| a.starts_with("--")).cloned().unwrap_or_default();
    if !["", "--edge", "--list"].contains(&flag.as_str()) {
        usage();
    }
    let numbers: Option<Vec<u64>> =
        arguments.iter().skip(!flag.is_empty() as usize).map(|a| a.parse().ok()).collect();
    let edges = if flag.is_empty() { Vec::new() } else { edge::calls() };
    let (seed, count, first) = match numbers.as_deref() {
        Some([]) if flag == "--edge" => (0, edges.len() as u64, 0),
        Some([seed, count]) => (*seed, *count, 0),
        Some([seed, count, first]) => (*seed, *count, *first),
        _ => usage(),
    };
    let mut output = BufWriter::with_capacity(1 << 20, io::stdout().lock());
    for k in first..first + count {
        match edges.get(k as usize) {
            Some(edge) => output.write_all(edge.line())?,
            None => output.write_all(call(seed, k, flag == "--list").line())?,
        }
        output.write_all(b"\n")?;
    }
    output.flush()
}
