//! bench: how long the Rust and the port take for the same work, in one table. Each figure is the best of several runs,
//! and before the first the answers are compared bit for bit. The Rust is called as the port is: through functions that
//! are not inlined, and a loop of steps as one call. The port is the library by value, and the C interface over slices.
//! Eigen stands beside them where it is installed, its times only.

mod eigen;
#[path = "../port_side/entries.rs"]
mod entries;
mod imm;
mod information;
mod library;
mod port;
mod root;
mod rust;
mod sqrt_kalman;

use oxictl::core::matrix::Matrix;
use std::hint::black_box;
use std::time::{Duration, Instant};

/// How many runs are timed; the best counts.
const RUNS: usize = 25;

/// How long one run lasts, about.
const RUN: Duration = Duration::from_millis(10);

type Work<'a> = &'a mut dyn FnMut();

/// A result that counts as used, where it stands.
fn keep<T>(result: &T) {
    black_box(result);
}

fn time(work: &mut dyn FnMut(), times: u64) -> Duration {
    let start = Instant::now();
    for _ in 0..times {
        work();
    }
    start.elapsed()
}

/// How many times `work` is done in one run.
fn times(work: &mut dyn FnMut()) -> u64 {
    let mut times = 1;
    while time(work, times) < RUN / 4 {
        times *= 2;
    }
    times * 4
}

/// A side's times: the best, and how far the middle one lies above it, as a part of it.
#[derive(Clone, Copy)]
struct Times {
    best: f64,
    spread: f64,
}

/// The times of each side in nanoseconds, all taking turns.
fn timed(sides: &mut [Work]) -> Vec<Times> {
    let counts: Vec<u64> = sides.iter_mut().map(|work| times(*work)).collect();
    let mut all = vec![Vec::new(); sides.len()];
    for _ in 0..RUNS {
        for (side, work) in sides.iter_mut().enumerate() {
            all[side].push(time(*work, counts[side]).as_secs_f64() * 1e9 / counts[side] as f64);
        }
    }
    let times = |mut runs: Vec<f64>| {
        runs.sort_by(f64::total_cmp);
        Times { best: runs[0], spread: runs[RUNS / 2] / runs[0] - 1.0 }
    };
    all.into_iter().map(times).collect()
}

fn heading() {
    let names = format!("{:<30}{:>10}{:>10}{:>8}{:>10}{:>8}", "nanoseconds", "Rust", "library", "ratio", "C", "ratio");
    println!("{names}{}{:>8}", if eigen::THERE { "     Eigen" } else { "" }, "spread");
}

/// A time and its ratio to the Rust's, or nothing where there is none.
fn beside(time: Option<f64>, rust: f64) -> String {
    match time {
        Some(time) => format!("{time:>10.1}{:>8.2}", time / rust),
        None => " ".repeat(18),
    }
}

/// One row, `per` pieces of work a call: the Rust, and the library by value and the C interface where they do the same.
fn row<'a>(name: &str, per: f64, rust: Work<'a>, library: Option<Work<'a>>, c: Option<Work<'a>>) {
    row_with(name, per, rust, library, c, None)
}

/// A row with Eigen's time as well. The spread is the widest of the sides'.
fn row_with<'a>(
    name: &str,
    per: f64,
    rust: Work<'a>,
    library: Option<Work<'a>>,
    c: Option<Work<'a>>,
    eigen: Option<Work<'a>>,
) {
    let (with_library, with_c, with_eigen) = (library.is_some(), c.is_some(), eigen.is_some());
    let mut sides = vec![rust];
    sides.extend(library);
    sides.extend(c);
    sides.extend(eigen);
    let all = timed(&mut sides);
    let spread = all.iter().map(|times| times.spread).fold(0.0, f64::max);
    let mut times = all.into_iter().map(|times| times.best / per);
    let rust = times.next().unwrap();
    let library = beside(with_library.then(|| times.next().unwrap()), rust);
    let c = beside(with_c.then(|| times.next().unwrap()), rust);
    let eigen = match with_eigen.then(|| times.next().unwrap()) {
        Some(time) => format!("{time:>10.1}"),
        None => " ".repeat(if eigen::THERE { 10 } else { 0 }),
    };
    println!("{name:<30}{rust:>10.1}{library}{c}{eigen}{:>7.0}%", spread * 100.0);
}

/// Other work on the machine makes every time longer, and the rows uneven.
fn warn_if_loaded() {
    let cores = std::thread::available_parallelism().map_or(1, usize::from) as f64;
    let load = std::fs::read_to_string("/proc/loadavg").ok();
    let load = load.and_then(|text| text.split(' ').next()?.parse::<f64>().ok()).unwrap_or(0.0);
    if load > cores / 2.0 {
        eprintln!("warning: the machine is at work (load {load} on {cores} cores): take these times as upper bounds, and run again when it is quiet");
    }
}

/// What is timed gives the Rust's numbers.
fn agree(name: &str, rust: &[f64], port: &[f64]) {
    let bits = |cells: &[f64]| cells.iter().map(|x| x.to_bits()).collect::<Vec<_>>();
    assert_eq!(bits(rust), bits(port), "{name}: the port's numbers are not the Rust's");
}

/// A symmetric, positive definite matrix.
fn definite<const N: usize>() -> Matrix<f64, N, N> {
    let cell = |r: usize, c: usize| 1.0 / (r + c + 1) as f64 + (r == c) as usize as f64;
    Matrix { data: std::array::from_fn(|r| std::array::from_fn(|c| cell(r, c))) }
}

fn flat<const R: usize, const C: usize>(matrix: &Matrix<f64, R, C>) -> Vec<f64> {
    matrix.data.concat()
}

fn matrices<const N: usize>() {
    let a = definite::<N>();
    let (cells, rows) = (flat(&a), library::rows(&a));
    let (mut made, mut out, mut peer) = ([[0.0; 4]; 4], vec![0.0; N * N], vec![0.0; N * N]);

    let name = format!("matmul {N} x {N}");
    library::matmul(N, &rows, &rows, &mut made);
    port::matmul(N, &cells, &cells, &mut out);
    let answer = flat(&rust::matmul(&a, &a));
    agree(&name, &answer, &library::used(N, &made));
    agree(&name, &answer, &out);
    row_with(
        &name,
        1.0,
        &mut || keep(&rust::matmul(black_box(&a), black_box(&a))),
        Some(&mut || library::matmul(N, black_box(&rows), black_box(&rows), black_box(&mut made))),
        Some(&mut || port::matmul(N, black_box(&cells), black_box(&cells), black_box(&mut out))),
        eigen::THERE.then_some(&mut || eigen::matmul(N, black_box(&cells), black_box(&cells), black_box(&mut peer))),
    );

    let name = format!("inv {N} x {N}");
    library::inv(N, &rows, &mut made);
    port::inv(N, &cells, &mut out);
    let answer = flat(&rust::inv(&a).expect("an inverse"));
    agree(&name, &answer, &library::used(N, &made));
    agree(&name, &answer, &out);
    row_with(
        &name,
        1.0,
        &mut || keep(&rust::inv(black_box(&a))),
        Some(&mut || library::inv(N, black_box(&rows), black_box(&mut made))),
        Some(&mut || port::inv(N, black_box(&cells), black_box(&mut out))),
        eigen::THERE.then_some(&mut || eigen::inv(N, black_box(&cells), black_box(&mut peer))),
    );

    let name = format!("cholesky {N} x {N}");
    library::cholesky(N, &rows, &mut made);
    port::cholesky(N, &cells, &mut out);
    let answer = flat(&rust::cholesky(&a).expect("a factor"));
    agree(&name, &answer, &library::used(N, &made));
    agree(&name, &answer, &out);
    row_with(
        &name,
        1.0,
        &mut || keep(&rust::cholesky(black_box(&a))),
        Some(&mut || library::cholesky(N, black_box(&rows), black_box(&mut made))),
        Some(&mut || port::cholesky(N, black_box(&cells), black_box(&mut out))),
        eigen::THERE.then_some(&mut || eigen::cholesky(N, black_box(&cells), black_box(&mut peer))),
    );
}

/// A prediction and an update: by themselves, on a filter that goes on and on, and in a loop of many.
fn filter<const N: usize, const M: usize, const I: usize>() {
    let name = format!("predict + update ({N}, {M}, {I})");
    let mut rust = rust::filter::<N, M, I>(definite(), definite());
    let mut port = port::Filter::new(&rust);
    let mut peer = port.cells().to_vec();
    let (start, steps) = (rust.clone(), library::Steps::new(&rust));
    let (u, z) = ([0.5; I], [1.0; M]);
    agree(&name, &rust::steps(&start, &u, &z, library::STEPS), &steps.run(&u, &z)[..N]);
    rust::predict_update(&mut rust, &u, &z);
    port.predict_update(&u, &z);
    agree(&name, &[&rust.state()[..], &flat(rust.covariance())].concat(), port.estimate());
    row_with(
        &name,
        1.0,
        &mut || rust::predict_update(black_box(&mut rust), black_box(&u), black_box(&z)),
        None,
        Some(&mut || port.predict_update(black_box(&u), black_box(&z))),
        eigen::THERE.then_some(&mut || eigen::step(N, black_box(&mut peer), black_box(&u), black_box(&z))),
    );
    row(
        &format!("  a step of {} in a loop", library::STEPS),
        library::STEPS as f64,
        &mut || keep(&rust::steps(black_box(&start), black_box(&u), black_box(&z), library::STEPS)),
        Some(&mut || keep(&steps.run(black_box(&u), black_box(&z)))),
        None,
    );
}

/// Smoothing `count` slots in a room of 64.
fn smooth<const N: usize>(name: &str, count: usize) {
    let name = format!("{name} {count} slots, N = {N}");
    let f = rust::transition::<N>();
    let (rust, slots) = rust::smoother::<N>(count);
    let mut port = port::Smoother::new(N, &slots);
    let cells = flat(&f);
    let answer = rust::smooth(&rust, &f).expect("smoothed slots");
    let numbers: Vec<f64> = answer.states[..count].iter().flat_map(|s| [&s.x[..], &flat(&s.p)].concat()).collect();
    port.smooth(count, &cells);
    agree(&name, &numbers, port.pairs(count));
    row(
        &name,
        1.0,
        &mut || keep(&rust::smooth(black_box(&rust), black_box(&f))),
        None,
        Some(&mut || port.smooth(count, black_box(&cells))),
    );
}

/// The longest depot sheet, whole.
fn sheet() {
    let bytes = compare::hard_sheets::longest();
    let (mut printed, mut out) = (Vec::new(), [0; 1600]);
    rust::sheet(&bytes, &mut printed);
    let written = port::sheet(&bytes, &mut out);
    assert!(printed == out[..written], "the port prints another answer than the Rust");
    row(
        "sheet, 64 readings, 32 stages",
        1.0,
        &mut || rust::sheet(black_box(&bytes), black_box(&mut printed)),
        None,
        Some(&mut || keep(&port::sheet(black_box(&bytes), black_box(&mut out)))),
    );
}

fn main() {
    warn_if_loaded();
    heading();
    root::rows();
    matrices::<1>();
    matrices::<2>();
    matrices::<3>();
    matrices::<4>();
    filter::<2, 1, 1>();
    filter::<4, 2, 2>();
    imm::mixing::<2>();
    imm::mixing::<4>();
    sqrt_kalman::rows::<2, 1, 1>();
    sqrt_kalman::rows::<4, 2, 2>();
    information::filter::<2, 1, 1>();
    information::filter::<4, 2, 2>();
    smooth::<2>("smooth", 64);
    smooth::<4>("smooth", 64);
    for count in [8, 16, 32, 64] {
        smooth::<2>("growth:", count);
    }
    sheet();
    println!("times are the best of {RUNS} runs; spread: how far the middle run lies above the best, at most, in the row");
    warn_if_loaded();
}
