//! The rows of the root: one input again and again, each input made of the result before, and inputs that vary.

use crate::{agree, keep, port, row, rust};
use std::hint::black_box;

/// How many roots a call of the last two rows takes.
const MANY: usize = 32;

/// Positive numbers of all digits, their exponents from -511 to 512.
fn varied() -> Vec<f64> {
    let bits = |k: u64| (1 << 61) + (k.wrapping_mul(0x9e37_79b9_7f4a_7c15) >> 2);
    (1..=4096).map(|k| f64::from_bits(bits(k))).collect()
}

/// Each input is the result before it. Root after root comes near 1, and one product leads back.
fn chain(root: fn(f64) -> f64, last: &mut f64) {
    *last *= 1e300;
    for _ in 0..MANY {
        *last = root(*last);
    }
}

/// The next of the varied inputs.
fn several(root: fn(f64) -> f64, inputs: &[f64], from: &mut usize) {
    for x in &inputs[*from..*from + MANY] {
        keep(&root(*x));
    }
    *from = (*from + MANY) % inputs.len();
}

pub fn rows() {
    row(
        "root (the Rust: hardware's)",
        1.0,
        &mut || keep(&rust::root(black_box(2.3))),
        None,
        Some(&mut || keep(&port::root(black_box(2.3)))),
    );

    let (mut here, mut there) = (1.0, 1.0);
    chain(rust::root, &mut here);
    chain(port::root, &mut there);
    agree("root", &[here], &[there]);
    row(
        "  each of the result before",
        MANY as f64,
        &mut || chain(rust::root, black_box(&mut here)),
        None,
        Some(&mut || chain(port::root, black_box(&mut there))),
    );

    let inputs = varied();
    let roots = |root: fn(f64) -> f64| inputs.iter().map(|x| root(*x)).collect::<Vec<_>>();
    agree("root", &roots(rust::root), &roots(port::root));
    let (mut here, mut there) = (0, 0);
    row(
        "  of varied inputs",
        MANY as f64,
        &mut || several(rust::root, &inputs, &mut here),
        None,
        Some(&mut || several(port::root, &inputs, &mut there)),
    );
}
