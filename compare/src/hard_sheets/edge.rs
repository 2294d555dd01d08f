//! The edge cases, the same on every run: sheets worked by hand, malformed ones, limits, counts, the order of refusals,
//! and positions that leave what is printed.

use super::form;
use super::known::KNOWN;
use super::plan::{field, Plan, FAR, READINGS, STAGES};

/// One and most stages with one and most readings; all missing; noises and steps at their limits.
fn counts() -> Vec<Vec<u8>> {
    let mut sheets = Vec::new();
    for stages in [1, 2, STAGES - 1, STAGES, STAGES + 1] {
        for readings in [1, 2, READINGS - 1, READINGS, READINGS + 1] {
            let mut plan = Plan::steady(stages, readings);
            sheets.push(plan.bytes());
            for first in
                [[1, 0, 1], [99, 0, 1], [99, 9999, 1], [1, 9999, 9999], [99, 0, 9999], [99, 9999, 9999]]
            {
                plan.first = first;
                sheets.push(plan.bytes());
            }
            plan.readings.fill([0, 0]);
            sheets.push(plan.bytes());
        }
    }
    sheets
}

/// Ends at a printed position and beside it; equal, falling and at the limit.
fn ends() -> Vec<Vec<u8>> {
    let mut sheets = Vec::new();
    let mut add = |plan: &Plan| sheets.push(plan.bytes());
    for metres in 290..=310 {
        let readings = vec![[1, 400], [0, 0]];
        add(&Plan { first: [1, 4288, 32], ends: vec![metres, metres + 308], readings });
    }
    for place in 0..6 {
        let mut plan = Plan::steady(6, 3);
        let before = if place == 0 { 0 } else { plan.ends[place - 1] };
        for end in [before - 1, before, before + 1, -before, FAR, FAR + 1] {
            plan.ends[place] = end;
            add(&plan);
        }
    }
    let mut last = Plan::steady(32, 3);
    last.ends = (0..32).map(|k| FAR - 31 + k).collect();
    add(&last);
    last.ends.iter_mut().for_each(|end| *end += 1);
    add(&last);
    sheets
}

/// Kinds and metres at each reading.
fn readings() -> Vec<Vec<u8>> {
    let mut sheets = Vec::new();
    for place in 0..4 {
        let far = [FAR - 1, FAR, FAR + 1, 1 - FAR, -FAR];
        let one = far.iter().map(|metres| [1, *metres]);
        let other =
            [[0, 1], [0, -1], [0, FAR], [0, FAR + 1], [2, 0], [2, 5], [-1, 0], [-1, 5], [10, 0], [11, 1]];
        for reading in one.chain(other) {
            let mut plan = Plan::small();
            plan.readings[place] = reading;
            sheets.push(plan.bytes());
        }
    }
    sheets
}

/// A malformed field and one out of range, on each two lines of a sheet and within one.
fn order() -> Vec<Vec<u8>> {
    let plan = Plan::small();
    let places = plan.fields();
    let mut sheets = Vec::new();
    for bad in &places {
        for out in places.iter().filter(|out| *out != bad) {
            let mut bytes = plan.with(*bad, b"      -0");
            bytes[*out..*out + 8].copy_from_slice(&field(99_999_999));
            sheets.push(bytes.clone());
            sheets.push([&bytes[..], b"\n"].concat());
            bytes.pop();
            sheets.push(bytes);
        }
    }
    sheets
}

/// A sheet of `count` readings, all missing but the given ones.
fn sparse(first: [i64; 3], count: usize, given: &[(usize, i64)]) -> Vec<u8> {
    let mut readings = vec![[0, 0]; count];
    given.iter().for_each(|(k, metres)| readings[*k] = [1, *metres]);
    Plan { first, ends: vec![FAR], readings }.bytes()
}

/// Positions that leave what is printed: by a run past the last reading, back before the first, between two, and at one
/// alone, with each sign.
fn far() -> Vec<Vec<u8>> {
    let mut sheets = Vec::new();
    for first in [[1, 9999, 1], [99, 9999, 1], [1, 0, 1], [99, 0, 1], [10, 5, 9999], [1, 4288, 32]] {
        for sign in [1, -1] {
            let (far, near) = (sign * FAR, sign * 9_990_000);
            for count in [3, 5, 64] {
                let last = count - 1;
                let all: Vec<(usize, i64)> = (0..count).map(|k| (k, far)).collect();
                let givens: [&[(usize, i64)]; 9] = [
                    &[(0, far)],
                    &[(last, far)],
                    &[(1, far), (2, sign)],
                    &[(0, sign), (1, far)],
                    &[(0, sign), (last - 1, far), (last, far)],
                    &[(0, near), (1, far), (last, near)],
                    &[(0, -far), (1, far), (last, -far)],
                    &[(0, far), (1, near), (last, near)],
                    &all,
                ];
                sheets.extend(givens.map(|given| sparse(first, count, given)));
            }
        }
    }
    sheets
}

pub fn sheets() -> Vec<Vec<u8>> {
    let mut sheets: Vec<Vec<u8>> = KNOWN.iter().map(|(sheet, _)| sheet.as_bytes().to_vec()).collect();
    let lists =
        [form::fields, form::cuts, form::lines, form::tails, counts, ends, readings, order, far, form::bytes];
    lists.iter().for_each(|list| sheets.extend(list()));
    sheets
}
