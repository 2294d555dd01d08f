//! Calls on numbers.

use crate::draw::{times_power, Draw, Style};
use crate::text::Call;

/// A number whose root is hard to round: a square, or the square of a midpoint between two neighbours,
/// or a neighbour of either.
fn hard_square(draw: &mut Draw) -> f64 {
    // 2r is a whole number of 54 bits; odd, it is a midpoint.
    let doubled = (draw.next() >> 10 | 1 << 53) as u128;
    let square = doubled * doubled;
    let drop = 128 - square.leading_zeros() - 53;
    let exponent = 2 * draw.between(-560, 450) as i32;
    let x = times_power((square >> drop) as f64, exponent + drop as i32 - 106);
    let bits = x.to_bits() as i64 + draw.between(-1, 2);
    f64::from_bits(bits.max(0) as u64)
}

fn root(draw: &mut Draw) -> Call {
    let x = match draw.below(8) {
        0..=3 => hard_square(draw),
        4 => f64::from_bits(draw.next() >> 12 >> draw.below(52)),
        5 => draw.below(1000).pow(2) as f64,
        _ => {
            let style = draw.style();
            draw.number(style)
        }
    };
    Call::new("sqrt").with(&[x])
}

fn whole(draw: &mut Draw) -> Call {
    let value = match draw.below(3) {
        0 => *draw.pick(&[0, 1, -1, i32::MAX, i32::MIN, i32::MAX - 1, i32::MIN + 1, 1 << 24, -1 << 30]),
        1 => draw.between(-100, 100) as i32,
        _ => draw.next() as i32,
    };
    let mut call = Call::new("from_int");
    call.word(&value.to_string());
    call
}

/// A number, and ends that often tie with it or with each other, or stand the wrong way round.
fn clamp(draw: &mut Draw, op: &str, ends: usize) -> Call {
    let style = *draw.pick(&[Style::Whole, Style::Ordinary, Style::Special, Style::Mixed, Style::Bits]);
    Call::new(op).with(&draw.numbers(style, 1 + ends))
}

pub fn call(draw: &mut Draw) -> Call {
    match draw.below(20) {
        0..=7 => root(draw),
        8 | 9 => whole(draw),
        10 | 11 => clamp(draw, "clamp_val", 2),
        12 | 13 => clamp(draw, "clamp_pid", 2),
        14 | 15 => clamp(draw, "saturate", 1),
        16 => clamp(draw, "abs", 0),
        17 => clamp(draw, "pid_abs", 0),
        18 if draw.once_in(8) => Call::new("consts"),
        18 => clamp(draw, "from_f64", 0),
        _ => clamp(draw, "to_f64", 0),
    }
}
