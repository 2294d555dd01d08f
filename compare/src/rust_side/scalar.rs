//! Numbers: scalar.rs, for f64.

use compare::protocol::{Answer, Bad, Words};
use num_traits::Float;
use oxictl::core::scalar::{ControlScalar, PidScalar};

fn constants() -> [f64; 7] {
    [
        <f64 as ControlScalar>::ZERO,
        <f64 as ControlScalar>::ONE,
        <f64 as ControlScalar>::TWO,
        <f64 as ControlScalar>::HALF,
        <f64 as ControlScalar>::PI,
        <f64 as ControlScalar>::EPSILON,
        <f64 as ControlScalar>::EPSILON * <f64 as ControlScalar>::from_f64(1e6),
    ]
}

pub fn call(op: &[u8], words: &mut Words, answer: &mut Answer) -> Result<(), Bad> {
    if op == b"consts" {
        words.end()?;
        answer.ok();
        answer.numbers(&constants());
        return Ok(());
    }
    let result = match op {
        b"sqrt" => Float::sqrt(words.number()?),
        b"abs" => Float::abs(words.number()?),
        b"clamp_val" => ControlScalar::clamp_val(words.number()?, words.number()?, words.number()?),
        b"saturate" => ControlScalar::saturate(words.number()?, words.number()?),
        b"from_f64" => <f64 as ControlScalar>::from_f64(words.number()?),
        b"to_f64" => ControlScalar::to_f64(words.number()?),
        b"from_int" => <f64 as PidScalar>::from_int(words.whole()?),
        b"pid_abs" => PidScalar::abs(words.number()?),
        b"clamp_pid" => PidScalar::clamp_pid(words.number()?, words.number()?, words.number()?),
        _ => return Err("unknown call"),
    };
    words.end()?;
    answer.ok();
    answer.number(result);
    Ok(())
}
