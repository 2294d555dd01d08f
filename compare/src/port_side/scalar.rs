//! Numbers: the scalar_ functions.

use crate::entries::*;
use crate::lent::Lent;
use compare::protocol::{Answer, Bad, Words};

/// The six constants, and EPSILON times 1,000,000 as the port multiplies.
fn constants(answer: &mut Answer) -> Result<(), Bad> {
    let mut six = Lent::new(6);
    let status = unsafe { estimators_scalar_constants(six.ptr(), 6) };
    six.answer(status, answer)?;
    if status != 0 {
        return Ok(());
    }
    let mut limit = Lent::new(1);
    let epsilon = &six.cells()[5];
    let status = unsafe { estimators_matrix_scale(1, 1, epsilon, 1, 1e6, limit.ptr(), 1) };
    if status != 0 {
        return Err("a 1 x 1 scale was refused");
    }
    limit.ends()?;
    answer.numbers(limit.cells());
    Ok(())
}

pub fn call(op: &[u8], w: &mut Words, answer: &mut Answer) -> Result<(), Bad> {
    if op == b"consts" {
        w.end()?;
        return constants(answer);
    }
    let result = unsafe {
        match op {
            b"sqrt" => estimators_scalar_sqrt(w.number()?),
            b"abs" => estimators_scalar_abs(w.number()?),
            b"clamp_val" => estimators_scalar_clamp_val(w.number()?, w.number()?, w.number()?),
            b"saturate" => estimators_scalar_saturate(w.number()?, w.number()?),
            b"from_f64" => estimators_scalar_from_f64(w.number()?),
            b"to_f64" => estimators_scalar_to_f64(w.number()?),
            b"from_int" => estimators_scalar_from_int(w.whole()?),
            b"pid_abs" => estimators_scalar_pid_abs(w.number()?),
            b"clamp_pid" => estimators_scalar_clamp_pid(w.number()?, w.number()?, w.number()?),
            _ => return Err("unknown call"),
        }
    };
    w.end()?;
    answer.ok();
    answer.number(result);
    Ok(())
}
