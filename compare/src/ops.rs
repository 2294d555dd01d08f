//! The calls that both drivers answer, by the module they belong to. README.md says how a module joins.

/// The module of a call.
#[derive(Clone, Copy, PartialEq, Eq)]
pub enum Family {
    Scalar,
    Matrix,
    Kalman,
    Information,
    SqrtKalman,
    Imm,
    RtsSmoother,
}

use Family::{Imm, Information, Kalman, Matrix, RtsSmoother, Scalar, SqrtKalman};

/// Every call, in the order of PROTOCOL.md.
pub const OPS: &[(&str, Family)] = &[
    ("consts", Scalar),
    ("sqrt", Scalar),
    ("abs", Scalar),
    ("clamp_val", Scalar),
    ("saturate", Scalar),
    ("from_f64", Scalar),
    ("to_f64", Scalar),
    ("from_int", Scalar),
    ("pid_abs", Scalar),
    ("clamp_pid", Scalar),
    ("zeros", Matrix),
    ("default", Matrix),
    ("filled", Matrix),
    ("identity", Matrix),
    ("transpose", Matrix),
    ("add_mat", Matrix),
    ("sub_mat", Matrix),
    ("eq", Matrix),
    ("scale", Matrix),
    ("neg", Matrix),
    ("frob_norm", Matrix),
    ("trace", Matrix),
    ("get", Matrix),
    ("set", Matrix),
    ("matmul", Matrix),
    ("matvec", Matrix),
    ("outer", Matrix),
    ("vec_add", Matrix),
    ("vec_sub", Matrix),
    ("vec_dot", Matrix),
    ("vec_scale", Matrix),
    ("vec_norm", Matrix),
    ("inv", Matrix),
    ("cholesky", Matrix),
    ("kf_new", Kalman),
    ("kf_predict", Kalman),
    ("kf_update", Kalman),
    ("kf_reset", Kalman),
    ("kf_posvel", Kalman),
    ("kf_seq", Kalman),
    ("if_new", Information),
    ("if_from_information", Information),
    ("if_predict", Information),
    ("if_update", Information),
    ("if_state", Information),
    ("if_cov", Information),
    ("if_reset", Information),
    ("if_fuse", Information),
    ("if_seq", Information),
    ("sq_new", SqrtKalman),
    ("sq_from_cholesky", SqrtKalman),
    ("sq_predict", SqrtKalman),
    ("sq_update", SqrtKalman),
    ("sq_cov", SqrtKalman),
    ("sq_reset", SqrtKalman),
    ("sq_seq", SqrtKalman),
    ("imm_new", Imm),
    ("imm_mix", Imm),
    ("imm_probs", Imm),
    ("imm_fused", Imm),
    ("imm_prob", Imm),
    ("rts_store", RtsSmoother),
    ("rts_get", RtsSmoother),
    ("rts_smooth", RtsSmoother),
    ("rts_stale", RtsSmoother),
];

/// The refusals that a call can meet, besides 1 (sizes), which the Rust has not.
pub fn refusals(op: &str) -> &'static [u8] {
    match op {
        "inv" | "kf_update" | "kf_seq" => &[3],
        "if_new" | "if_predict" | "if_update" | "if_state" | "if_cov" | "if_reset" | "if_seq" => &[3],
        "cholesky" | "sq_new" | "sq_predict" | "sq_reset" => &[4],
        "sq_update" | "sq_seq" => &[3, 4],
        "rts_store" => &[5],
        "rts_get" => &[6],
        "rts_smooth" | "rts_stale" => &[2, 3],
        _ => &[],
    }
}

/// Calls of PROTOCOL.md that no driver answers: modules that are not ported.
const NOT_PORTED: &[&str] = &["imm_update_all", "fis_"];

/// The module of the call `op`, or what both drivers say instead.
pub fn family(op: &[u8]) -> Result<Family, &'static str> {
    match OPS.iter().find(|(name, _)| name.as_bytes() == op) {
        Some((_, family)) => Ok(*family),
        None if op == b"exp" => Err("not ported"),
        None if NOT_PORTED.iter().any(|p| op.starts_with(p.as_bytes())) => Err("not ported"),
        None => Err("unknown call"),
    }
}
