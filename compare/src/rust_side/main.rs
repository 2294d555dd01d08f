//! The driver over the unchanged Rust, which it calls directly. The crate `oxictl` is that source,
//! byte for byte; `build` makes it.

mod imm;
mod information_filter;
mod kalman;
mod matrix;
mod rts_smoother;
mod scalar;
mod sqrt_kalman;

compare::driver!();
