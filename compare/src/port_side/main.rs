//! The driver over the port, by the C functions of estimators.h and nothing else.

mod entries;
mod imm;
mod information_filter;
mod kalman;
mod lent;
mod matrix;
mod rts_smoother;
mod scalar;
mod sqrt_kalman;

compare::driver!();
