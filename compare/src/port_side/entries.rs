//! The C functions of estimators.h, which compare/build reads out of the header (entries.awk); the archive
//! libestimators.a holds them. A slice in C is a pointer and then a length. A bool is lent as the byte that it is.
#![allow(dead_code)]

include!(concat!(env!("CARGO_MANIFEST_DIR"), "/entries.rs"));
