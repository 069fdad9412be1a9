//! The Rust source's own modules `traits`, `impls` and `linalg`, at a crate's root, where they expect to stand; and its
//! functions on flat slices.
include!(concat!(env!("OUT_DIR"), "/source.rs"));

pub mod flat;
