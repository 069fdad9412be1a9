//! The fusion of three tracks, alone, beside a second one over the source's kernel.
pub mod cases;
pub mod reference;
pub mod run;
