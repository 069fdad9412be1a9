//! The call that merges three lists and writes the merged one, beside a second one over the second merger.
pub mod cases;
pub mod reference;
pub mod run;
