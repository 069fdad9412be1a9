//! The merge, the winner's bytes and the merged list beside a second merger, written from document 01, "Pairing and rows", over
//! the source's kernel.
pub mod cases;
pub mod checks;
pub mod damage;
pub mod edits;
pub mod list;
pub mod pairings;
pub mod program;
pub mod reference;
pub mod run;
