//! Track lists of a farm cooperative, merged by distance and never by place, over the proved library `libcapi.a`.
//!
//! A track is a state and a covariance without a name. [`merge`] pairs the tracks of three lists and gives a [`Verdict`] for each row;
//! [`merge_list`] gives the merged list too, where no row is a conflict; [`winner`] hands out a winning record's own bytes, and
//! [`fused`] the track of a row that both sides have changed and that can be fused, by [`fuse`]. A call that cannot be answered gives
//! a [`Refusal`] and changes nothing. [`kernel`] has the matrix calls beneath, on slices.
//!
//! ```
//! use pelosumba::{merge, winner, List, Track, Verdict};
//!
//! let list = |states: &[f64]| {
//!     let tracks: Vec<Track> = states.iter().map(|x| Track { state: vec![*x], triangle: vec![1.0] }).collect();
//!     List::write(1, &tracks)
//! };
//! let (base, ours, theirs) = (list(&[10.0, 20.0, 30.0])?, list(&[10.0, 30.0])?, list(&[10.0, 20.0, 30.5])?);
//! let merged = merge(&base, &ours, &theirs, 1.0, 16.0)?;
//! let verdicts: Vec<Verdict> = merged.rows.iter().map(|row| row.verdict).collect();
//! assert_eq!(verdicts, [Verdict::Keep, Verdict::Deleted, Verdict::TakeTheirs]);
//! assert_eq!(winner(&ours, &theirs, &merged.rows[2]), theirs.records().nth(2));
//! # Ok::<(), pelosumba::Refusal>(())
//! ```
//!
//! What a C caller owes, the crate's types see to: what is written is borrowed for that call alone.
#![deny(unsafe_code, missing_debug_implementations, missing_docs)]

#[allow(unsafe_code)]
mod ffi;
mod fusion;
mod list;
mod merge;
mod refusal;

pub use ffi::kernel;
pub use fusion::fuse;
pub use list::{List, Track};
pub use merge::{fused, merge, merge_list, winner, Merge, Row, Verdict};
pub use refusal::Refusal;
