//! The fusion of two tracks over their base.
use crate::{ffi, Refusal, Track};

/// Fuses ours and theirs over base. The inverse covariances of ours and theirs are added and that of base is taken away, and so are
/// their products with the states; the fused state is the solution of the two, and the fused covariance the inverse of the first,
/// with its eigenvalues raised to the floor, which may be any number. None where a covariance or that sum has no inverse, where the
/// repair refuses, and where the fused track is not finite.
///
/// The dimension is that of base. It is refused with 1 where it is not 1 to 16, and with 2 where a track has another dimension or a
/// triangle another length.
///
/// ```
/// use pelosumba::{fuse, Track};
///
/// let collar = |at, variance| Track { state: vec![at], triangle: vec![variance] };
/// let (base, ours, theirs) = (collar(10.0, 1.0), collar(11.0, 1.0), collar(12.0, 1.0));
/// assert_eq!(fuse(&base, &ours, &theirs, 1.0)?, Some(collar(13.0, 1.0)));
/// assert_eq!(fuse(&base, &collar(11.0, 0.0), &theirs, 1.0)?, None);
/// # Ok::<(), pelosumba::Refusal>(())
/// ```
pub fn fuse(base: &Track, ours: &Track, theirs: &Track, floor: f64) -> Result<Option<Track>, Refusal> {
    let dimension = base.state.len();
    // No fields where a track does not fit: then their number is wrong, after the question on the dimension.
    let tracks = [base, ours, theirs].map(|track| track.fields(dimension).unwrap_or_default());
    let mut out = vec![0.0; tracks[0].len()];
    let is_fused = ffi::fuse(tracks.each_ref().map(Vec::as_slice), dimension, floor, &mut out)?;
    Ok(is_fused.then(|| Track::of(dimension, &out)))
}
