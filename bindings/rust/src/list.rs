//! Track lists.
use crate::{ffi, Refusal};

/// The bytes of the largest list, and the values of one.
pub(crate) const LARGEST: usize = 14_050;
const VALUES: usize = 32 * 54;

/// A track: its state, and the lower triangle of its covariance row by row.
#[derive(Clone, Debug, PartialEq)]
pub struct Track {
    /// The d values of the state.
    pub state: Vec<f64>,
    /// The d(d+1)/2 entries of the triangle: row i has columns 0 to i.
    pub triangle: Vec<f64>,
}

impl Track {
    /// The track of a dimension with these fields.
    pub(crate) fn of(dimension: usize, fields: &[f64]) -> Track {
        let (state, triangle) = fields.split_at(dimension);
        Track { state: state.to_vec(), triangle: triangle.to_vec() }
    }

    /// Its fields, where it has that dimension.
    pub(crate) fn fields(&self, dimension: usize) -> Option<Vec<f64>> {
        let sides = self.state.len();
        let fits = sides == dimension && self.triangle.len() == sides * (sides + 1) / 2;
        fits.then(|| [&self.state[..], &self.triangle].concat())
    }
}

/// A list that was accepted: its bytes, and what they hold.
#[derive(Clone, Debug, PartialEq)]
pub struct List {
    bytes: Vec<u8>,
    dimension: usize,
    tracks: Vec<Track>,
}

impl List {
    /// Reads a list.
    ///
    /// ```
    /// use pelosumba::List;
    ///
    /// let list = List::read(&[1, 1, 2, 0, 0, 0, 0, 0, 0, 0xF0, 0x3F])?;
    /// assert_eq!((list.dimension(), &list.tracks()[0].triangle[..]), (1, &[1.0][..]));
    /// assert_eq!(List::read(&[1, 1, 6]).unwrap_err().to_string(), "no 13: are the map's spare bits 0?");
    /// # Ok::<(), pelosumba::Refusal>(())
    /// ```
    pub fn read(bytes: &[u8]) -> Result<List, Refusal> {
        let mut values = [0.0; VALUES];
        let (count, dimension) = ffi::read_list(bytes, &mut values)?;
        let fields = dimension + dimension * (dimension + 1) / 2;
        let track = |fields: &[f64]| Track::of(dimension, fields);
        let tracks = values[..count * fields].chunks_exact(fields).map(track).collect();
        Ok(List { bytes: bytes.to_vec(), dimension, tracks })
    }

    /// Writes tracks of a dimension as a list. Where a track has another dimension, it is refused with 2.
    pub fn write(dimension: usize, tracks: &[Track]) -> Result<List, Refusal> {
        // No values where some track does not fit: then their number is wrong, after the questions on count and dimension.
        let fields: Option<Vec<_>> = tracks.iter().map(|track| track.fields(dimension)).collect();
        let values = fields.unwrap_or_default().concat();
        let mut bytes = vec![0; LARGEST];
        let length = ffi::write_list(tracks.len(), dimension, &values, &mut bytes)?;
        List::read(&bytes[..length])
    }

    /// The list as it is stored.
    pub fn bytes(&self) -> &[u8] {
        &self.bytes
    }

    /// The dimension of all its tracks, 1 to 9.
    pub fn dimension(&self) -> usize {
        self.dimension
    }

    /// Its tracks, 0 to 32, in their order.
    pub fn tracks(&self) -> &[Track] {
        &self.tracks
    }

    /// The tracks' own bytes, one record after the other.
    pub fn records(&self) -> impl Iterator<Item = &[u8]> {
        let mut at = 2;
        std::iter::from_fn(move || {
            let (start, length) = ffi::record(&self.bytes, at);
            at = start + length;
            (length != 0).then(|| &self.bytes[start..start + length])
        })
    }
}
