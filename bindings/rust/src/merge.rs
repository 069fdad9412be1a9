//! The merge of three lists.
use crate::list::LARGEST;
use crate::{ffi, fuse, List, Refusal, Track};

/// The bytes of the most rows: 96 of four bytes.
const ROWS: usize = 4 * 96;

/// What a row says of its tracks.
#[derive(Clone, Copy, Debug, PartialEq, Eq, Hash)]
pub enum Verdict {
    /// Base, ours and theirs are equal.
    Keep,
    /// Ours wins: it alone has changed or is new, or theirs has the same.
    TakeOurs,
    /// Theirs wins: it alone has changed or is new.
    TakeTheirs,
    /// One side has deleted what the other left as it was, or both have.
    Deleted,
    /// Both sides have added it differently, or changed it differently and it cannot be fused, or one has changed what the other
    /// deleted.
    Conflict,
    /// Both sides have changed it differently, and their changes can be fused: [`fused`] has the track.
    Fuse,
}

/// The tracks that stand together, by their indices, and the verdict on them.
#[derive(Clone, Copy, Debug, PartialEq, Eq, Hash)]
pub struct Row {
    /// The track of base, if there is one.
    pub base: Option<usize>,
    /// The track of ours, if there is one.
    pub ours: Option<usize>,
    /// The track of theirs, if there is one.
    pub theirs: Option<usize>,
    /// What is to be done.
    pub verdict: Verdict,
    bytes: [u8; 4],
}

impl Row {
    fn new(bytes: [u8; 4]) -> Row {
        let index = |i: u8| (i != 255).then_some(usize::from(i));
        let verdict = match bytes[3] {
            0 => Verdict::Keep,
            1 => Verdict::TakeOurs,
            2 => Verdict::TakeTheirs,
            3 => Verdict::Deleted,
            5 => Verdict::Fuse,
            _ => Verdict::Conflict,
        };
        Row { base: index(bytes[0]), ours: index(bytes[1]), theirs: index(bytes[2]), verdict, bytes }
    }

    /// The row as the library has it: three indices, 255 for none, and the verdict's number.
    pub fn bytes(&self) -> [u8; 4] {
        self.bytes
    }
}

/// The rows, and how many have three, two and one track.
#[derive(Clone, Debug, PartialEq, Eq)]
pub struct Merge {
    /// Base tracks first, then tracks of ours without base, then the remaining ones of theirs, each by rising index.
    pub rows: Vec<Row>,
    /// How many rows have three tracks.
    pub full: usize,
    /// How many rows have two.
    pub half: usize,
    /// How many rows have one.
    pub single: usize,
}

impl Merge {
    /// The rows at the front of a buffer, of which so many have three, two and one track.
    fn new(buffer: &[u8], [full, half, single]: [usize; 3]) -> Merge {
        let row = |bytes: &[u8]| Row::new([bytes[0], bytes[1], bytes[2], bytes[3]]);
        let rows = buffer.chunks_exact(4).take(full + half + single).map(row).collect();
        Merge { rows, full, half, single }
    }

    /// The index that the track of a row has in the list of [`merge_list`], the row by its own index; none for a row that writes
    /// no track, where the verdict is deleted or conflict, and for an index past the last row.
    ///
    /// ```
    /// use pelosumba::{merge_list, List, Track, Verdict};
    ///
    /// let collar = |at| Track { state: vec![at], triangle: vec![1.0] };
    /// let base = List::write(1, &[collar(10.0), collar(30.0)])?;
    /// let (ours, theirs) = (List::write(1, &[collar(31.0)])?, List::write(1, &[collar(10.0), collar(32.0)])?);
    /// let (merged, list) = merge_list(&base, &ours, &theirs, 1.0, 16.0)?;
    /// assert_eq!((merged.rows[0].verdict, merged.place(0)), (Verdict::Deleted, None));
    /// assert_eq!((merged.rows[1].verdict, merged.place(1)), (Verdict::Fuse, Some(0)));
    /// assert_eq!(list.tracks()[0], collar(33.0));
    /// # Ok::<(), pelosumba::Refusal>(())
    /// ```
    pub fn place(&self, row: usize) -> Option<usize> {
        let writes = |row: &Row| !matches!(row.verdict, Verdict::Deleted | Verdict::Conflict);
        self.rows.get(row).is_some_and(writes).then(|| self.rows[..row].iter().filter(|row| writes(row)).count())
    }
}

/// Merges ours and theirs over their base: tracks are paired where their squared distance is at most the gate, under covariances
/// whose eigenvalues are raised to the floor.
pub fn merge(base: &List, ours: &List, theirs: &List, floor: f64, gate: f64) -> Result<Merge, Refusal> {
    let mut buffer = [0; ROWS];
    let counts = ffi::merge([base, ours, theirs].map(List::bytes), floor, gate, &mut buffer)?;
    Ok(Merge::new(&buffer, counts))
}

/// The same merge, and the merged list: in the order of the rows base's record where the verdict is to keep, ours' or theirs' where
/// it takes one, each byte for byte, the fused track where it is to fuse, and nothing where it is deleted. [`Merge::place`] tells
/// which track of the list is a row's. A conflict is refused with 21, and more than 32 tracks with 22.
///
/// ```
/// use pelosumba::{merge_list, List, Track};
///
/// let collar = |at| Track { state: vec![at], triangle: vec![1.0] };
/// let base = List::write(1, &[collar(10.0), collar(20.0), collar(30.0)])?;
/// let ours = List::write(1, &[collar(10.0), collar(30.0)])?;
/// let theirs = List::write(1, &[collar(10.0), collar(20.0), collar(30.5)])?;
/// let (merged, list) = merge_list(&base, &ours, &theirs, 1.0, 16.0)?;
/// assert_eq!((merged.rows.len(), list.tracks()), (3, &[collar(10.0), collar(30.5)][..]));
///
/// // A side without tracks has deleted what theirs has changed.
/// let refused = merge_list(&base, &List::write(1, &[])?, &theirs, 1.0, 16.0).unwrap_err();
/// assert_eq!(refused.to_string(), "no 21: has no row verdict 4?");
/// # Ok::<(), pelosumba::Refusal>(())
/// ```
pub fn merge_list(base: &List, ours: &List, theirs: &List, floor: f64, gate: f64) -> Result<(Merge, List), Refusal> {
    let (mut buffer, mut bytes) = ([0; ROWS], vec![0; LARGEST]);
    let lists = [base, ours, theirs].map(List::bytes);
    let (counts, length) = ffi::merge_list(lists, floor, gate, &mut buffer, &mut bytes)?;
    Ok((Merge::new(&buffer, counts), List::read(&bytes[..length])?))
}

/// The winning record's own bytes, a part of ours or of theirs; none for a verdict that takes neither. The fused track of a row is
/// in neither list: [`fused`] has it.
pub fn winner<'a>(ours: &'a List, theirs: &'a List, row: &Row) -> Option<&'a [u8]> {
    let (list, start, length) = ffi::winner(ours.bytes(), theirs.bytes(), row.bytes());
    let part = start..start + length;
    match list {
        1 => Some(&ours.bytes()[part]),
        2 => Some(&theirs.bytes()[part]),
        _ => None,
    }
}

/// The fused track of a row whose verdict is to fuse, of the three lists and the floor that were merged; none for another verdict,
/// and where the lists do not have the row's tracks.
///
/// ```
/// use pelosumba::{fused, merge, List, Track, Verdict};
///
/// let collar = |at| Track { state: vec![at], triangle: vec![1.0] };
/// let list = |at| List::write(1, &[collar(at)]);
/// let (base, ours, theirs) = (list(10.0)?, list(11.0)?, list(12.0)?);
/// let row = merge(&base, &ours, &theirs, 1.0, 16.0)?.rows[0];
/// assert_eq!(row.verdict, Verdict::Fuse);
/// assert_eq!(fused(&base, &ours, &theirs, 1.0, &row), Some(collar(13.0)));
/// # Ok::<(), pelosumba::Refusal>(())
/// ```
pub fn fused(base: &List, ours: &List, theirs: &List, floor: f64, row: &Row) -> Option<Track> {
    if row.verdict != Verdict::Fuse {
        return None;
    }
    let [base, ours, theirs] = [base, ours, theirs].map(List::tracks);
    fuse(base.get(row.base?)?, ours.get(row.ours?)?, theirs.get(row.theirs?)?, floor).ok()?
}
