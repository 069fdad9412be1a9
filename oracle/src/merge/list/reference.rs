//! The second writer of merged lists: change request 1's "Write the merged list" over the second merger, with the tracks that it fuses.
use crate::lists::{self, COUNTS};
use crate::merge::pairings::Method;
use crate::merge::reference::{merge, Merged, Within};

/// A list's count and its dimension stand before its records.
pub const HEAD: usize = 2;

/// A merge that is answered with its list.
pub struct MergedList {
    pub merged: Merged,
    pub count: usize,
    pub dimension: usize,
    pub bytes: Vec<u8>,
    /// The fields of the list's tracks, one track after the other.
    pub values: Vec<f64>,
}

/// A track that a row writes: one of a list, by the list and its index there, or a fused one by its fields.
pub enum Winner<'a> {
    Of(usize, usize),
    Fused(&'a [f64]),
}

/// The tracks that rows write, in the rows' order: base's for verdict 0, ours' for 1, theirs' for 2, the fused one for 5, and none for
/// another.
pub fn winners(merged: &Merged) -> Vec<Winner<'_>> {
    let mut winners = Vec::new();
    for (row, fused) in merged.rows.iter().zip(&merged.fused) {
        match *row {
            [i, _, _, 0] => winners.push(Winner::Of(0, i as usize)),
            [_, j, _, 1] => winners.push(Winner::Of(1, j as usize)),
            [_, _, k, 2] => winners.push(Winner::Of(2, k as usize)),
            [_, _, _, 5] => winners.push(Winner::Fused(fused.as_ref().expect("a fused row's track"))),
            _ => {}
        }
    }
    winners
}

/// The bytes and the fields of these tracks; a fused one's record is written as any track's.
fn records(lists: [&[u8]; 3], winners: &[Winner]) -> (Vec<u8>, Vec<f64>) {
    let read = lists.map(|list| lists::read(list).expect("a list that was merged"));
    let d = read[0].dimension;
    let f = lists::fields(d);
    let (mut bytes, mut values) = (Vec::new(), Vec::new());
    for winner in winners {
        match *winner {
            Winner::Of(list, track) => {
                let of = &read[list];
                bytes.extend(&lists[list][of.starts[track]..of.starts[track + 1]]);
                values.extend(&of.values[track * f..(track + 1) * f]);
            }
            Winner::Fused(fields) => {
                bytes.extend(&lists::write(1, d, fields).expect("a track that makes a list")[HEAD..]);
                values.extend(fields);
            }
        }
    }
    (bytes, values)
}

/// How many bytes the list of this merge has, whether or not it can be written.
pub fn length(lists: [&[u8]; 3], merged: &Merged) -> usize {
    HEAD + records(lists, &winners(merged)).0.len()
}

/// The list of an answered merge in a buffer of so many bytes, or the number of the first question that is not met.
pub fn written(lists: [&[u8]; 3], merged: Merged, room: usize) -> Result<MergedList, u32> {
    if merged.rows.iter().any(|row| row[3] == 4) {
        return Err(21);
    }
    let winners = winners(&merged);
    let count = winners.len();
    if count > COUNTS {
        return Err(22);
    }
    let (records, values) = records(lists, &winners);
    let head = [count as u8, lists[0][1]];
    let bytes = [&head[..], &records].concat();
    if room < bytes.len() {
        return Err(20);
    }
    Ok(MergedList { merged, count, dimension: lists[0][1] as usize, bytes, values })
}

/// Merges three lists with so many bytes for the rows and for the list, or answers the number of the first question that is
/// not met.
pub fn merge_list(lists: [&[u8]; 3], within: Within, room: [usize; 2], by: Method) -> Result<MergedList, u32> {
    let [rows, list] = room;
    written(lists, merge(lists, within, rows, by)?, list)
}
