//! The second merger: document 01's "Distance" and "Pairing and rows" over the source's kernel, with the second fusion for rows of three
//! tracks that would be conflicts.
use super::pairings::{Candidate, Method, Pairing};
use crate::fusing::reference::{fuse, state_and_covariance};
use crate::lists::{self, Read};
use nolan::linalg::{generic, regularize};

/// No track.
pub const NONE: u8 = 255;

/// How two tracks compare.
#[derive(Clone, Copy, Debug)]
pub enum Comparison {
    Near(f64),
    Far(f64),
    NoDistance,
}

/// The floor of repairs and the gate of distances.
#[derive(Clone, Copy, Debug)]
pub struct Within {
    pub floor: f64,
    pub gate: f64,
}

/// Track i gives mu and track j gives x.
fn comparison_at<const N: usize>(i: &[f64], j: &[f64], within: Within) -> Comparison {
    let (mu, p_i) = state_and_covariance::<N>(i);
    let (x, p_j) = state_and_covariance::<N>(j);
    let mut sum = p_i;
    for (row, added) in sum.iter_mut().zip(&p_j) {
        for (entry, y) in row.iter_mut().zip(added) {
            *entry += y;
        }
    }
    let Ok(repaired) = regularize::nearest_psd(&sum, within.floor) else { return Comparison::NoDistance };
    match generic::mahalanobis_distance_squared(&x, &mu, &repaired.cov) {
        Some(d2) if d2.is_finite() && d2 >= 0.0 && d2 <= within.gate => Comparison::Near(d2),
        Some(d2) if d2.is_finite() && d2 >= 0.0 => Comparison::Far(d2),
        _ => Comparison::NoDistance,
    }
}

type Compare = fn(&[f64], &[f64], Within) -> Comparison;

const COMPARISONS: [Compare; lists::DIMENSIONS] = [
    comparison_at::<1>,
    comparison_at::<2>,
    comparison_at::<3>,
    comparison_at::<4>,
    comparison_at::<5>,
    comparison_at::<6>,
    comparison_at::<7>,
    comparison_at::<8>,
    comparison_at::<9>,
];

/// Compares two tracks of a dimension, given as their fields.
pub fn comparison(dimension: usize, i: &[f64], j: &[f64], within: Within) -> Comparison {
    COMPARISONS[dimension - 1](i, j, within)
}

/// The fields of a list's tracks.
fn tracks(list: &Read) -> Vec<&[f64]> {
    list.values.chunks(lists::fields(list.dimension)).collect()
}

/// The near pairs of two lists' tracks, among those that are named.
fn candidates(first: &Read, firsts: &[usize], second: &Read, seconds: &[usize], within: Within) -> Vec<Candidate> {
    let compare = COMPARISONS[first.dimension - 1];
    let (mine, others) = (tracks(first), tracks(second));
    let mut near = Vec::new();
    for &i in firsts {
        for &j in seconds {
            if let Comparison::Near(d2) = compare(mine[i], others[j], within) {
                near.push(Candidate { d2, first: i, second: j });
            }
        }
    }
    near
}

/// Equal bits in every field.
fn equal(a: &[f64], b: &[f64]) -> bool {
    a.iter().zip(b).all(|(x, y)| x.to_bits() == y.to_bits())
}

/// Keep 0, take ours 1, take theirs 2, deleted 3, conflict 4; whether a conflict is fused is asked later.
fn verdict(base: Option<&[f64]>, ours: Option<&[f64]>, theirs: Option<&[f64]>) -> u8 {
    match (base, ours, theirs) {
        (Some(b), Some(o), Some(t)) if equal(o, b) && equal(t, b) => 0,
        (Some(b), Some(o), Some(_)) if equal(o, b) => 2,
        (Some(b), Some(_), Some(t)) if equal(t, b) => 1,
        (Some(_), Some(o), Some(t)) if equal(o, t) => 1,
        (Some(_), Some(_), Some(_)) => 4,
        (Some(b), Some(side), None) | (Some(b), None, Some(side)) if equal(b, side) => 3,
        (Some(_), Some(_), None) | (Some(_), None, Some(_)) => 4,
        (Some(_), None, None) => 3,
        (None, Some(o), Some(t)) if equal(o, t) => 1,
        (None, Some(_), Some(_)) => 4,
        (None, Some(_), None) => 1,
        (None, None, Some(_)) => 2,
        (None, None, None) => panic!("a row without a track"),
    }
}

/// An answered merge: its rows, and what they were made of.
pub struct Merged {
    pub rows: Vec<[u8; 4]>,
    pub full: usize,
    pub half: usize,
    pub single: usize,
    /// For each row the fields of its fused track, where it has one.
    pub fused: Vec<Option<Vec<f64>>>,
    /// Base with ours, base with theirs, ours with theirs.
    pub pairings: [Pairing; 3],
}

impl Merged {
    /// Rows of three tracks that are conflicts.
    pub fn unfused(&self) -> usize {
        self.rows.iter().filter(|row| row[3] == 4 && row[..3].iter().all(|i| *i != NONE)).count()
    }
}

fn index(track: Option<usize>) -> u8 {
    track.map_or(NONE, |i| i as u8)
}

/// The three pairings of lists that are read.
fn pairings(base: &Read, ours: &Read, theirs: &Read, within: Within, by: Method) -> [Pairing; 3] {
    let all = |list: &Read| (0..tracks(list).len()).collect::<Vec<usize>>();
    let (bases, mine, others) = (all(base), all(ours), all(theirs));
    let base_ours = by(candidates(base, &bases, ours, &mine, within));
    let base_theirs = by(candidates(base, &bases, theirs, &others, within));
    let free = |tracks: Vec<usize>, of: &Pairing| -> Vec<usize> {
        tracks.into_iter().filter(|j| of.first_of(*j).is_none()).collect()
    };
    let (mine, others) = (free(mine, &base_ours), free(others, &base_theirs));
    let ours_theirs = by(candidates(ours, &mine, theirs, &others, within));
    [base_ours, base_theirs, ours_theirs]
}

/// Base tracks, then ours without base, then the remaining theirs.
fn named(base: &Read, ours: &Read, theirs: &Read, of: &[Pairing; 3]) -> Vec<[Option<usize>; 3]> {
    let [base_ours, base_theirs, ours_theirs] = of;
    let mut named = Vec::new();
    for i in 0..tracks(base).len() {
        named.push([Some(i), base_ours.second_of(i), base_theirs.second_of(i)]);
    }
    for j in (0..tracks(ours).len()).filter(|j| base_ours.first_of(*j).is_none()) {
        named.push([None, Some(j), ours_theirs.second_of(j)]);
    }
    let free = |k: &usize| base_theirs.first_of(*k).is_none() && ours_theirs.first_of(*k).is_none();
    for k in (0..tracks(theirs).len()).filter(free) {
        named.push([None, None, Some(k)]);
    }
    named
}

/// The rows, and the fields of each row's fused track: a conflict of three tracks that can be fused is none, and has verdict 5.
fn rows(
    base: &Read,
    ours: &Read,
    theirs: &Read,
    of: &[Pairing; 3],
    floor: f64,
) -> (Vec<[u8; 4]>, Vec<Option<Vec<f64>>>) {
    let (b, o, t) = (tracks(base), tracks(ours), tracks(theirs));
    let row = |[i, j, k]: [Option<usize>; 3]| {
        let of = (i.map(|i| b[i]), j.map(|j| o[j]), k.map(|k| t[k]));
        let told = verdict(of.0, of.1, of.2);
        let fused = match of {
            (Some(b), Some(o), Some(t)) if told == 4 => fuse(base.dimension, [b, o, t], floor).ok(),
            _ => None,
        };
        let told = if fused.is_some() { 5 } else { told };
        ([index(i), index(j), index(k), told], fused.map(|track| track.fields))
    };
    named(base, ours, theirs, of).into_iter().map(row).unzip()
}

/// Merges three lists with a row buffer of so many bytes, or answers the number of the first question that is not met.
pub fn merge(lists: [&[u8]; 3], within: Within, room: usize, by: Method) -> Result<Merged, u32> {
    let (base, ours, theirs) = (lists::read(lists[0])?, lists::read(lists[1])?, lists::read(lists[2])?);
    if base.dimension != ours.dimension || base.dimension != theirs.dimension {
        return Err(17);
    }
    let Within { floor, gate } = within;
    if !(floor.is_finite() && floor > 0.0 && gate.is_finite() && gate >= 0.0) {
        return Err(18);
    }
    let counts: usize = lists.iter().map(|list| list[0] as usize).sum();
    if room < 4 * counts {
        return Err(19);
    }
    let pairings = pairings(&base, &ours, &theirs, within, by);
    let (rows, fused) = rows(&base, &ours, &theirs, &pairings, floor);
    let with = |n: usize| rows.iter().filter(|row| row[..3].iter().filter(|i| **i != NONE).count() == n).count();
    let (full, half, single) = (with(3), with(2), with(1));
    Ok(Merged { rows, full, half, single, fused, pairings })
}

/// Where the winning record's bytes stand: list 1 for ours, 2 for theirs, its start and its length; zeros where there is
/// none.
pub fn winner(ours: &[u8], theirs: &[u8], row: &[u8]) -> (u32, usize, usize) {
    let [_, j, k, verdict] = *row else { return (0, 0, 0) };
    let (Ok(mine), Ok(others)) = (lists::read(ours), lists::read(theirs)) else { return (0, 0, 0) };
    let (list, read, at) = match verdict {
        1 => (1, mine, j as usize),
        2 => (2, others, k as usize),
        _ => return (0, 0, 0),
    };
    match read.starts[..].get(at..at + 2) {
        Some(&[start, end]) => (list, start, end - start),
        _ => (0, 0, 0),
    }
}
