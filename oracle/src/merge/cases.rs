//! Random merges that make work: a herd of some class as the base, ours and theirs edited from it, a floor and a gate.
use super::edits::{self, edited, field_mut, shuffle, Track};
use super::reference::{comparison, Comparison, Within};
use crate::lists::{self, COUNTS, DIMENSIONS};
use crate::rng::Rng;

const FLOORS: &[f64] = &[1.0, 1.0, 1.0, 0.5, 1e-6, 1e-12, 1e3, 1e-160, 5e-324, 1e300];
/// Floors that are lost beside the greatest entries of thin covariances.
const THIN_FLOORS: &[f64] = &[1e-12, 1e-10, 1e-9, 1e-9, 1.0];
const GATES: &[f64] = &[16.0, 16.0, 16.0, 4.0, 1.0, 0.5, 100.0, 1e6, 5e-324, 0.0, -0.0, f64::MAX];

/// Gates under which a track that was measured is near.
const MEASURED_GATES: &[f64] = &[16.0, 16.0, 4.0, 100.0, f64::MAX];

/// What a merge is given.
#[derive(Clone)]
pub struct Case {
    pub class: &'static str,
    pub lists: [Vec<u8>; 3],
    pub within: Within,
    /// The length of the row buffer.
    pub room: usize,
}

impl Case {
    pub fn slices(&self) -> [&[u8]; 3] {
        [&self.lists[0], &self.lists[1], &self.lists[2]]
    }

    pub fn describe(&self) -> String {
        let lists: Vec<String> =
            self.lists.iter().map(|l| l.iter().map(|b| format!("{b:02x}")).collect::<String>()).collect();
        format!("{}, {:?}, {} bytes of rows, lists {}", self.class, self.within, self.room, lists.join(" "))
    }
}

/// How a track of a class is drawn, given the dimension and its place.
pub type Draw = fn(&mut Rng, usize, usize) -> Track;

pub const HERDS: &[(&str, Draw)] = &[
    ("scattered", scattered),
    ("crowded", crowded),
    ("grid", grid),
    ("one line of a grid", line),
    ("one state, different covariances", trough),
    ("indefinite", indefinite),
    ("zero covariances", zero),
    ("cancelling covariances", cancelling),
    ("thin", thin),
    ("huge and tiny", wild),
];

/// A state and the lower triangle of a covariance, by its entries.
pub fn track(state: Vec<f64>, mut entry: impl FnMut(usize, usize) -> f64) -> Track {
    let d = state.len();
    let mut fields = state;
    for i in 0..d {
        for j in 0..=i {
            fields.push(entry(i, j));
        }
    }
    fields
}

fn states(rng: &mut Rng, d: usize, scale: f64) -> Vec<f64> {
    (0..d).map(|_| rng.unit() * scale).collect()
}

/// A heavy diagonal, so that the matrix is definite.
fn definite(rng: &mut Rng, d: usize) -> impl FnMut(usize, usize) -> f64 + '_ {
    move |i, j| if i == j { d as f64 * 0.5 + 1.0 + rng.unit() } else { rng.unit() * 0.5 }
}

fn scattered(rng: &mut Rng, d: usize, _: usize) -> Track {
    let state = states(rng, d, 30.0);
    track(state, definite(rng, d))
}

/// So near that almost every pair is a candidate.
fn crowded(rng: &mut Rng, d: usize, _: usize) -> Track {
    let state = states(rng, d, 1.5);
    track(state, definite(rng, d))
}

fn unit(i: usize, j: usize) -> f64 {
    f64::from(u8::from(i == j))
}

/// Whole numbers in the first two places of the state, and unit variances: many distances are equal.
fn grid(rng: &mut Rng, d: usize, _: usize) -> Track {
    let state = (0..d).map(|k| if k < 2 { rng.below(4) as f64 } else { 0.0 }).collect();
    track(state, unit)
}

/// Every track a step from the one before it.
fn line(_: &mut Rng, d: usize, at: usize) -> Track {
    let state = (0..d).map(|k| if k == 0 { at as f64 } else { 0.0 }).collect();
    track(state, unit)
}

fn trough(rng: &mut Rng, d: usize, _: usize) -> Track {
    let place = rng.below(3) as f64 * 3.0;
    track(vec![place; d], definite(rng, d))
}

fn indefinite(rng: &mut Rng, d: usize, _: usize) -> Track {
    let state = states(rng, d, 3.0);
    track(state, |_, _| rng.unit() * 2.0)
}

fn zero(rng: &mut Rng, d: usize, _: usize) -> Track {
    let state = states(rng, d, 4.0).iter().map(|x| x.round()).collect();
    let zero = rng.one_of(&[0.0, 0.0, -0.0]);
    track(state, |_, _| zero)
}

/// One matrix or its negative, so that a sum may be zero.
fn cancelling(rng: &mut Rng, d: usize, _: usize) -> Track {
    let state = states(rng, d, 2.0);
    let sign = rng.one_of(&[1.0, -1.0]);
    track(state, |i, j| sign * (1.0 + (i * j) as f64))
}

/// Rows and columns of different sizes, or zeros: a floor far below leaves the repair singular but for its rounding, and
/// squared distances below 0 are found.
fn thin(rng: &mut Rng, d: usize, _: usize) -> Track {
    let state = states(rng, d, 1.0);
    let scale = |k: usize| f64::powi(10.0, (5 * k % 7) as i32 - 3);
    let whole = rng.below(2) as f64;
    track(state, |i, j| whole * rng.unit() * scale(i) * scale(j))
}

/// Any size, so that sums, products or squares overflow or vanish.
fn wild(rng: &mut Rng, d: usize, _: usize) -> Track {
    let mut any = || match rng.below(6) {
        0 => rng.one_of(&[f64::MAX, f64::MIN, f64::MIN_POSITIVE, f64::from_bits(1), -0.0, 1e154, 1e200]),
        1 => f64::from_bits(rng.below(0x7FF0_0000_0000_0000) | rng.below(2) << 63),
        2 => rng.unit() * 1e-150,
        _ => rng.unit() * 10.0,
    };
    let state = (0..d).map(|_| any()).collect();
    track(state, |_, _| any())
}

/// Small herds more often than not; large ones of a high dimension take milliseconds.
fn count(rng: &mut Rng, d: usize) -> usize {
    let most = match rng.below(40) {
        0 => COUNTS,
        1..=3 if d <= 6 => 16,
        4..=11 => 8,
        _ => 5,
    };
    rng.below(most as u64 + 1) as usize
}

/// A track of the class that is given, or of any.
fn one(rng: &mut Rng, draw: Option<Draw>, d: usize, at: usize) -> Track {
    let draw = draw.unwrap_or_else(|| HERDS[rng.below(HERDS.len() as u64) as usize].1);
    draw(rng, d, at)
}

/// The list of these tracks.
pub fn listed(tracks: &[Track], d: usize) -> Vec<u8> {
    lists::write(tracks.len(), d, &tracks.concat()).expect("tracks that make a list")
}

/// Three lists of tracks: ours is edited from base, and theirs from base or from ours.
fn three(rng: &mut Rng, draw: Option<Draw>, d: usize, n: usize, within: Within) -> [Vec<Track>; 3] {
    let mut new = |rng: &mut Rng, at: usize| one(rng, draw, d, at);
    let base: Vec<Track> = (0..n).map(|at| new(rng, at)).collect();
    let calm = rng.one_of(&[2, 5, 16]);
    let ours = edited(rng, &base, d, within, calm, &mut new);
    let mut theirs = match rng.below(4) {
        0 => edited(rng, &ours, d, within, calm, &mut new),
        _ => edited(rng, &base, d, within, calm, &mut new),
    };
    // What one side added, the other side may have added too.
    if !ours.is_empty() && theirs.len() < COUNTS && rng.below(3) == 0 {
        let mut same = ours[rng.below(ours.len() as u64) as usize].clone();
        if rng.below(3) == 0 {
            *field_mut(rng, &mut same) += 0.25;
        }
        theirs.push(same);
    }
    [base, ours, theirs]
}

/// Three lists of tracks, of which most were measured on both sides, and some on one or on none.
fn three_measured(rng: &mut Rng, draw: Option<Draw>, d: usize, n: usize) -> [Vec<Track>; 3] {
    let base: Vec<Track> = (0..n).map(|at| one(rng, draw, d, at)).collect();
    let [ours, theirs] = [0, 1].map(|_| {
        let mut side = |track: &Track| if rng.below(8) == 0 { track.clone() } else { edits::measured(rng, track, d) };
        let mut tracks: Vec<Track> = base.iter().map(&mut side).collect();
        if rng.below(4) == 0 {
            shuffle(rng, &mut tracks);
        }
        tracks
    });
    [base, ours, theirs]
}

/// The squared distance of two of the tracks as the gate, or its neighbour.
fn gate_between(rng: &mut Rng, tracks: &[Vec<Track>; 3], d: usize, within: Within) -> f64 {
    let mut any = |of: &[Track]| of.get(rng.below(of.len() as u64 + 1) as usize).cloned();
    let (Some(i), Some(j)) = (any(&tracks[0]), any(&tracks[1])) else { return within.gate };
    match comparison(d, &i, &j, within) {
        Comparison::Near(d2) | Comparison::Far(d2) => {
            let gate = rng.one_of(&[d2, d2.next_up(), d2.next_down()]);
            if gate.is_finite() && gate >= 0.0 {
                gate
            } else {
                within.gate
            }
        }
        Comparison::NoDistance => within.gate,
    }
}

/// The length of a row buffer that is long enough for so many tracks.
pub fn room(rng: &mut Rng, tracks: usize) -> usize {
    match rng.below(3) {
        0 => 4 * tracks,
        1 => 4 * tracks + 1 + rng.below(8) as usize,
        _ => rng.one_of(&[4 * 3 * COUNTS, 4096]),
    }
}

/// A merge that is answered.
pub fn draw(rng: &mut Rng) -> Case {
    let d = 1 + rng.below(DIMENSIONS as u64) as usize;
    let n = count(rng, d);
    draw_of(rng, d, n)
}

/// One of the classes, or any for each track.
fn herd(rng: &mut Rng) -> (&'static str, Option<Draw>) {
    let place = rng.below(HERDS.len() as u64 + 1) as usize;
    HERDS.get(place).map_or(("mixed", None), |(name, draw)| (*name, Some(*draw)))
}

/// A merge that is answered, of tracks that both sides have measured.
pub fn measured(rng: &mut Rng) -> Case {
    let d = 1 + rng.below(DIMENSIONS as u64) as usize;
    let n = count(rng, d);
    measured_of(rng, d, n)
}

/// Such a merge with so many tracks of a dimension.
pub fn measured_of(rng: &mut Rng, d: usize, n: usize) -> Case {
    let (class, draw) = herd(rng);
    let floor = if rng.below(2) == 0 { 1.0 } else { rng.one_of(FLOORS) };
    let within = Within { floor, gate: rng.one_of(MEASURED_GATES) };
    let tracks = three_measured(rng, draw, d, n);
    let room = room(rng, tracks.iter().map(Vec::len).sum());
    Case { class, lists: tracks.each_ref().map(|tracks| listed(tracks, d)), within, room }
}

/// A merge with so many tracks of a dimension in its base.
pub fn draw_of(rng: &mut Rng, d: usize, n: usize) -> Case {
    let (class, draw) = herd(rng);
    let floors = if class == "thin" { THIN_FLOORS } else { FLOORS };
    let mut within = Within { floor: rng.one_of(floors), gate: rng.one_of(GATES) };
    let tracks = three(rng, draw, d, n, within);
    if rng.below(4) == 0 {
        within.gate = gate_between(rng, &tracks, d, within);
    }
    let room = room(rng, tracks.iter().map(Vec::len).sum());
    let lists = tracks.each_ref().map(|tracks| listed(tracks, d));
    Case { class, lists, within, room }
}
