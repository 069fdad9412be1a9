//! Three tracks that both sides have something to say of: by how their covariances stand to each other.
use super::reference::unrepaired;
use crate::classes::{Named, CLASSES};
use crate::number::special;
use crate::rng::Rng;
use crate::rotating::eigenvalue;
use crate::symmetric::{mirrored, SYMMETRIC};

/// What a fusion is given: the fields of base, ours and theirs, and how many fields it may write.
#[derive(Clone)]
pub struct Case {
    pub class: &'static str,
    pub side: usize,
    pub tracks: [Vec<f64>; 3],
    pub floor: f64,
    pub room: usize,
}

impl Case {
    pub fn slices(&self) -> [&[f64]; 3] {
        [&self.tracks[0], &self.tracks[1], &self.tracks[2]]
    }

    /// Ours for theirs, and theirs for ours.
    pub fn exchanged(&self) -> Case {
        let [base, ours, theirs] = self.tracks.clone();
        Case { tracks: [base, theirs, ours], ..self.clone() }
    }
}

/// How many fields a track has; a side that no track has may have too many to count.
pub fn fields(side: usize) -> usize {
    side.saturating_mul(side.saturating_add(3)) / 2
}

/// The covariances of base, ours and theirs, of which only the lower triangle counts.
type Covariances = [Vec<f64>; 3];

/// How the covariances of a class are drawn, at a side.
type Draw = fn(&mut Rng, usize) -> Covariances;

/// Those that are made for the fusion.
pub const RELATED: &[(&str, Draw)] = &[
    ("both sides better", |rng, n| by_factors(rng, n, |rng| 0.05 + 0.9 * share(rng))),
    ("better by places", |rng, n| by_places(rng, n, 0.2, 1.0)),
    ("drawn apart", |rng, n| [0, 1, 2].map(|_| definite(rng, n))),
    ("all equal", |rng, n| by_factors(rng, n, |_| 1.0)),
    ("one side as base", one_side),
    ("better here, worse there", |rng, n| by_places(rng, n, 0.3, 3.0)),
    ("both sides worse", |rng, n| by_factors(rng, n, |rng| 2.5 + 10.0 * share(rng))),
    ("no information", |rng, n| by_factors(rng, n, |_| 2.0)),
    ("next to no information", next_to_none),
    ("no information at a place", none_at_a_place),
    ("rank one", |rng, n| with_one(rng, n, |rng, n, m| (SYMMETRIC[4].1)(rng, n, m))),
    ("a zero row", |rng, n| with_one(rng, n, zero_row)),
    ("all zero", |_, n| [0, 1, 2].map(|_| vec![0.0; n * n])),
    ("of one size, tiny or huge", |rng, n| {
        let scale = any_scale(rng);
        scaled(rng, n, [scale; 3])
    }),
    ("of three sizes", |rng, n| {
        let scales = [0, 1, 2].map(|_| any_scale(rng));
        scaled(rng, n, scales)
    }),
    ("of a size at each place", of_a_size_at_each_place),
    ("a special entry", a_special_entry),
    ("about the greatest number", about_the_greatest),
];

/// From 0 to 1.
fn share(rng: &mut Rng) -> f64 {
    rng.unit() * 0.5 + 0.5
}

/// A heavy diagonal, so that the matrix is definite; at times the diagonal alone.
fn definite(rng: &mut Rng, n: usize) -> Vec<f64> {
    let mut m = vec![0.0; n * n];
    let off = rng.one_of(&[0.0, 0.5, 0.5, 0.5]);
    mirrored(&mut m, n, |i, j| if i == j { n as f64 * 0.5 + 1.0 + rng.unit() } else { off * rng.unit() });
    m
}

fn times(m: &[f64], factor: f64) -> Vec<f64> {
    m.iter().map(|x| x * factor).collect()
}

/// Each side's covariance is a multiple of base's.
fn by_factors(rng: &mut Rng, n: usize, factor: fn(&mut Rng) -> f64) -> Covariances {
    let base = definite(rng, n);
    let [ours, theirs] = [0, 1].map(|_| times(&base, factor(rng)));
    [base, ours, theirs]
}

/// Each side has another scale at each place, between two numbers.
fn by_places(rng: &mut Rng, n: usize, from: f64, to: f64) -> Covariances {
    let base = definite(rng, n);
    let [ours, theirs] = [0, 1].map(|_| {
        let scale: Vec<f64> = (0..n).map(|_| from + (to - from) * share(rng)).collect();
        (0..n * n).map(|at| base[at] * scale[at / n] * scale[at % n]).collect()
    });
    [base, ours, theirs]
}

/// One side's covariance is base's, or nearly.
fn one_side(rng: &mut Rng, n: usize) -> Covariances {
    let (base, other) = (definite(rng, n), definite(rng, n));
    let near = base.iter().map(|x| x * rng.one_of(&[1.0, 1.0 + f64::EPSILON])).collect();
    if rng.below(2) == 0 {
        [base, near, other]
    } else {
        [base, other, near]
    }
}

/// Twice base's, but for the last digits.
fn next_to_none(rng: &mut Rng, n: usize) -> Covariances {
    by_factors(rng, n, |rng| 2.0 * (1.0 + rng.unit() * f64::powi(10.0, -9 - rng.below(8) as i32)))
}

/// Diagonal ones, twice base's at one place on both sides, and better elsewhere.
fn none_at_a_place(rng: &mut Rng, n: usize) -> Covariances {
    let mut base = vec![0.0; n * n];
    mirrored(&mut base, n, |i, j| if i == j { 1.5 + rng.unit() } else { 0.0 });
    let at = rng.below(n as u64) as usize * (n + 1);
    let [ours, theirs] = [0, 1].map(|_| {
        let mut side = times(&base, 0.25 + 0.5 * share(rng));
        side[at] = 2.0 * base[at];
        side
    });
    [base, ours, theirs]
}

/// Definite ones, of which one is of another class, or all are.
fn with_one(rng: &mut Rng, n: usize, fill: fn(&mut Rng, usize, &mut [f64])) -> Covariances {
    let which = rng.below(4) as usize;
    [0, 1, 2].map(|of| {
        let mut m = definite(rng, n);
        if which == of || which == 3 {
            fill(rng, n, &mut m);
        }
        m
    })
}

fn zero_row(rng: &mut Rng, n: usize, m: &mut [f64]) {
    let row = rng.below(n as u64) as usize;
    let zero = rng.one_of(&[0.0, -0.0]);
    for k in 0..n {
        m[row * n + k] = zero;
        m[k * n + row] = zero;
    }
}

/// About the least scale that counts and its inverse, and far beyond.
fn any_scale(rng: &mut Rng) -> f64 {
    rng.one_of(&[1e-300, 1e-152, 1e-150, 1e-148, 1e-100, 1e-10, 1.0, 1e10, 1e100, 1e148, 1e149, 1e150, 1e152, 1e300])
}

fn scaled(rng: &mut Rng, n: usize, scales: [f64; 3]) -> Covariances {
    scales.map(|scale| times(&definite(rng, n), scale))
}

/// The places' sizes are those of all three, and far apart.
fn of_a_size_at_each_place(rng: &mut Rng, n: usize) -> Covariances {
    let most = rng.one_of(&[3, 40, 74, 150]);
    let size: Vec<f64> = (0..n).map(|_| f64::powi(10.0, rng.below(2 * most + 1) as i32 - most as i32)).collect();
    [0, 1, 2].map(|_| {
        let m = definite(rng, n);
        (0..n * n).map(|at| m[at] * size[at / n] * size[at % n]).collect()
    })
}

/// A NaN, an infinity or another special number stands in the lower triangle of one of them.
fn a_special_entry(rng: &mut Rng, n: usize) -> Covariances {
    let mut all = [0, 1, 2].map(|_| definite(rng, n));
    let row = rng.below(n as u64) as usize;
    let at = row * n + rng.below(row as u64 + 1) as usize;
    let entry = if rng.below(2) == 0 {
        rng.one_of(&special())
    } else {
        rng.one_of(&[f64::NAN, f64::INFINITY, f64::NEG_INFINITY])
    };
    all[rng.below(3) as usize][at] = entry;
    all
}

/// What is known together is s on the diagonal from corner to corner below the longest, and s e on the longest, without a rounding: each
/// pivot is just large enough, and the inverse's first entry is 1 / (s eⁿ), from 13 places on about the greatest number or past it.
/// All are powers of two: ours knows the longest diagonal, theirs the one below and m on the main diagonal, and base m.
fn about_the_greatest(rng: &mut Rng, n: usize) -> Covariances {
    // A row that counts has a norm from 2 to the -498 on, and a pivot counts that is from 2 to the -46 of it on.
    let e = (526usize.div_ceil(n.max(2) - 1)).min(46);
    let past = rng.one_of(&[-1, 0, 0, 0, 1, 3]);
    let s = if n >= 13 { 1023 - (e * n) as i32 + past } else { 498 - e as i32 };
    let [s, se] = [-s, -s - e as i32].map(|power| f64::powi(2.0, power));
    let [mut base, mut ours, mut theirs] = [0, 1, 2].map(|_| vec![0.0; n * n]);
    for i in 0..n {
        ours[i * n + (n - 1 - i)] = 1.0 / se;
        let facing = if i == 0 { 0 } else { n - i };
        base[i * n + i] = if i > facing { 0.5 / s } else { 1.0 / s };
        theirs[i * n + i] = match i {
            0 => 1.0 / s,
            _ if i == facing => 0.5 / s,
            _ if i < facing => 2.0 / s,
            _ => 1.0 / s,
        };
        if i != facing {
            theirs[i * n + facing] = -1.0 / s;
        }
    }
    [base, ours, theirs]
}

/// The classes of all matrix calls, symmetric ones among them: three of one class, or one with two multiples of it.
pub fn classes() -> Vec<Named> {
    [CLASSES, SYMMETRIC].concat()
}

fn of_class(rng: &mut Rng, class: &Named, n: usize) -> Covariances {
    let mut all = [0, 1, 2].map(|_| vec![0.0; n * n]);
    all.iter_mut().for_each(|m| (class.1)(rng, n, m));
    let [base, ours, theirs] = &mut all;
    if rng.below(3) == 0 {
        *ours = times(base, rng.one_of(&[0.5, 0.7, 2.0, 3.0]));
        *theirs = times(base, rng.one_of(&[0.5, 0.3, 2.0, 5.0]));
    }
    all
}

/// States that are equal, near, far apart, zeros of either sign, so large that products overflow, or no numbers.
fn states(rng: &mut Rng, n: usize) -> [Vec<f64>; 3] {
    let kind = rng.below(16);
    let scale = rng.one_of(&[1.0, 1.0, 10.0, 1e-5, 1e5, 1e150]);
    let base: Vec<f64> = (0..n).map(|_| rng.unit() * scale).collect();
    let mut side = |x: &f64| match kind {
        0 => *x,
        1 => rng.one_of(&[0.0, -0.0]),
        2 => rng.one_of(&[1e308, -1e308, f64::MAX, f64::MIN, 0.0]),
        3 => rng.one_of(&[f64::INFINITY, f64::NEG_INFINITY, f64::NAN, 1.0, 0.0]),
        4 => rng.one_of(&[5e-324, -5e-324, 1e-310, 0.0]),
        5..=9 => x + rng.unit() * scale * 1e-3,
        _ => rng.unit() * scale,
    };
    let [ours, theirs] = [0, 1].map(|_| base.iter().map(&mut side).collect());
    let base = if kind == 1 { base.iter().map(side).collect() } else { base };
    [base, ours, theirs]
}

/// A track's fields.
fn track(state: &[f64], covariance: &[f64]) -> Vec<f64> {
    let n = state.len();
    let mut fields = state.to_vec();
    (0..n).for_each(|i| fields.extend(&covariance[i * n..=i * n + i]));
    fields
}

const FLOORS: &[f64] = &[5e-324, 1e-300, 1e-160, 1e-150, 1e-12, 1e-6, 0.1, 1.0, 1e6, 1e150, 1e300];

/// Floors that no merge has, and those that a sum of squares takes past the greatest number.
const ODD_FLOORS: &[f64] =
    &[f64::NAN, f64::INFINITY, f64::NEG_INFINITY, 0.0, -0.0, -5e-324, -1.0, -1e300, f64::MAX, f64::MIN];

/// One of those above, or an eigenvalue of what it is put to, and its neighbours.
fn floor(rng: &mut Rng, n: usize, tracks: &[Vec<f64>; 3]) -> f64 {
    let turn = rng.below(12);
    match turn {
        0..=2 => rng.one_of(&[1e-12, 1e-6, 1.0]),
        3 => rng.one_of(ODD_FLOORS),
        4..=6 => {
            let beside = [|x| x, f64::next_up, f64::next_down][turn as usize - 4];
            let covariance = unrepaired(n, [&tracks[0], &tracks[1], &tracks[2]]);
            covariance.and_then(|covariance| eigenvalue(rng, n, &covariance)).map_or(1.0, beside)
        }
        _ => rng.one_of(FLOORS),
    }
}

fn case(rng: &mut Rng, class: &'static str, n: usize, covariances: Covariances) -> Case {
    let states = states(rng, n);
    let tracks = [0, 1, 2].map(|of| track(&states[of], &covariances[of]));
    let floor = floor(rng, n, &tracks);
    Case { class, side: n, tracks, floor, room: fields(n) }
}

/// Three tracks of a class that is made for the fusion.
pub fn related(rng: &mut Rng, class: usize, n: usize) -> Case {
    let (name, draw) = RELATED[class];
    let covariances = draw(rng, n);
    case(rng, name, n, covariances)
}

/// Three tracks whose covariances are of a class of all matrix calls.
pub fn any(rng: &mut Rng, class: &Named, n: usize) -> Case {
    let covariances = of_class(rng, class, n);
    case(rng, class.0, n, covariances)
}

/// Sides and lengths that are refused, with the question, each length by itself; at times with entries and a floor that are no numbers.
pub fn refused(rng: &mut Rng, n: usize) -> Vec<(Case, u32)> {
    let whole = |rng: &mut Rng| {
        let class = rng.below(RELATED.len() as u64) as usize;
        let mut case = related(rng, class, n);
        case.class = "refused";
        if rng.below(2) == 0 {
            case.floor = f64::NAN;
            case.tracks.iter_mut().flatten().for_each(|x| *x = f64::NAN);
        }
        case
    };
    let mut all = Vec::new();
    for side in [0, 17, 18, 32, 1 << 32, usize::MAX] {
        let case = Case { side, ..whole(rng) };
        all.push((case.clone(), 1));
        if side <= 32 {
            // Lengths that would be right for such a side.
            let tracks = case.tracks.clone().map(|mut track| {
                track.resize(fields(side), 1.0);
                track
            });
            all.push((Case { tracks, room: fields(side), ..case }, 1));
        }
    }
    for slice in 0..4 {
        for other in [-1, 1, 16, -(fields(n) as isize)] {
            let mut case = whole(rng);
            let length = fields(n).saturating_add_signed(other);
            match case.tracks.get_mut(slice) {
                Some(track) => track.resize(length, 1.0),
                None => case.room = length,
            }
            all.push((case, 2));
        }
    }
    all
}
