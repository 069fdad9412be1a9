//! Fusions by other rules than the one that is asked for.
use crate::fusing::cases::Case;
use crate::lent::Memory;
use nolan::flat::{at, Given, Theirs};

/// What is done otherwise.
#[derive(Clone, Copy, Debug, PartialEq)]
pub enum Rule {
    /// Base's information is added, or left out: of the matrix, or of the vector.
    BaseAdded,
    BaseAddedToVector,
    BaseLeftOut,
    /// Base's is taken from theirs before ours is added, or from ours before theirs is: another rounding.
    BaseFromTheirs,
    BaseFromOurs,
    /// The state is the inverse times the vector.
    ByInverse,
    NotSymmetrized,
    NotRepaired,
    /// The upper triangle stands for the lower: the two differ in their last digits.
    UpperTriangle,
    /// A covariance, or a state, that is not finite is let in.
    InfiniteCovariance,
    InfiniteState,
    /// A floor that no merge has is taken for one under which nothing is fused.
    FloorRefused,
    /// Where what is known together is not positive, nothing is fused.
    NotPositive,
}

impl Rule {
    pub const ALL: &[Rule] = &[
        Rule::BaseAdded,
        Rule::BaseAddedToVector,
        Rule::BaseLeftOut,
        Rule::BaseFromTheirs,
        Rule::BaseFromOurs,
        Rule::ByInverse,
        Rule::NotSymmetrized,
        Rule::NotRepaired,
        Rule::UpperTriangle,
        Rule::InfiniteCovariance,
        Rule::InfiniteState,
        Rule::FloorRefused,
        Rule::NotPositive,
    ];

    /// What an answered call would leave in its memory under this rule.
    pub fn plant(self, case: &Case, out: &mut dyn Memory, told: &mut dyn Memory) {
        let fields = self.fuse(case);
        let is_finite = |fields: &Vec<f64>| fields.iter().all(|x| x.is_finite());
        let let_in = |fields: &Vec<f64>| {
            let (state, triangle) = fields.split_at(case.side);
            let finite = |x: &f64| x.is_finite();
            match self {
                Rule::InfiniteCovariance => state.iter().all(finite),
                Rule::InfiniteState => triangle.iter().all(finite),
                _ => false,
            }
        };
        let fields = fields.filter(|fields| is_finite(fields) || let_in(fields));
        told.set(0, u64::from(fields.is_some()));
        for place in 0..out.length() {
            let bits = fields.as_ref().map_or(out.before(place as isize), |fields| fields[place].to_bits());
            out.set(place as isize, bits);
        }
    }

    fn sum(self, ours: &[f64], theirs: &[f64], base: &[f64], is_vector: bool) -> Vec<f64> {
        let one = |o: f64, t: f64, b: f64| match self {
            Rule::BaseAdded if !is_vector => (o + t) + b,
            Rule::BaseAddedToVector if is_vector => (o + t) + b,
            Rule::BaseLeftOut => o + t,
            Rule::BaseFromTheirs => o + (t - b),
            Rule::BaseFromOurs => (o - b) + t,
            _ => (o + t) - b,
        };
        (0..base.len()).map(|k| one(ours[k], theirs[k], base[k])).collect()
    }

    /// The fields of the track, finite or not.
    fn fuse(self, case: &Case) -> Option<Vec<f64>> {
        let n = case.side;
        let of = |track: &Vec<f64>| {
            let covariance = whole(&track[n..], n);
            let information = call(at::mat_inv, n, &[&covariance], 0.0, n * n)?;
            let vector = call(at::mat_vec_mul, n, &[&information, &track[..n]], 0.0, n)?;
            Some((information, vector))
        };
        let [(yb, vb), (yo, vo), (yt, vt)] = [of(&case.tracks[0])?, of(&case.tracks[1])?, of(&case.tracks[2])?];
        let (y, v) = (self.sum(&yo, &yt, &yb, false), self.sum(&vo, &vt, &vb, true));
        let solution = call(at::mat_solve, n, &[&y, &v], 0.0, n)?;
        let inverse = call(at::mat_inv, n, &[&y], 0.0, n * n)?;
        let state = if self == Rule::ByInverse { call(at::mat_vec_mul, n, &[&inverse, &v], 0.0, n)? } else { solution };
        let symmetric = call(at::mat_symmetrize, n, &[&inverse], 0.0, n * n)?;
        let before = if self == Rule::NotSymmetrized { &inverse } else { &symmetric };
        let repaired = call(at::nearest_psd, n, &[before], case.floor, n * n + 3)?;
        let covariance = if self == Rule::NotRepaired { before } else { &repaired };
        if self == Rule::FloorRefused && !(case.floor.is_finite() && case.floor > 0.0) {
            return None;
        }
        if self == Rule::NotPositive && call(at::mat_cholesky, n, &[&y], 0.0, n * n).is_none() {
            return None;
        }
        let mut fields = state;
        for i in 0..n {
            let entry =
                |j: usize| if self == Rule::UpperTriangle { covariance[j * n + i] } else { covariance[i * n + j] };
            fields.extend((0..=i).map(entry));
        }
        Some(fields)
    }
}

/// A function of the source at a side: its result, where it has one.
fn call(of: fn(&[usize]) -> Theirs, n: usize, slices: &[&[f64]], number: f64, length: usize) -> Option<Vec<f64>> {
    let mut result = vec![0.0; length];
    (of(&[n])(&Given { slices, number, ..Given::default() }, &mut result) == 0).then_some(result)
}

/// The whole matrix of a lower triangle.
fn whole(triangle: &[f64], n: usize) -> Vec<f64> {
    let at = |i: usize, j: usize| triangle[i * (i + 1) / 2 + j];
    (0..n * n).map(|k| at((k / n).max(k % n), (k / n).min(k % n))).collect()
}
