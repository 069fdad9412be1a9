//! The second fusion: the rule of the change request that asks for one, over the source's kernel, step by step in its order.
use nolan::linalg::{generic, regularize};

/// The fields of base, ours and theirs.
pub type Three<'a> = [&'a [f64]; 3];

/// Why three tracks are not fused.
#[derive(Clone, Copy, Debug, PartialEq)]
pub enum Unfused {
    /// A covariance of the three has no inverse.
    Covariance(usize),
    /// What they know together has none.
    Information,
    /// Its inverse has no repair.
    Repair,
    /// An entry of the state, or of the covariance, is not finite.
    InfiniteState,
    InfiniteCovariance,
}

/// A fused track.
#[derive(Debug, PartialEq)]
pub struct Fused {
    pub fields: Vec<f64>,
    /// How many eigenvalues the floor has raised.
    pub raised: usize,
}

/// The state of a track, and its whole covariance: the upper triangle mirrors the lower.
pub fn state_and_covariance<const N: usize>(fields: &[f64]) -> ([f64; N], [[f64; N]; N]) {
    let (state, triangle) = fields.split_at(N);
    let mut covariance = [[0.0; N]; N];
    for ((i, j), x) in (0..N).flat_map(|i| (0..=i).map(move |j| (i, j))).zip(triangle) {
        covariance[i][j] = *x;
        covariance[j][i] = *x;
    }
    (state.try_into().unwrap(), covariance)
}

/// The state, and the covariance before its repair.
fn joined<const N: usize>(tracks: Three) -> Result<([f64; N], [[f64; N]; N]), Unfused> {
    let [(xb, pb), (xo, po), (xt, pt)] = tracks.map(state_and_covariance::<N>);
    let inverse = |p, of: usize| generic::mat_inv(p).ok_or(Unfused::Covariance(of));
    let (yb, yo, yt) = (inverse(&pb, 0)?, inverse(&po, 1)?, inverse(&pt, 2)?);
    let [vb, vo, vt] = [(&yb, &xb), (&yo, &xo), (&yt, &xt)].map(|(y, x)| generic::mat_vec_mul(y, x));
    let (mut y, mut v) = ([[0.0; N]; N], [0.0; N]);
    for i in 0..N {
        for j in 0..N {
            y[i][j] = (yo[i][j] + yt[i][j]) - yb[i][j];
        }
        v[i] = (vo[i] + vt[i]) - vb[i];
    }
    let state = generic::mat_solve(&y, &v).ok_or(Unfused::Information)?;
    let inverse = generic::mat_inv(&y).ok_or(Unfused::Information)?;
    Ok((state, generic::mat_symmetrize(&inverse)))
}

fn fused<const N: usize>(tracks: Three, floor: f64) -> Result<Fused, Unfused> {
    let (state, covariance) = joined::<N>(tracks)?;
    let repaired = regularize::nearest_psd(&covariance, floor).map_err(|_| Unfused::Repair)?;
    if !state.iter().all(|x| x.is_finite()) {
        return Err(Unfused::InfiniteState);
    }
    if !repaired.cov.as_flattened().iter().all(|x| x.is_finite()) {
        return Err(Unfused::InfiniteCovariance);
    }
    let mut fields = state.to_vec();
    repaired.cov.iter().enumerate().for_each(|(i, row)| fields.extend(&row[..=i]));
    Ok(Fused { fields, raised: repaired.n_clipped })
}

fn unrepaired_at<const N: usize>(tracks: Three) -> Option<Vec<f64>> {
    joined::<N>(tracks).ok().map(|(_, covariance)| covariance.as_flattened().to_vec())
}

/// The instances of a function, 1 to 16.
macro_rules! orders {
    ($f:ident) => {
        [
            $f::<1>, $f::<2>, $f::<3>, $f::<4>, $f::<5>, $f::<6>, $f::<7>, $f::<8>, $f::<9>, $f::<10>, $f::<11>,
            $f::<12>, $f::<13>, $f::<14>, $f::<15>, $f::<16>,
        ]
    };
}

type Fuse = fn(Three, f64) -> Result<Fused, Unfused>;
type Unrepaired = fn(Three) -> Option<Vec<f64>>;

const FUSIONS: [Fuse; 16] = orders!(fused);
const UNREPAIRED: [Unrepaired; 16] = orders!(unrepaired_at);

/// Fuses three tracks of a dimension, given as their fields.
pub fn fuse(dimension: usize, tracks: Three, floor: f64) -> Result<Fused, Unfused> {
    FUSIONS[dimension - 1](tracks, floor)
}

/// The covariance that the floor is put to, where there is one.
pub fn unrepaired(dimension: usize, tracks: Three) -> Option<Vec<f64>> {
    UNREPAIRED[dimension - 1](tracks)
}
