//! Classes of matrices that the eigensolver is sensitive to, beside those of all calls: symmetric ones, and some that are not quite.
use crate::classes::Named;
use crate::rng::Rng;

pub const SYMMETRIC: &[Named] = &[
    ("symmetric", |rng, n, m| mirrored(m, n, |_, _| rng.unit())),
    ("covariance", covariance),
    ("diagonal", |rng, n, m| mirrored(m, n, |i, j| if i == j { rng.unit() } else { 0.0 })),
    ("nearly diagonal", nearly_diagonal),
    ("rank one", rank_one),
    ("repeated eigenvalues", repeated),
    ("blocks", blocks),
    ("squares overflow", |rng, n, m| scaled(rng, n, m, &[1e153, 1e154, 1e155, 1e307])),
    ("squares underflow", |rng, n, m| scaled(rng, n, m, &[1e-160, 1e-161, 1e-162, 1e-170])),
    ("steep angles", steep),
    ("nearly symmetric", nearly_symmetric),
    ("sums overflow", |rng, n, m| {
        mirrored(m, n, |_, _| rng.one_of(&[1.0, 1.0, -1.0]) * (1.0 + rng.unit().abs() * 0.7) * 1e308)
    }),
];

/// Fills a square matrix from its entries on and below the diagonal.
pub fn mirrored(m: &mut [f64], n: usize, mut entry: impl FnMut(usize, usize) -> f64) {
    for i in 0..n {
        for j in 0..=i {
            let x = entry(i, j);
            m[i * n + j] = x;
            m[j * n + i] = x;
        }
    }
}

/// B Bᵀ, at any scale.
pub fn covariance(rng: &mut Rng, n: usize, m: &mut [f64]) {
    let scale = f64::powi(10.0, rng.below(13) as i32 - 6);
    let b: Vec<f64> = (0..n * n).map(|_| rng.unit() * scale).collect();
    mirrored(m, n, |i, j| (0..n).map(|k| b[i * n + k] * b[j * n + k]).sum());
}

/// Off the diagonal 1e-16 to 1e-8 of the diagonal.
fn nearly_diagonal(rng: &mut Rng, n: usize, m: &mut [f64]) {
    let small = f64::powi(10.0, -8 - rng.below(9) as i32);
    mirrored(m, n, |i, j| if i == j { 1.0 + rng.unit() } else { rng.unit() * small });
}

fn rank_one(rng: &mut Rng, n: usize, m: &mut [f64]) {
    let x: Vec<f64> = (0..n).map(|_| rng.unit()).collect();
    mirrored(m, n, |i, j| x[i] * x[j]);
}

/// A few whole numbers on the diagonal, turned by one reflection.
fn repeated(rng: &mut Rng, n: usize, m: &mut [f64]) {
    let d: Vec<f64> = (0..n).map(|_| rng.below(3) as f64 - 1.0).collect();
    let x: Vec<f64> = (0..n).map(|_| rng.unit()).collect();
    let norm: f64 = x.iter().map(|v| v * v).sum();
    let h = |i: usize, j: usize| f64::from(u8::from(i == j)) - 2.0 * x[i] * x[j] / norm;
    mirrored(m, n, |i, j| (0..n).map(|k| h(i, k) * d[k] * h(j, k)).sum());
}

/// Entries within blocks of two or three rows, 0 elsewhere.
fn blocks(rng: &mut Rng, n: usize, m: &mut [f64]) {
    let width = 2 + rng.below(2) as usize;
    mirrored(m, n, |i, j| if i / width == j / width { rng.unit() } else { 0.0 });
}

fn scaled(rng: &mut Rng, n: usize, m: &mut [f64], scales: &[f64]) {
    let scale = rng.one_of(scales);
    mirrored(m, n, |_, _| rng.unit() * scale);
}

/// Entries off the diagonal so small, or differences on it so large, that theta passes 1e150.
fn steep(rng: &mut Rng, n: usize, m: &mut [f64]) {
    mirrored(m, n, |i, j| {
        if i == j {
            rng.one_of(&[0.0, 1e-300, 1e10, -1e150, 1e300])
        } else {
            rng.unit() * rng.one_of(&[1e-310, 1e-160, 1e-150, 1.0, 1e140])
        }
    });
}

/// Facing entries that differ in their last digits.
fn nearly_symmetric(rng: &mut Rng, n: usize, m: &mut [f64]) {
    mirrored(m, n, |_, _| rng.unit());
    for x in m.iter_mut() {
        *x *= 1.0 + (rng.below(5) as f64 - 2.0) * f64::EPSILON;
    }
}
