//! The calls that iterate with powers of a matrix: how they are compared, and classes of matrices that they are sensitive to.
use crate::classes::Named;
use crate::ffi;
use crate::matrix::{one_side, square, Call, Never, Part::*};
use crate::rng::Rng;
use crate::symmetric::{covariance, mirrored};
use nolan::flat::at;

pub const ITERATING: &[Call] = &[
    Call {
        name: "mat_eigenvector_max",
        sides: one_side,
        reads: square,
        // The vector, and after it the eigenvalue.
        writes: |s| vec![Slice(s[0]), Number],
        ours: |g, s, out| {
            let [vector, value] = out else { unreachable!("two parts") };
            ffi::mat_eigenvector_max(g.slices[0], s[0], g.max_iter, g.tol, vector, &mut value[0])
        },
        theirs: at::mat_eigenvector_max,
        refuses: &[1, 2],
        never: &[],
    },
    Call {
        name: "mat_largest_singular_value",
        sides: one_side,
        reads: square,
        writes: |_| vec![Number],
        ours: |g, s, out| ffi::mat_largest_singular_value(g.slices[0], s[0], g.max_iter, g.tol, &mut out[0][0]),
        theirs: at::mat_largest_singular_value,
        refuses: &[1, 2],
        never: &[],
    },
    Call {
        name: "condition_number",
        sides: one_side,
        reads: square,
        writes: |_| vec![Number],
        ours: |g, s, out| ffi::condition_number(g.slices[0], s[0], &mut out[0][0]),
        theirs: at::condition_number,
        refuses: &[1, 2],
        never: &[Never::Nan(0), Never::Zero(0)],
    },
    Call {
        name: "tikhonov_with_report",
        sides: one_side,
        reads: square,
        // The matrix, and after it the condition numbers before and after.
        writes: |s| vec![Slice(s[0] * s[0]), Number, Number],
        ours: |g, s, out| {
            let [matrix, before, after] = out else { unreachable!("three parts") };
            ffi::tikhonov_with_report(g.slices[0], g.number, s[0], matrix, (&mut before[0], &mut after[0]))
        },
        theirs: at::tikhonov_with_report,
        refuses: &[1, 2],
        never: &[Never::Nan(1), Never::Zero(1), Never::Nan(2), Never::Zero(2)],
    },
];

/// The most rounds, and the tolerance. The zero matrix ends in its first round, so it may have any limit.
pub fn limits(rng: &mut Rng, m: &[f64]) -> (u32, f64) {
    let max_iter = rng.one_of(&[0, 1, 2, 7, 100, 1000]);
    let tol = rng.one_of(&[1e-14, 1e-6, 0.0, f64::NAN, f64::INFINITY, f64::NEG_INFINITY, -1.0]);
    (if m.iter().all(|x| *x == 0.0) { u32::MAX } else { max_iter }, tol)
}

pub const POWER: &[Named] = &[
    ("two numbers", two_numbers),
    ("multiples of the identity", |rng, n, m| {
        let x = rng.unit();
        diagonal(n, m, |_| x)
    }),
    ("equal row sums", equal_row_sums),
    ("last row of the others", last_row_of_the_others),
    ("nilpotent", |rng, n, m| filled(n, m, |i, j| if i < j { rng.unit() } else { 0.0 })),
    ("negative definite", |rng, n, m| {
        covariance(rng, n, m);
        m.iter_mut().for_each(|x| *x = -*x);
    }),
    ("one dominant axis", one_dominant_axis),
    ("turning", turning),
    ("about to vanish", |rng, n, m| scaled(rng, n, m, &[1e-14, 1e-15, 3e-16, 1e-30, 2e-31])),
    ("tiny", |rng, n, m| scaled(rng, n, m, &[1e-74, 1e-75, 1e-76, 1e-150, 1e-160])),
    ("huge", |rng, n, m| scaled(rng, n, m, &[1e76, 1e77, 1e78, 1e150, 1e160])),
    ("orthogonal", orthogonal),
];

fn filled(n: usize, m: &mut [f64], mut entry: impl FnMut(usize, usize) -> f64) {
    for i in 0..n {
        for j in 0..n {
            m[i * n + j] = entry(i, j);
        }
    }
}

fn diagonal(n: usize, m: &mut [f64], mut entry: impl FnMut(usize) -> f64) {
    filled(n, m, |i, j| if i == j { entry(i) } else { 0.0 });
}

fn scaled(rng: &mut Rng, n: usize, m: &mut [f64], scales: &[f64]) {
    let scale = rng.one_of(scales);
    filled(n, m, |_, _| rng.unit() * scale);
}

/// One number on the diagonal and one elsewhere: the start vector is an eigenvector.
fn two_numbers(rng: &mut Rng, n: usize, m: &mut [f64]) {
    let (a, b) = (rng.unit(), rng.unit());
    filled(n, m, |i, j| if i == j { a } else { b });
}

fn equal_row_sums(rng: &mut Rng, n: usize, m: &mut [f64]) {
    let row: Vec<f64> = (0..n).map(|_| rng.below(9) as f64 - 4.0).collect();
    filled(n, m, |i, j| row[(j + n - i) % n]);
}

fn last_row_of_the_others(rng: &mut Rng, n: usize, m: &mut [f64]) {
    filled(n, m, |_, _| rng.unit());
    for j in 0..n {
        m[(n - 1) * n + j] = (0..n - 1).map(|i| m[i * n + j]).sum();
    }
}

/// A diagonal so uneven that the dominant vector is a unit vector, exactly: that of the first start, or another.
fn one_dominant_axis(rng: &mut Rng, n: usize, m: &mut [f64]) {
    let axis = if rng.below(2) == 0 { 0 } else { rng.below(n as u64) as usize };
    let (large, small) = rng.one_of(&[(1e76, 1e-74), (1e75, 1e-74), (1e10, 1e-10), (1e70, 0.0), (3.0, 1.0)]);
    diagonal(n, m, |i| (1.0 + rng.unit().abs()) * if i == axis { large } else { small });
}

/// Eigenvalues of one size and other signs or directions: the iteration does not settle.
fn turning(rng: &mut Rng, n: usize, m: &mut [f64]) {
    let x = rng.unit();
    filled(n, m, |i, j| if (i + 1) % n == j { x } else { 0.0 });
    if rng.below(2) == 0 {
        mirrored(m, n, |i, j| {
            if i == j {
                0.0
            } else if i + j == n - 1 {
                x
            } else {
                0.0
            }
        });
    }
}

/// A reflection, or a little off one.
fn orthogonal(rng: &mut Rng, n: usize, m: &mut [f64]) {
    let x: Vec<f64> = (0..n).map(|_| rng.unit()).collect();
    let norm: f64 = x.iter().map(|v| v * v).sum();
    let off = rng.one_of(&[0.0, 1e-15, 1e-9]);
    filled(n, m, |i, j| f64::from(u8::from(i == j)) - 2.0 * x[i] * x[j] / norm + off * rng.unit());
}
