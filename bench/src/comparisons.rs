//! A comparison of two tracks beside the source's functions, composed the same way.
use crate::matrix::{cases, compare, Case};
use nolan::linalg::{generic, regularize};
use oracle::ffi;
use std::hint::black_box;

const FLOOR: f64 = 1e-6;
const GATE: f64 = 16.0;

/// Near with d², far with d², or no distance.
#[allow(dead_code)]
enum Comparison {
    Near(f64),
    Far(f64),
    NoDistance,
}

/// The states x and y with the covariances a and b.
fn theirs<const N: usize>(c: &Case<N>) -> Comparison {
    let mut sum = [[0.0; N]; N];
    for i in 0..N {
        for j in 0..N {
            sum[i][j] = c.a[i][j] + c.b[i][j];
        }
    }
    let Ok(repaired) = regularize::nearest_psd(&sum, FLOOR) else {
        return Comparison::NoDistance;
    };
    match generic::mahalanobis_distance_squared(&c.y, &c.x, &repaired.cov) {
        Some(d2) if d2.is_finite() && (0.0..=GATE).contains(&d2) => Comparison::Near(d2),
        Some(d2) if d2.is_finite() && d2 >= 0.0 => Comparison::Far(d2),
        _ => Comparison::NoDistance,
    }
}

/// Covariances B Bᵀ and Bᵀ B.
fn order<const N: usize>() {
    let mut cases = cases::<N>();
    for case in &mut cases {
        let transposed = generic::mat_transpose(&case.b);
        case.a = generic::mat_mul(&case.b, &transposed);
        case.b = generic::mat_mul(&transposed, &case.b);
    }
    let (mut kind, mut d2) = (0, 0.0);
    let (kind, d2) = black_box((&mut kind, &mut d2));
    compare(
        "compare",
        &cases,
        |c| ffi::compare([&c.x, c.a.as_flattened()], [&c.y, c.b.as_flattened()], N, (FLOOR, GATE), kind, d2),
        theirs,
    );
}

pub fn run() {
    order::<1>();
    order::<2>();
    order::<3>();
    order::<4>();
    order::<6>();
    order::<9>();
    order::<16>();
}
