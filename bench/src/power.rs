//! The calls that iterate, on covariances B Bᵀ, beside the source's functions.
use crate::matrix::{covariances, Case};
use crate::timer::{print, typical};
use nolan::linalg::{generic, regularize};
use oracle::ffi;
use std::hint::black_box;

/// The most rounds, and the tolerance.
const MAX_ITER: u32 = 100;
const TOL: f64 = 1e-10;

/// So many calls in a round.
const CALLS: usize = 4;

/// Times a call beside the source's function, one matrix after the other: how long a call takes depends on its matrix, and a
/// round of all of them would be longer than the time slice of a loaded machine, so that none is timed whole.
fn compare<const N: usize, R>(
    name: &str,
    cases: &[Case<N>],
    mut ours: impl FnMut(&Case<N>) -> u32,
    theirs: impl Fn(&Case<N>) -> R,
) {
    let mut sum = (0.0, 0.0);
    for case in cases {
        let times = typical(
            CALLS,
            || (0..CALLS).for_each(|_| assert!(ours(black_box(case)) == 0, "{name} refused")),
            || {
                (0..CALLS).for_each(|_| {
                    black_box(theirs(black_box(case)));
                })
            },
        );
        sum = (sum.0 + times.0, sum.1 + times.1);
    }
    let count = cases.len() as f64;
    print(&format!("{name} {N}"), (sum.0 / count, sum.1 / count));
}

fn order<const N: usize>() {
    let cases = &covariances::<N>();
    let mut memory = [[0.0; N]; N];
    let matrix = black_box(memory.as_flattened_mut());
    let mut vector = [0.0; N];
    let vector = black_box(&mut vector);
    let mut numbers = [0.0; 2];
    let [number, other] = black_box(&mut numbers);
    compare(
        "mat_eigenvector_max",
        cases,
        |c| ffi::mat_eigenvector_max(c.a.as_flattened(), N, MAX_ITER, TOL, vector, number),
        |c| generic::mat_eigenvector_max(&c.a, MAX_ITER as usize, TOL),
    );
    compare(
        "mat_largest_singular_value",
        cases,
        |c| ffi::mat_largest_singular_value(c.a.as_flattened(), N, MAX_ITER, TOL, number),
        |c| generic::mat_largest_singular_value(&c.a, MAX_ITER as usize, TOL),
    );
    compare(
        "condition_number",
        cases,
        |c| ffi::condition_number(c.a.as_flattened(), N, number),
        |c| generic::condition_number(&c.a),
    );
    compare(
        "tikhonov_with_report",
        cases,
        |c| ffi::tikhonov_with_report(c.a.as_flattened(), 0.5, N, matrix, (number, other)),
        |c| regularize::tikhonov_with_report(&c.a, 0.5),
    );
}

pub fn run() {
    order::<3>();
    order::<6>();
    order::<9>();
    order::<16>();
}
