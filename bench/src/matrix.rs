//! The matrix calls beside the source's functions at one order after the other.
use crate::timer::line;
use nolan::linalg::regularize::{RegularizationError, RegularizationReport};
use nolan::linalg::{generic, mat3, regularize};
use oracle::ffi;
use oracle::rng::Rng;
use std::hint::black_box;

/// So many matrices, one after the other, and so many times.
const MATRICES: usize = 64;
const TIMES: usize = 20;

pub struct Case<const N: usize> {
    pub a: [[f64; N]; N],
    pub b: [[f64; N]; N],
    pub x: [f64; N],
    pub y: [f64; N],
}

/// Symmetric matrices with a heavy diagonal, so that no call refuses.
pub fn cases<const N: usize>() -> Vec<Case<N>> {
    let mut rng = Rng::new(17);
    let mut matrix = || {
        let mut m = [[0.0; N]; N];
        for i in 0..N {
            for j in 0..=i {
                m[i][j] = if i == j { N as f64 + rng.unit() } else { rng.unit() };
                m[j][i] = m[i][j];
            }
        }
        m
    };
    (0..MATRICES).map(|_| Case { a: matrix(), b: matrix(), x: matrix()[0], y: matrix()[0] }).collect()
}

/// Times a call beside the source's function on the same cases.
pub fn compare<const N: usize, R>(
    name: &str,
    cases: &[Case<N>],
    mut ours: impl FnMut(&Case<N>) -> u32,
    theirs: impl Fn(&Case<N>) -> R,
) {
    assert!(cases.iter().all(|case| ours(case) == 0), "{name} refused");
    let round = || (0..TIMES).flat_map(|_| cases);
    line(
        &format!("{name} {N}"),
        TIMES * MATRICES,
        || round().for_each(|case| assert!(ours(black_box(case)) == 0)),
        || {
            round().for_each(|case| {
                black_box(theirs(black_box(case)));
            })
        },
    );
}

fn order<const N: usize>() {
    let cases = &cases::<N>();
    let mut memory = [[0.0; N]; N];
    let matrix = black_box(memory.as_flattened_mut());
    let mut vector = [0.0; N];
    let vector = black_box(&mut vector);
    let mut number = 0.0;
    let number = black_box(&mut number);
    compare(
        "mat_mul",
        cases,
        |c| ffi::mat_mul(c.a.as_flattened(), c.b.as_flattened(), N, N, N, matrix),
        |c| generic::mat_mul(&c.a, &c.b),
    );
    compare("mat_ata", cases, |c| ffi::mat_ata(c.a.as_flattened(), N, N, matrix), |c| generic::mat_ata(&c.a));
    compare(
        "mat_vec_mul",
        cases,
        |c| ffi::mat_vec_mul(c.a.as_flattened(), &c.x, N, vector),
        |c| generic::mat_vec_mul(&c.a, &c.x),
    );
    compare(
        "mat_transpose",
        cases,
        |c| ffi::mat_transpose(c.a.as_flattened(), N, N, matrix),
        |c| generic::mat_transpose(&c.a),
    );
    compare(
        "mat_cholesky",
        cases,
        |c| ffi::mat_cholesky(c.a.as_flattened(), N, matrix),
        |c| generic::mat_cholesky(&c.a),
    );
    compare(
        "mat_symmetrize",
        cases,
        |c| ffi::mat_symmetrize(c.a.as_flattened(), N, matrix),
        |c| generic::mat_symmetrize(&c.a),
    );
    compare("mat_trace", cases, |c| ffi::mat_trace(c.a.as_flattened(), N, number), |c| generic::mat_trace(&c.a));
    compare(
        "mat_trace_product",
        cases,
        |c| ffi::mat_trace_product(c.a.as_flattened(), c.b.as_flattened(), N, number),
        |c| generic::mat_trace_product(&c.a, &c.b),
    );
    compare(
        "mat_trace_cube",
        cases,
        |c| ffi::mat_trace_cube(c.a.as_flattened(), c.b.as_flattened(), N, number),
        |c| generic::mat_trace_cube(&c.a, &c.b),
    );
    compare(
        "mat_frobenius",
        cases,
        |c| ffi::mat_frobenius(c.a.as_flattened(), N, N, number),
        |c| generic::mat_frobenius(&c.a),
    );
    compare(
        "mat_quadratic_form",
        cases,
        |c| ffi::mat_quadratic_form(&c.x, c.a.as_flattened(), N, number),
        |c| generic::mat_quadratic_form(&c.x, &c.a),
    );
    compare("vec_norm", cases, |c| ffi::vec_norm(&c.x, N, number), |c| generic::vec_norm(&c.x));
    compare(
        "mahalanobis_distance_squared_with_inv",
        cases,
        |c| ffi::mahalanobis_distance_squared_with_inv(&c.x, &c.y, c.a.as_flattened(), N, number),
        |c| generic::mahalanobis_distance_squared_with_inv(&c.x, &c.y, &c.a),
    );
    compare(
        "tikhonov",
        cases,
        |c| ffi::tikhonov(c.a.as_flattened(), 0.5, N, matrix),
        |c| regularize::tikhonov(&c.a, 0.5),
    );
    compare(
        "mat_solve",
        cases,
        |c| ffi::mat_solve(c.a.as_flattened(), &c.x, N, vector),
        |c| generic::mat_solve(&c.a, &c.x),
    );
    compare("mat_inv", cases, |c| ffi::mat_inv(c.a.as_flattened(), N, matrix), |c| generic::mat_inv(&c.a));
    compare("mat_det", cases, |c| ffi::mat_det(c.a.as_flattened(), N, number), |c| generic::mat_det(&c.a));
    compare(
        "mahalanobis_distance_squared",
        cases,
        |c| ffi::mahalanobis_distance_squared(&c.x, &c.y, c.a.as_flattened(), N, number),
        |c| generic::mahalanobis_distance_squared(&c.x, &c.y, &c.a),
    );
}

/// Covariances B Bᵀ.
pub fn covariances<const N: usize>() -> Vec<Case<N>> {
    let mut cases = cases::<N>();
    for case in &mut cases {
        case.a = generic::mat_mul(&case.b, &generic::mat_transpose(&case.b));
    }
    cases
}

/// What the source's two functions that rotate are, for one order.
type Eigenpairs<const N: usize> = fn(&[[f64; N]; N]) -> Option<([f64; N], [[f64; N]; N])>;
type Repair<const N: usize> = fn(&[[f64; N]; N], f64) -> Result<RegularizationReport<N>, RegularizationError>;

/// The calls that rotate, on covariances, beside the source's two functions under a remark on how these are called.
fn rotating_beside<const N: usize>(
    remark: &str,
    eigen: impl Fn(&[[f64; N]; N]) -> Option<([f64; N], [[f64; N]; N])>,
    repair: impl Fn(&[[f64; N]; N], f64) -> Result<RegularizationReport<N>, RegularizationError>,
) {
    let cases = covariances::<N>();
    let mut memory = [[0.0; N]; N];
    let matrix = black_box(memory.as_flattened_mut());
    let mut vector = [0.0; N];
    let vector = black_box(&mut vector);
    compare(
        &format!("mat_symmetric_eigen{remark}"),
        &cases,
        |c| ffi::mat_symmetric_eigen(c.a.as_flattened(), N, vector, matrix),
        |c| eigen(&c.a),
    );
    let mut report = ffi::Report { count: 0, clip: 0.0, mask: 0 };
    let report = black_box(&mut report);
    compare(
        &format!("nearest_psd{remark}"),
        &cases,
        |c| ffi::nearest_psd(c.a.as_flattened(), 1.0, N, matrix, report),
        |c| repair(&c.a, 1.0),
    );
}

/// Both sides are called: the compiler does not see which function of the source a pointer leads to.
fn rotating<const N: usize>() {
    let eigen: Eigenpairs<N> = black_box(generic::mat_symmetric_eigen);
    let repair: Repair<N> = black_box(regularize::nearest_psd);
    rotating_beside::<N>("", eigen, repair);
}

/// The source's functions are put where they are used, with the order as a constant.
fn rotating_inlined<const N: usize>() {
    rotating_beside::<N>(", inlined,", generic::mat_symmetric_eigen, regularize::nearest_psd);
}

/// The calls of order 3 alone.
fn order_3() {
    let cases = &cases::<3>();
    let mut matrix = [0.0; 9];
    let matrix = black_box(&mut matrix);
    let mut vector = [0.0; 3];
    let vector = black_box(&mut vector);
    let mut number = 0.0;
    let number = black_box(&mut number);
    compare("mat3_det", cases, |c| ffi::mat3_det(c.a.as_flattened(), number), |c| mat3::mat3_det(&c.a));
    compare("mat3_inv", cases, |c| ffi::mat3_inv(c.a.as_flattened(), matrix), |c| mat3::mat3_inv(&c.a));
    compare(
        "mat3_solve",
        cases,
        |c| ffi::mat3_solve(c.a.as_flattened(), &c.x, vector),
        |c| mat3::mat3_solve(&c.a, &c.x),
    );
}

pub fn run() {
    order::<2>();
    order::<3>();
    order_3();
    order::<6>();
    order::<9>();
    order::<16>();
}

/// The calls that rotate, by themselves.
pub fn run_rotating() {
    rotating::<1>();
    rotating::<2>();
    rotating::<3>();
    rotating::<4>();
    rotating::<6>();
    rotating::<9>();
    rotating::<16>();
    rotating_inlined::<1>();
    rotating_inlined::<2>();
}
