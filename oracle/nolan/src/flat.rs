//! The source's functions on flat slices, row by row: each at all its sides, as a table of its instances.
use crate::linalg::{generic, mat3, regularize, NOLAN_MIN_SCALE};

/// What a call is lent to read: its slices, the one number that some calls take, and the limits of those that iterate.
#[derive(Default)]
pub struct Given<'a> {
    pub slices: &'a [&'a [f64]],
    pub number: f64,
    pub max_iter: u32,
    pub tol: f64,
}

/// A function of the source at one order: 0 and the result, or the number of the question that its `None` stands for.
pub type Theirs = fn(&Given, &mut [f64]) -> u32;

fn matrix<const M: usize, const N: usize>(s: &[f64]) -> &[[f64; N]; M] {
    s.as_chunks::<N>().0.try_into().unwrap()
}

fn vector<const N: usize>(s: &[f64]) -> &[f64; N] {
    s.try_into().unwrap()
}

fn answer(out: &mut [f64], result: &[f64]) -> u32 {
    out.copy_from_slice(result);
    0
}

/// The source's functions on flat slices: `theirs!(name <sides> (given) = number or slice of results)`.
macro_rules! theirs {
    ($name:ident <$($side:ident),*> $given:ident => $result:expr) => {
        fn $name<$(const $side: usize),*>($given: &Given, out: &mut [f64]) -> u32 {
            answer(out, $result.as_flattened())
        }
    };
}

theirs!(mul<M, K, N> g => generic::mat_mul::<M, K, N>(matrix(g.slices[0]), matrix(g.slices[1])));
theirs!(square_mul<N> g => generic::mat_mul::<N, N, N>(matrix(g.slices[0]), matrix(g.slices[1])));
theirs!(transpose<M, N> g => generic::mat_transpose::<M, N>(matrix(g.slices[0])));
theirs!(ata<M, N> g => generic::mat_ata::<M, N>(matrix(g.slices[0])));
theirs!(frobenius<M, N> g => [[generic::mat_frobenius::<M, N>(matrix(g.slices[0]))]]);
theirs!(symmetrize<N> g => generic::mat_symmetrize::<f64, N>(matrix(g.slices[0])));
theirs!(trace<N> g => [[generic::mat_trace::<N>(matrix(g.slices[0]))]]);
theirs!(trace_product<N> g => [[generic::mat_trace_product::<N>(matrix(g.slices[0]), matrix(g.slices[1]))]]);
theirs!(trace_cube<N> g => [[generic::mat_trace_cube::<N>(matrix(g.slices[0]), matrix(g.slices[1]))]]);
theirs!(vec_mul<N> g => [generic::mat_vec_mul::<N>(matrix(g.slices[0]), vector(g.slices[1]))]);
theirs!(quadratic_form<N> g => [[generic::mat_quadratic_form::<f64, N>(vector(g.slices[0]), matrix(g.slices[1]))]]);
theirs!(norm<N> g => [[generic::vec_norm::<N>(vector(g.slices[0]))]]);
theirs!(with_inv<N> g => [[generic::mahalanobis_distance_squared_with_inv::<N>(
    vector(g.slices[0]),
    vector(g.slices[1]),
    matrix(g.slices[2]),
)]]);
theirs!(damped<N> g => regularize::tikhonov::<N>(matrix(g.slices[0]), g.number));
theirs!(det3<> g => [[mat3::mat3_det(matrix(g.slices[0]))]]);

fn cholesky<const N: usize>(g: &Given, out: &mut [f64]) -> u32 {
    generic::mat_cholesky::<N>(matrix(g.slices[0])).map_or(7, |l| answer(out, l.as_flattened()))
}

/// The question that a `None` of the solvers stands for: 5 where no row has a norm to divide by, or else 6.
fn unsolved<const N: usize>(a: &[f64]) -> u32 {
    let small = generic::row_inf_norms::<f64, N>(matrix(a)).iter().all(|norm| *norm < NOLAN_MIN_SCALE);
    if small {
        5
    } else {
        6
    }
}

/// The eigenvalues, and after them the vectors.
fn eigen<const N: usize>(g: &Given, out: &mut [f64]) -> u32 {
    generic::mat_symmetric_eigen::<N>(matrix(g.slices[0])).map_or(4, |(values, vectors)| {
        let (front, rest) = out.split_at_mut(N);
        front.copy_from_slice(&values);
        answer(rest, vectors.as_flattened())
    })
}

type Repaired<const N: usize> = Result<regularize::RegularizationReport<N>, regularize::RegularizationError>;

/// The matrix, and after it the clip count, the largest clip and the mask as a number, bit k for eigenvalue k.
fn repaired<const N: usize>(repaired: Repaired<N>, out: &mut [f64]) -> u32 {
    match repaired {
        Err(regularize::RegularizationError::NonFiniteInput) => 3,
        Err(regularize::RegularizationError::EigendecompositionFailed) => 4,
        Ok(report) => {
            let (front, rest) = out.split_at_mut(N * N);
            let bits: u32 =
                report.clipped_indices.iter().enumerate().map(|(k, clipped)| u32::from(*clipped) << k).sum();
            rest.copy_from_slice(&[report.n_clipped as f64, report.max_clip_magnitude, f64::from(bits)]);
            answer(front, report.cov.as_flattened())
        }
    }
}

fn psd<const N: usize>(g: &Given, out: &mut [f64]) -> u32 {
    repaired(regularize::nearest_psd::<N>(matrix(g.slices[0]), g.number), out)
}

fn raised<const N: usize>(g: &Given, out: &mut [f64]) -> u32 {
    repaired(regularize::eigenvalue_floor::<N>(matrix(g.slices[0]), g.number), out)
}

/// The vector, and after it the eigenvalue.
fn eigenvector_max<const N: usize>(g: &Given, out: &mut [f64]) -> u32 {
    let (vector, value) = generic::mat_eigenvector_max::<N>(matrix(g.slices[0]), g.max_iter as usize, g.tol);
    let (front, rest) = out.split_at_mut(N);
    rest[0] = value;
    answer(front, &vector)
}

/// The matrix, and after it the condition numbers before and after.
fn damping<const N: usize>(g: &Given, out: &mut [f64]) -> u32 {
    let report = regularize::tikhonov_with_report::<N>(matrix(g.slices[0]), g.number);
    let (front, rest) = out.split_at_mut(N * N);
    rest.copy_from_slice(&[report.condition_number_before, report.condition_number_after]);
    answer(front, report.cov.as_flattened())
}

theirs!(singular_value<N> g => [[generic::mat_largest_singular_value::<N>(
    matrix(g.slices[0]),
    g.max_iter as usize,
    g.tol,
)]]);
theirs!(condition<N> g => [[generic::condition_number::<N>(matrix(g.slices[0]))]]);
theirs!(norms<N> g => [generic::row_inf_norms::<f64, N>(matrix(g.slices[0]))]);
theirs!(det<N> g => [[generic::mat_det::<N>(matrix(g.slices[0]))]]);

fn solve<const N: usize>(g: &Given, out: &mut [f64]) -> u32 {
    let x = generic::mat_solve::<f64, N>(matrix(g.slices[0]), vector(g.slices[1]));
    x.map_or_else(|| unsolved::<N>(g.slices[0]), |x| answer(out, &x))
}

fn inv<const N: usize>(g: &Given, out: &mut [f64]) -> u32 {
    let m = generic::mat_inv::<f64, N>(matrix(g.slices[0]));
    m.map_or_else(|| unsolved::<N>(g.slices[0]), |m| answer(out, m.as_flattened()))
}

fn distance<const N: usize>(g: &Given, out: &mut [f64]) -> u32 {
    let d = generic::mahalanobis_distance_squared::<N>(vector(g.slices[0]), vector(g.slices[1]), matrix(g.slices[2]));
    d.map_or_else(|| unsolved::<N>(g.slices[2]), |d| answer(out, &[d]))
}

/// The squared distance of two tracks, with the states and then the covariances of i and j, under the repaired sum; the number is the floor.
fn joint<const N: usize>(g: &Given, out: &mut [f64]) -> u32 {
    let sum: Vec<f64> = g.slices[2].iter().zip(g.slices[3]).map(|(a, b)| a + b).collect();
    match regularize::nearest_psd::<N>(matrix(&sum), g.number) {
        Err(regularize::RegularizationError::NonFiniteInput) => 3,
        Err(regularize::RegularizationError::EigendecompositionFailed) => 4,
        Ok(repaired) => {
            let cov = repaired.cov.as_flattened();
            distance::<N>(&Given { slices: &[g.slices[1], g.slices[0], cov], number: 0.0, ..Given::default() }, out)
        }
    }
}

fn inv3(g: &Given, out: &mut [f64]) -> u32 {
    mat3::mat3_inv(matrix(g.slices[0])).map_or(8, |m| answer(out, m.as_flattened()))
}

fn solve3(g: &Given, out: &mut [f64]) -> u32 {
    mat3::mat3_solve(matrix(g.slices[0]), vector(g.slices[1])).map_or(8, |x| answer(out, &x))
}

/// The instances of a function of one side, 1 to 16.
macro_rules! orders {
    ($f:ident $(, $before:literal)*) => {
        [
            $f::<$($before,)* 1>, $f::<$($before,)* 2>, $f::<$($before,)* 3>, $f::<$($before,)* 4>,
            $f::<$($before,)* 5>, $f::<$($before,)* 6>, $f::<$($before,)* 7>, $f::<$($before,)* 8>,
            $f::<$($before,)* 9>, $f::<$($before,)* 10>, $f::<$($before,)* 11>, $f::<$($before,)* 12>,
            $f::<$($before,)* 13>, $f::<$($before,)* 14>, $f::<$($before,)* 15>, $f::<$($before,)* 16>,
        ] as [Theirs; 16]
    };
}

/// Those of a function of two sides, 1 to 16 each.
macro_rules! pairs {
    ($f:ident) => {
        [
            orders!($f, 1),
            orders!($f, 2),
            orders!($f, 3),
            orders!($f, 4),
            orders!($f, 5),
            orders!($f, 6),
            orders!($f, 7),
            orders!($f, 8),
            orders!($f, 9),
            orders!($f, 10),
            orders!($f, 11),
            orders!($f, 12),
            orders!($f, 13),
            orders!($f, 14),
            orders!($f, 15),
            orders!($f, 16),
        ] as [[Theirs; 16]; 16]
    };
}

/// The sides of a product that is not square: instances of all 4,096 triples would take minutes to build.
pub static PRODUCT_SIDES: [usize; 8] = [1, 2, 3, 4, 6, 9, 13, 16];

macro_rules! product_row {
    ($f:ident, $m:literal, $k:literal) => {
        [
            $f::<$m, $k, 1>,
            $f::<$m, $k, 2>,
            $f::<$m, $k, 3>,
            $f::<$m, $k, 4>,
            $f::<$m, $k, 6>,
            $f::<$m, $k, 9>,
            $f::<$m, $k, 13>,
            $f::<$m, $k, 16>,
        ] as [Theirs; 8]
    };
}

macro_rules! product_table {
    ($f:ident, $m:literal) => {
        [
            product_row!($f, $m, 1),
            product_row!($f, $m, 2),
            product_row!($f, $m, 3),
            product_row!($f, $m, 4),
            product_row!($f, $m, 6),
            product_row!($f, $m, 9),
            product_row!($f, $m, 13),
            product_row!($f, $m, 16),
        ] as [[Theirs; 8]; 8]
    };
}

static PRODUCTS: [[[Theirs; 8]; 8]; 8] = [
    product_table!(mul, 1),
    product_table!(mul, 2),
    product_table!(mul, 3),
    product_table!(mul, 4),
    product_table!(mul, 6),
    product_table!(mul, 9),
    product_table!(mul, 13),
    product_table!(mul, 16),
];
static TRANSPOSES: [[Theirs; 16]; 16] = pairs!(transpose);
static ATAS: [[Theirs; 16]; 16] = pairs!(ata);
static FROBENIUSES: [[Theirs; 16]; 16] = pairs!(frobenius);

/// The instance of each function at the given sides.
pub mod at {
    use super::*;

    pub fn mat_mul(s: &[usize]) -> Theirs {
        if s[0] == s[1] && s[1] == s[2] {
            return orders!(square_mul)[s[0] - 1];
        }
        let place = |side: usize| PRODUCT_SIDES.iter().position(|p| *p == side).unwrap();
        PRODUCTS[place(s[0])][place(s[1])][place(s[2])]
    }

    pub fn mat_transpose(s: &[usize]) -> Theirs {
        TRANSPOSES[s[0] - 1][s[1] - 1]
    }

    pub fn mat_ata(s: &[usize]) -> Theirs {
        ATAS[s[0] - 1][s[1] - 1]
    }

    pub fn mat_frobenius(s: &[usize]) -> Theirs {
        FROBENIUSES[s[0] - 1][s[1] - 1]
    }

    pub fn mat_symmetrize(s: &[usize]) -> Theirs {
        orders!(symmetrize)[s[0] - 1]
    }

    pub fn mat_trace(s: &[usize]) -> Theirs {
        orders!(trace)[s[0] - 1]
    }

    pub fn mat_trace_product(s: &[usize]) -> Theirs {
        orders!(trace_product)[s[0] - 1]
    }

    pub fn mat_trace_cube(s: &[usize]) -> Theirs {
        orders!(trace_cube)[s[0] - 1]
    }

    pub fn mat_vec_mul(s: &[usize]) -> Theirs {
        orders!(vec_mul)[s[0] - 1]
    }

    pub fn mat_quadratic_form(s: &[usize]) -> Theirs {
        orders!(quadratic_form)[s[0] - 1]
    }

    pub fn vec_norm(s: &[usize]) -> Theirs {
        orders!(norm)[s[0] - 1]
    }

    pub fn mahalanobis_distance_squared_with_inv(s: &[usize]) -> Theirs {
        orders!(with_inv)[s[0] - 1]
    }

    pub fn mat_cholesky(s: &[usize]) -> Theirs {
        orders!(cholesky)[s[0] - 1]
    }

    pub fn tikhonov(s: &[usize]) -> Theirs {
        orders!(damped)[s[0] - 1]
    }

    pub fn mat_symmetric_eigen(s: &[usize]) -> Theirs {
        orders!(eigen)[s[0] - 1]
    }

    pub fn nearest_psd(s: &[usize]) -> Theirs {
        orders!(psd)[s[0] - 1]
    }

    pub fn eigenvalue_floor(s: &[usize]) -> Theirs {
        orders!(raised)[s[0] - 1]
    }

    pub fn mat_eigenvector_max(s: &[usize]) -> Theirs {
        orders!(eigenvector_max)[s[0] - 1]
    }

    pub fn mat_largest_singular_value(s: &[usize]) -> Theirs {
        orders!(singular_value)[s[0] - 1]
    }

    pub fn condition_number(s: &[usize]) -> Theirs {
        orders!(condition)[s[0] - 1]
    }

    pub fn tikhonov_with_report(s: &[usize]) -> Theirs {
        orders!(damping)[s[0] - 1]
    }

    pub fn row_inf_norms(s: &[usize]) -> Theirs {
        orders!(norms)[s[0] - 1]
    }

    pub fn mat_solve(s: &[usize]) -> Theirs {
        orders!(solve)[s[0] - 1]
    }

    pub fn mat_inv(s: &[usize]) -> Theirs {
        orders!(inv)[s[0] - 1]
    }

    pub fn mat_det(s: &[usize]) -> Theirs {
        orders!(det)[s[0] - 1]
    }

    pub fn mahalanobis_distance_squared(s: &[usize]) -> Theirs {
        orders!(distance)[s[0] - 1]
    }

    pub fn joint_distance(s: &[usize]) -> Theirs {
        orders!(joint)[s[0] - 1]
    }

    pub fn mat3_det(_: &[usize]) -> Theirs {
        det3
    }

    pub fn mat3_inv(_: &[usize]) -> Theirs {
        inv3
    }

    pub fn mat3_solve(_: &[usize]) -> Theirs {
        solve3
    }
}
