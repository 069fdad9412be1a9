//! The calls of `include/pelosumba.h`, each behind a safe function on slices. No other file of the crate has unsafe code.
//!
//! A slice goes over as its pointer and its length, and the library reads and writes nothing else. Rust's borrows see to the rest of
//! what a C caller owes: what is written overlaps nothing else that is lent.
use crate::Refusal;

fn told(question: u32) -> Result<(), Refusal> {
    Refusal::of(question).map_or(Ok(()), Err)
}

/// The type of a slice's pointer, whatever its name.
macro_rules! pointer {
    ($slice:ident) => { *const f64 };
}

/// Calls on numbers alone.
macro_rules! plain {
    ($($(#[$doc:meta])* $name:ident = $c:ident($($number:ident),*);)*) => { $(
        $(#[$doc])*
        pub fn $name($($number: f64),*) -> f64 {
            extern "C" { fn $c($($number: f64),*) -> f64; }
            // SAFETY: numbers go over, and a number comes back.
            unsafe { $c($($number),*) }
        }
    )* };
}

/// Calls that read slices, take numbers and write a slice.
macro_rules! written {
    ($($(#[$doc:meta])* $name:ident = $c:ident($($slice:ident),*; $($number:ident: $kind:ty),*);)*) => { $(
        $(#[$doc])*
        pub fn $name($($slice: &[f64],)* $($number: $kind,)* out: &mut [f64]) -> Result<(), Refusal> {
            extern "C" { fn $c($(_: pointer!($slice), _: usize,)* $(_: $kind,)* _: *mut f64, _: usize) -> u32; }
            // SAFETY: each slice is lent with its own length, and out is lent to this call alone.
            told(unsafe { $c($($slice.as_ptr(), $slice.len(),)* $($number,)* out.as_mut_ptr(), out.len()) })
        }
    )* };
}

/// Calls that read slices, take numbers and give a number.
macro_rules! given {
    ($($(#[$doc:meta])* $name:ident = $c:ident($($slice:ident),*; $($number:ident: $kind:ty),*);)*) => { $(
        $(#[$doc])*
        pub fn $name($($slice: &[f64],)* $($number: $kind),*) -> Result<f64, Refusal> {
            extern "C" { fn $c($(_: pointer!($slice), _: usize,)* $(_: $kind,)* _: *mut f64) -> u32; }
            let mut out = 0.0;
            // SAFETY: each slice is lent with its own length, and the place is a local number.
            told(unsafe { $c($($slice.as_ptr(), $slice.len(),)* $($number,)* &mut out) }).map(|()| out)
        }
    )* };
}

/// Repairs, which write a matrix and tell three numbers.
macro_rules! repairs {
    ($($(#[$doc:meta])* $name:ident = $c:ident;)*) => { $(
        $(#[$doc])*
        pub fn $name(cov: &[f64], min_eig: f64, n: usize, out: &mut [f64]) -> Result<Report, Refusal> {
            extern "C" {
                fn $c(_: *const f64, _: usize, _: f64, _: usize, _: *mut f64, _: usize, _: *mut usize, _: *mut f64, _: *mut u32) -> u32;
            }
            let (mut n_clipped, mut max_clip_magnitude, mut mask) = (0, 0.0, 0);
            let (to, len) = (out.as_mut_ptr(), out.len());
            // SAFETY: each slice is lent with its own length, and the places are three local numbers.
            told(unsafe {
                $c(cov.as_ptr(), cov.len(), min_eig, n, to, len, &mut n_clipped, &mut max_clip_magnitude, &mut mask)
            })?;
            Ok(Report { n_clipped, max_clip_magnitude, clipped_indices: std::array::from_fn(|k| mask >> k & 1 == 1) })
        }
    )* };
}

/// The dense kernel: matrices are slices, row by row, each side from 1 to 16. A call that is refused leaves what it was lent as it was.
///
/// ```
/// use pelosumba::kernel;
///
/// let mut x = [0.0; 2];
/// kernel::mat_solve(&[0.0, 1.0, 2.0, 0.0], &[3.0, 4.0], 2, &mut x)?;
/// assert_eq!(x, [2.0, 3.0]);
/// let refused = kernel::mat_solve(&[1.0, 2.0, 2.0, 4.0], &[3.0, 4.0], 2, &mut x).unwrap_err();
/// assert_eq!((refused.number(), x), (6, [2.0, 3.0]));
/// # Ok::<(), pelosumba::Refusal>(())
/// ```
pub mod kernel {
    use super::{told, Refusal};

    /// What a repair did to the eigenvalues.
    #[derive(Clone, Copy, Debug, PartialEq)]
    pub struct Report {
        /// How many eigenvalues were raised to the floor.
        pub n_clipped: usize,
        /// The floor minus the last eigenvalue; 0.0 where none was clipped.
        pub max_clip_magnitude: f64,
        /// Which, by their places in descending order; false past the matrix's order.
        pub clipped_indices: [bool; 16],
    }

    /// Two tracks compared.
    #[derive(Clone, Copy, Debug, PartialEq)]
    pub enum Comparison {
        /// The squared distance is at most the gate.
        Near(f64),
        /// The squared distance is above the gate.
        Far(f64),
        /// The summed covariance can't be repaired or inverted, or the squared distance is not finite or below 0.
        NoDistance,
    }

    plain! {
        /// x without its sign.
        abs = pel_abs(x);
        /// The greater of two; the other where one is a NaN.
        max = pel_max(a, b);
        /// The rounded square root of IEEE 754.
        sqrt = pel_sqrt(x);
        /// x itself: the source's `value()` of a double.
        value = pel_value(x);
        /// c itself: the source's `constant(c)` for doubles.
        constant = pel_constant(c);
    }

    written! {
        /// The m by n product of a, m by k, and b, k by n.
        mat_mul = pel_mat_mul(a, b; m: usize, k: usize, n: usize);
        /// The n by m transpose of a, m by n.
        mat_transpose = pel_mat_transpose(a; m: usize, n: usize);
        /// The product of the transpose of a, m by n, and a.
        mat_ata = pel_mat_ata(a; m: usize, n: usize);
        /// The mean of a and its transpose.
        mat_symmetrize = pel_mat_symmetrize(a; n: usize);
        /// The product of a, n by n, and the vector x.
        mat_vec_mul = pel_mat_vec_mul(a, x; n: usize);
        /// cov with alpha added to its diagonal.
        tikhonov = pel_tikhonov(cov; alpha: f64, n: usize);
        /// The lower triangular factor.
        mat_cholesky = pel_mat_cholesky(a; n: usize);
        /// The greatest |entry| of each row.
        row_inf_norms = pel_row_inf_norms(a; n: usize);
        /// The vector x with a x = b.
        mat_solve = pel_mat_solve(a, b; n: usize);
        /// The inverse.
        mat_inv = pel_mat_inv(a; n: usize);
        /// The inverse of a 3 by 3 matrix.
        mat3_inv = pel_mat3_inv(m;);
        /// The vector x with a x = b, for a 3 by 3.
        mat3_solve = pel_mat3_solve(a, b;);
    }

    given! {
        /// The sum of the diagonal.
        mat_trace = pel_mat_trace(a; n: usize);
        /// The trace of the product of a and b.
        mat_trace_product = pel_mat_trace_product(a, b; n: usize);
        /// The trace of the cube of the product of a and b.
        mat_trace_cube = pel_mat_trace_cube(a, b; n: usize);
        /// The form x a x.
        mat_quadratic_form = pel_mat_quadratic_form(x, a; n: usize);
        /// The squared distance of x from mu under an inverse covariance.
        mahalanobis_distance_squared_with_inv = pel_mahalanobis_distance_squared_with_inv(x, mu, inv; n: usize);
        /// The squared distance of x from mu under a covariance.
        mahalanobis_distance_squared = pel_mahalanobis_distance_squared(x, mu, cov; n: usize);
        /// The root of the sum of all squares of a, m by n.
        mat_frobenius = pel_mat_frobenius(a; m: usize, n: usize);
        /// The root of the sum of squares.
        vec_norm = pel_vec_norm(x; n: usize);
        /// The determinant, 0.0 where pivoting fails.
        mat_det = pel_mat_det(a; n: usize);
        /// The determinant of a 3 by 3 matrix.
        mat3_det = pel_mat3_det(m;);
        /// The largest singular value, by at most max_iter rounds.
        mat_largest_singular_value = pel_mat_largest_singular_value(a; n: usize, max_iter: u32, tol: f64);
        /// Infinity for a matrix that is singular at the source's tolerances, and for every 1 by 1 matrix.
        condition_number = pel_condition_number(a; n: usize);
    }

    repairs! {
        /// The nearest matrix whose eigenvalues are not below min_eig.
        nearest_psd = pel_nearest_psd;
        /// The same by its other name.
        eigenvalue_floor = pel_eigenvalue_floor;
    }

    /// The eigenvalues in descending order, and their vectors in the columns.
    pub fn mat_symmetric_eigen(a: &[f64], n: usize, values: &mut [f64], vectors: &mut [f64]) -> Result<(), Refusal> {
        extern "C" {
            fn pel_mat_symmetric_eigen(
                _: *const f64,
                _: usize,
                _: usize,
                _: *mut f64,
                _: usize,
                _: *mut f64,
                _: usize,
            ) -> u32;
        }
        let (to, len) = (values.as_mut_ptr(), values.len());
        // SAFETY: each slice is lent with its own length, and the two that are written are apart.
        told(unsafe { pel_mat_symmetric_eigen(a.as_ptr(), a.len(), n, to, len, vectors.as_mut_ptr(), vectors.len()) })
    }

    /// The eigenvalue that is greatest in size; its vector goes to v. At most max_iter rounds.
    pub fn mat_eigenvector_max(a: &[f64], n: usize, max_iter: u32, tol: f64, v: &mut [f64]) -> Result<f64, Refusal> {
        extern "C" {
            fn pel_mat_eigenvector_max(
                _: *const f64,
                _: usize,
                _: usize,
                _: u32,
                _: f64,
                _: *mut f64,
                _: usize,
                _: *mut f64,
            ) -> u32;
        }
        let mut lambda = 0.0;
        let (to, len) = (v.as_mut_ptr(), v.len());
        // SAFETY: each slice is lent with its own length, and the place is a local number.
        told(unsafe { pel_mat_eigenvector_max(a.as_ptr(), a.len(), n, max_iter, tol, to, len, &mut lambda) })
            .map(|()| lambda)
    }

    /// cov with alpha added to its diagonal, and the condition numbers before and after.
    pub fn tikhonov_with_report(cov: &[f64], alpha: f64, n: usize, out: &mut [f64]) -> Result<(f64, f64), Refusal> {
        extern "C" {
            fn pel_tikhonov_with_report(
                _: *const f64,
                _: usize,
                _: f64,
                _: usize,
                _: *mut f64,
                _: usize,
                _: *mut f64,
                _: *mut f64,
            ) -> u32;
        }
        let (mut before, mut after) = (0.0, 0.0);
        let (to, len) = (out.as_mut_ptr(), out.len());
        // SAFETY: each slice is lent with its own length, and the places are two local numbers.
        told(unsafe { pel_tikhonov_with_report(cov.as_ptr(), cov.len(), alpha, n, to, len, &mut before, &mut after) })
            .map(|()| (before, after))
    }

    /// Compares two tracks of dimension n by their states and whole covariances, under a floor and a gate.
    pub fn compare(
        states: [&[f64]; 2],
        covariances: [&[f64]; 2],
        n: usize,
        floor: f64,
        gate: f64,
    ) -> Result<Comparison, Refusal> {
        type F = *const f64;
        extern "C" {
            fn pel_compare(
                _: F,
                _: usize,
                _: F,
                _: usize,
                _: F,
                _: usize,
                _: F,
                _: usize,
                _: usize,
                _: f64,
                _: f64,
                _: *mut u32,
                _: *mut f64,
            ) -> u32;
        }
        let ([mu, x], [p, q]) = (states, covariances);
        let (mut kind, mut d2) = (0, 0.0);
        // SAFETY: each slice is lent with its own length, and the places are two local numbers.
        told(unsafe {
            pel_compare(
                mu.as_ptr(),
                mu.len(),
                x.as_ptr(),
                x.len(),
                p.as_ptr(),
                p.len(),
                q.as_ptr(),
                q.len(),
                n,
                floor,
                gate,
                &mut kind,
                &mut d2,
            )
        })?;
        Ok(match kind {
            1 => Comparison::Near(d2),
            2 => Comparison::Far(d2),
            _ => Comparison::NoDistance,
        })
    }
}

/// Whether base, ours and theirs, tracks of dimension d by their fields, are fused into out.
pub(crate) fn fuse(tracks: [&[f64]; 3], d: usize, floor: f64, out: &mut [f64]) -> Result<bool, Refusal> {
    type F = *const f64;
    extern "C" {
        fn pel_fuse(
            _: F,
            _: usize,
            _: F,
            _: usize,
            _: F,
            _: usize,
            _: usize,
            _: f64,
            _: *mut f64,
            _: usize,
            _: *mut u32,
        ) -> u32;
    }
    let [b, o, t] = tracks;
    let mut fused = 0;
    let (to, len) = (out.as_mut_ptr(), out.len());
    // SAFETY: each slice is lent with its own length, and the place is a local number.
    told(unsafe {
        pel_fuse(b.as_ptr(), b.len(), o.as_ptr(), o.len(), t.as_ptr(), t.len(), d, floor, to, len, &mut fused)
    })
    .map(|()| fused == 1)
}

/// The count and the dimension.
pub(crate) fn read_list(list: &[u8], values: &mut [f64]) -> Result<(usize, usize), Refusal> {
    extern "C" {
        fn pel_read_list(_: *const u8, _: usize, _: *mut f64, _: usize, _: *mut usize, _: *mut usize) -> u32;
    }
    let (mut count, mut dimension) = (0, 0);
    let (to, len) = (values.as_mut_ptr(), values.len());
    // SAFETY: each slice is lent with its own length, and the places are two local numbers.
    told(unsafe { pel_read_list(list.as_ptr(), list.len(), to, len, &mut count, &mut dimension) })
        .map(|()| (count, dimension))
}

/// The list's length.
pub(crate) fn write_list(count: usize, dimension: usize, values: &[f64], out: &mut [u8]) -> Result<usize, Refusal> {
    extern "C" {
        fn pel_write_list(_: usize, _: usize, _: *const f64, _: usize, _: *mut u8, _: usize, _: *mut usize) -> u32;
    }
    let mut length = 0;
    let (to, len) = (out.as_mut_ptr(), out.len());
    // SAFETY: each slice is lent with its own length, and the place is a local number.
    told(unsafe { pel_write_list(count, dimension, values.as_ptr(), values.len(), to, len, &mut length) })
        .map(|()| length)
}

/// The start and the length of the record at an offset.
pub(crate) fn record(list: &[u8], offset: usize) -> (usize, usize) {
    extern "C" {
        fn pel_record(_: *const u8, _: usize, _: usize, _: *mut usize, _: *mut usize);
    }
    let (mut start, mut length) = (0, 0);
    // SAFETY: the slice is lent with its length, and the places are two local numbers.
    unsafe { pel_record(list.as_ptr(), list.len(), offset, &mut start, &mut length) };
    (start, length)
}

/// The numbers of rows with three, two and one track.
pub(crate) fn merge(lists: [&[u8]; 3], floor: f64, gate: f64, rows: &mut [u8]) -> Result<[usize; 3], Refusal> {
    type B = *const u8;
    type N = *mut usize;
    extern "C" {
        fn pel_merge(
            _: B,
            _: usize,
            _: B,
            _: usize,
            _: B,
            _: usize,
            _: f64,
            _: f64,
            _: *mut u8,
            _: usize,
            _: N,
            _: N,
            _: N,
        ) -> u32;
    }
    let [b, o, t] = lists;
    let (mut full, mut half, mut single) = (0, 0, 0);
    let (to, len) = (rows.as_mut_ptr(), rows.len());
    // SAFETY: each slice is lent with its own length, and the places are three local numbers.
    told(unsafe {
        pel_merge(
            b.as_ptr(),
            b.len(),
            o.as_ptr(),
            o.len(),
            t.as_ptr(),
            t.len(),
            floor,
            gate,
            to,
            len,
            &mut full,
            &mut half,
            &mut single,
        )
    })
    .map(|()| [full, half, single])
}

/// The numbers of rows with three, two and one track, and the length of the merged list.
pub(crate) fn merge_list(
    lists: [&[u8]; 3],
    floor: f64,
    gate: f64,
    rows: &mut [u8],
    out: &mut [u8],
) -> Result<([usize; 3], usize), Refusal> {
    type B = *const u8;
    type W = *mut u8;
    type N = *mut usize;
    extern "C" {
        fn pel_merge_list(
            _: B,
            _: usize,
            _: B,
            _: usize,
            _: B,
            _: usize,
            _: f64,
            _: f64,
            _: W,
            _: usize,
            _: W,
            _: usize,
            _: N,
            _: N,
            _: N,
            _: N,
        ) -> u32;
    }
    let [b, o, t] = lists;
    let (mut full, mut half, mut single, mut length) = (0, 0, 0, 0);
    // SAFETY: each slice is lent with its own length, the two that are written are apart, and the places are four local numbers.
    told(unsafe {
        pel_merge_list(
            b.as_ptr(),
            b.len(),
            o.as_ptr(),
            o.len(),
            t.as_ptr(),
            t.len(),
            floor,
            gate,
            rows.as_mut_ptr(),
            rows.len(),
            out.as_mut_ptr(),
            out.len(),
            &mut full,
            &mut half,
            &mut single,
            &mut length,
        )
    })
    .map(|()| ([full, half, single], length))
}

/// Whose record wins (1 ours, 2 theirs, 0 nobody's), its start and its length.
pub(crate) fn winner(ours: &[u8], theirs: &[u8], row: [u8; 4]) -> (u32, usize, usize) {
    type B = *const u8;
    extern "C" {
        fn pel_winner(_: B, _: usize, _: B, _: usize, _: B, _: usize, _: *mut u32, _: *mut usize, _: *mut usize);
    }
    let (mut list, mut start, mut length) = (0, 0, 0);
    let (o, t, r) = (ours, theirs, &row);
    // SAFETY: the slices are lent with their lengths, and the places are three local numbers.
    unsafe {
        pel_winner(o.as_ptr(), o.len(), t.as_ptr(), t.len(), r.as_ptr(), r.len(), &mut list, &mut start, &mut length)
    };
    (list, start, length)
}
