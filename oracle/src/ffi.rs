//! The static library's calls: their declarations, and a safe wrapper for each that lends whole slices.
//!
//! A wrapper answers what the call answers: 0, or the number of the question that was not met.

include!(concat!(env!("OUT_DIR"), "/unmatched.rs"));

extern "C" {
    fn pel_abs(x: f64) -> f64;
    fn pel_max(a: f64, b: f64) -> f64;
    fn pel_sqrt(x: f64) -> f64;
    fn pel_value(x: f64) -> f64;
    fn pel_constant(c: f64) -> f64;

    fn pel_mat_mul(
        a: *const f64,
        a_len: usize,
        b: *const f64,
        b_len: usize,
        m: usize,
        k: usize,
        n: usize,
        out: *mut f64,
        out_len: usize,
    ) -> u32;
    fn pel_mat_transpose(a: *const f64, a_len: usize, m: usize, n: usize, out: *mut f64, out_len: usize) -> u32;
    fn pel_mat_ata(a: *const f64, a_len: usize, m: usize, n: usize, out: *mut f64, out_len: usize) -> u32;
    fn pel_mat_frobenius(a: *const f64, a_len: usize, m: usize, n: usize, out: &mut f64) -> u32;
    fn pel_mat_symmetrize(a: *const f64, a_len: usize, n: usize, out: *mut f64, out_len: usize) -> u32;
    fn pel_mat_trace(a: *const f64, a_len: usize, n: usize, out: &mut f64) -> u32;
    fn pel_mat_trace_product(a: *const f64, a_len: usize, b: *const f64, b_len: usize, n: usize, out: &mut f64) -> u32;
    fn pel_mat_trace_cube(a: *const f64, a_len: usize, b: *const f64, b_len: usize, n: usize, out: &mut f64) -> u32;
    fn pel_mat_vec_mul(
        a: *const f64,
        a_len: usize,
        x: *const f64,
        x_len: usize,
        n: usize,
        out: *mut f64,
        out_len: usize,
    ) -> u32;
    fn pel_mat_quadratic_form(x: *const f64, x_len: usize, a: *const f64, a_len: usize, n: usize, out: &mut f64)
        -> u32;
    fn pel_vec_norm(x: *const f64, x_len: usize, n: usize, out: &mut f64) -> u32;
    fn pel_mahalanobis_distance_squared_with_inv(
        x: *const f64,
        x_len: usize,
        mu: *const f64,
        mu_len: usize,
        cov_inv: *const f64,
        cov_inv_len: usize,
        n: usize,
        out: &mut f64,
    ) -> u32;
    fn pel_mat_cholesky(a: *const f64, a_len: usize, n: usize, out: *mut f64, out_len: usize) -> u32;
    fn pel_tikhonov(cov: *const f64, cov_len: usize, alpha: f64, n: usize, out: *mut f64, out_len: usize) -> u32;
    fn pel_mat3_det(m: *const f64, m_len: usize, out: &mut f64) -> u32;
    fn pel_mat3_inv(m: *const f64, m_len: usize, out: *mut f64, out_len: usize) -> u32;
    fn pel_mat3_solve(a: *const f64, a_len: usize, b: *const f64, b_len: usize, out: *mut f64, out_len: usize) -> u32;

    fn pel_mat_symmetric_eigen(
        a: *const f64,
        a_len: usize,
        n: usize,
        values: *mut f64,
        values_len: usize,
        vectors: *mut f64,
        vectors_len: usize,
    ) -> u32;

    fn pel_nearest_psd(
        cov: *const f64,
        cov_len: usize,
        min_eig: f64,
        n: usize,
        out: *mut f64,
        out_len: usize,
        n_clipped: &mut usize,
        max_clip_magnitude: &mut f64,
        clipped_indices: &mut u32,
    ) -> u32;
    fn pel_eigenvalue_floor(
        cov: *const f64,
        cov_len: usize,
        min_eig: f64,
        n: usize,
        out: *mut f64,
        out_len: usize,
        n_clipped: &mut usize,
        max_clip_magnitude: &mut f64,
        clipped_indices: &mut u32,
    ) -> u32;

    fn pel_mat_eigenvector_max(
        a: *const f64,
        a_len: usize,
        n: usize,
        max_iter: u32,
        tol: f64,
        v: *mut f64,
        v_len: usize,
        lambda: &mut f64,
    ) -> u32;
    fn pel_mat_largest_singular_value(
        a: *const f64,
        a_len: usize,
        n: usize,
        max_iter: u32,
        tol: f64,
        out: &mut f64,
    ) -> u32;
    fn pel_condition_number(a: *const f64, a_len: usize, n: usize, out: &mut f64) -> u32;
    fn pel_tikhonov_with_report(
        cov: *const f64,
        cov_len: usize,
        alpha: f64,
        n: usize,
        out: *mut f64,
        out_len: usize,
        before: &mut f64,
        after: &mut f64,
    ) -> u32;

    fn pel_row_inf_norms(a: *const f64, a_len: usize, n: usize, out: *mut f64, out_len: usize) -> u32;
    fn pel_mat_solve(
        a: *const f64,
        a_len: usize,
        b: *const f64,
        b_len: usize,
        n: usize,
        out: *mut f64,
        out_len: usize,
    ) -> u32;
    fn pel_mat_inv(a: *const f64, a_len: usize, n: usize, out: *mut f64, out_len: usize) -> u32;
    fn pel_mat_det(a: *const f64, a_len: usize, n: usize, out: &mut f64) -> u32;
    fn pel_mahalanobis_distance_squared(
        x: *const f64,
        x_len: usize,
        mu: *const f64,
        mu_len: usize,
        cov: *const f64,
        cov_len: usize,
        n: usize,
        out: &mut f64,
    ) -> u32;

    fn pel_compare(
        mu: *const f64,
        mu_len: usize,
        x: *const f64,
        x_len: usize,
        p_i: *const f64,
        p_i_len: usize,
        p_j: *const f64,
        p_j_len: usize,
        n: usize,
        floor: f64,
        gate: f64,
        kind: &mut u32,
        d2: &mut f64,
    ) -> u32;
    fn pel_fuse(
        base: *const f64,
        base_len: usize,
        ours: *const f64,
        ours_len: usize,
        theirs: *const f64,
        theirs_len: usize,
        d: usize,
        floor: f64,
        out: *mut f64,
        out_len: usize,
        fused: &mut u32,
    ) -> u32;

    fn pel_read_list(
        list: *const u8,
        list_len: usize,
        values: *mut f64,
        values_len: usize,
        count: &mut usize,
        dimension: &mut usize,
    ) -> u32;
    fn pel_write_list(
        count: usize,
        dimension: usize,
        values: *const f64,
        values_len: usize,
        out: *mut u8,
        out_len: usize,
        length: &mut usize,
    ) -> u32;
    fn pel_record(list: *const u8, list_len: usize, offset: usize, start: &mut usize, length: &mut usize);

    fn pel_merge(
        base: *const u8,
        base_len: usize,
        ours: *const u8,
        ours_len: usize,
        theirs: *const u8,
        theirs_len: usize,
        floor: f64,
        gate: f64,
        rows: *mut u8,
        rows_len: usize,
        full: &mut usize,
        half: &mut usize,
        single: &mut usize,
    ) -> u32;
    fn pel_merge_list(
        base: *const u8,
        base_len: usize,
        ours: *const u8,
        ours_len: usize,
        theirs: *const u8,
        theirs_len: usize,
        floor: f64,
        gate: f64,
        rows: *mut u8,
        rows_len: usize,
        out: *mut u8,
        out_len: usize,
        full: &mut usize,
        half: &mut usize,
        single: &mut usize,
        length: &mut usize,
    ) -> u32;
    fn pel_winner(
        ours: *const u8,
        ours_len: usize,
        theirs: *const u8,
        theirs_len: usize,
        row: *const u8,
        row_len: usize,
        list: &mut u32,
        start: &mut usize,
        length: &mut usize,
    );
}

pub fn abs(x: f64) -> f64 {
    unsafe { pel_abs(x) }
}

pub fn max(a: f64, b: f64) -> f64 {
    unsafe { pel_max(a, b) }
}

pub fn sqrt(x: f64) -> f64 {
    unsafe { pel_sqrt(x) }
}

pub fn value(x: f64) -> f64 {
    unsafe { pel_value(x) }
}

pub fn constant(c: f64) -> f64 {
    unsafe { pel_constant(c) }
}

pub fn mat_mul(a: &[f64], b: &[f64], m: usize, k: usize, n: usize, out: &mut [f64]) -> u32 {
    unsafe { pel_mat_mul(a.as_ptr(), a.len(), b.as_ptr(), b.len(), m, k, n, out.as_mut_ptr(), out.len()) }
}

pub fn mat_transpose(a: &[f64], m: usize, n: usize, out: &mut [f64]) -> u32 {
    unsafe { pel_mat_transpose(a.as_ptr(), a.len(), m, n, out.as_mut_ptr(), out.len()) }
}

pub fn mat_ata(a: &[f64], m: usize, n: usize, out: &mut [f64]) -> u32 {
    unsafe { pel_mat_ata(a.as_ptr(), a.len(), m, n, out.as_mut_ptr(), out.len()) }
}

pub fn mat_frobenius(a: &[f64], m: usize, n: usize, out: &mut f64) -> u32 {
    unsafe { pel_mat_frobenius(a.as_ptr(), a.len(), m, n, out) }
}

pub fn mat_symmetrize(a: &[f64], n: usize, out: &mut [f64]) -> u32 {
    unsafe { pel_mat_symmetrize(a.as_ptr(), a.len(), n, out.as_mut_ptr(), out.len()) }
}

pub fn mat_trace(a: &[f64], n: usize, out: &mut f64) -> u32 {
    unsafe { pel_mat_trace(a.as_ptr(), a.len(), n, out) }
}

pub fn mat_trace_product(a: &[f64], b: &[f64], n: usize, out: &mut f64) -> u32 {
    unsafe { pel_mat_trace_product(a.as_ptr(), a.len(), b.as_ptr(), b.len(), n, out) }
}

pub fn mat_trace_cube(a: &[f64], b: &[f64], n: usize, out: &mut f64) -> u32 {
    unsafe { pel_mat_trace_cube(a.as_ptr(), a.len(), b.as_ptr(), b.len(), n, out) }
}

pub fn mat_vec_mul(a: &[f64], x: &[f64], n: usize, out: &mut [f64]) -> u32 {
    unsafe { pel_mat_vec_mul(a.as_ptr(), a.len(), x.as_ptr(), x.len(), n, out.as_mut_ptr(), out.len()) }
}

pub fn mat_quadratic_form(x: &[f64], a: &[f64], n: usize, out: &mut f64) -> u32 {
    unsafe { pel_mat_quadratic_form(x.as_ptr(), x.len(), a.as_ptr(), a.len(), n, out) }
}

pub fn vec_norm(x: &[f64], n: usize, out: &mut f64) -> u32 {
    unsafe { pel_vec_norm(x.as_ptr(), x.len(), n, out) }
}

pub fn mahalanobis_distance_squared_with_inv(x: &[f64], mu: &[f64], cov_inv: &[f64], n: usize, out: &mut f64) -> u32 {
    unsafe {
        pel_mahalanobis_distance_squared_with_inv(
            x.as_ptr(),
            x.len(),
            mu.as_ptr(),
            mu.len(),
            cov_inv.as_ptr(),
            cov_inv.len(),
            n,
            out,
        )
    }
}

pub fn mat_cholesky(a: &[f64], n: usize, out: &mut [f64]) -> u32 {
    unsafe { pel_mat_cholesky(a.as_ptr(), a.len(), n, out.as_mut_ptr(), out.len()) }
}

pub fn tikhonov(cov: &[f64], alpha: f64, n: usize, out: &mut [f64]) -> u32 {
    unsafe { pel_tikhonov(cov.as_ptr(), cov.len(), alpha, n, out.as_mut_ptr(), out.len()) }
}

pub fn mat3_det(m: &[f64], out: &mut f64) -> u32 {
    unsafe { pel_mat3_det(m.as_ptr(), m.len(), out) }
}

pub fn mat3_inv(m: &[f64], out: &mut [f64]) -> u32 {
    unsafe { pel_mat3_inv(m.as_ptr(), m.len(), out.as_mut_ptr(), out.len()) }
}

pub fn mat3_solve(a: &[f64], b: &[f64], out: &mut [f64]) -> u32 {
    unsafe { pel_mat3_solve(a.as_ptr(), a.len(), b.as_ptr(), b.len(), out.as_mut_ptr(), out.len()) }
}

pub fn mat_symmetric_eigen(a: &[f64], n: usize, values: &mut [f64], vectors: &mut [f64]) -> u32 {
    unsafe {
        pel_mat_symmetric_eigen(
            a.as_ptr(),
            a.len(),
            n,
            values.as_mut_ptr(),
            values.len(),
            vectors.as_mut_ptr(),
            vectors.len(),
        )
    }
}

/// What a repair reports: the clip count, the largest clip, and the mask's bits.
#[derive(Clone, Copy, PartialEq)]
pub struct Report {
    pub count: usize,
    pub clip: f64,
    pub mask: u32,
}

/// The report goes to its three places.
pub fn nearest_psd(cov: &[f64], min_eig: f64, n: usize, out: &mut [f64], to: &mut Report) -> u32 {
    let (count, clip, mask) = (&mut to.count, &mut to.clip, &mut to.mask);
    unsafe { pel_nearest_psd(cov.as_ptr(), cov.len(), min_eig, n, out.as_mut_ptr(), out.len(), count, clip, mask) }
}

pub fn eigenvalue_floor(cov: &[f64], min_eig: f64, n: usize, out: &mut [f64], to: &mut Report) -> u32 {
    let (count, clip, mask) = (&mut to.count, &mut to.clip, &mut to.mask);
    unsafe { pel_eigenvalue_floor(cov.as_ptr(), cov.len(), min_eig, n, out.as_mut_ptr(), out.len(), count, clip, mask) }
}

pub fn mat_eigenvector_max(a: &[f64], n: usize, max_iter: u32, tol: f64, v: &mut [f64], lambda: &mut f64) -> u32 {
    unsafe { pel_mat_eigenvector_max(a.as_ptr(), a.len(), n, max_iter, tol, v.as_mut_ptr(), v.len(), lambda) }
}

pub fn mat_largest_singular_value(a: &[f64], n: usize, max_iter: u32, tol: f64, out: &mut f64) -> u32 {
    unsafe { pel_mat_largest_singular_value(a.as_ptr(), a.len(), n, max_iter, tol, out) }
}

pub fn condition_number(a: &[f64], n: usize, out: &mut f64) -> u32 {
    unsafe { pel_condition_number(a.as_ptr(), a.len(), n, out) }
}

/// The report goes to its two places: the condition numbers before and after.
pub fn tikhonov_with_report(cov: &[f64], alpha: f64, n: usize, out: &mut [f64], report: (&mut f64, &mut f64)) -> u32 {
    unsafe {
        pel_tikhonov_with_report(cov.as_ptr(), cov.len(), alpha, n, out.as_mut_ptr(), out.len(), report.0, report.1)
    }
}

pub fn row_inf_norms(a: &[f64], n: usize, out: &mut [f64]) -> u32 {
    unsafe { pel_row_inf_norms(a.as_ptr(), a.len(), n, out.as_mut_ptr(), out.len()) }
}

pub fn mat_solve(a: &[f64], b: &[f64], n: usize, out: &mut [f64]) -> u32 {
    unsafe { pel_mat_solve(a.as_ptr(), a.len(), b.as_ptr(), b.len(), n, out.as_mut_ptr(), out.len()) }
}

pub fn mat_inv(a: &[f64], n: usize, out: &mut [f64]) -> u32 {
    unsafe { pel_mat_inv(a.as_ptr(), a.len(), n, out.as_mut_ptr(), out.len()) }
}

pub fn mat_det(a: &[f64], n: usize, out: &mut f64) -> u32 {
    unsafe { pel_mat_det(a.as_ptr(), a.len(), n, out) }
}

pub fn mahalanobis_distance_squared(x: &[f64], mu: &[f64], cov: &[f64], n: usize, out: &mut f64) -> u32 {
    unsafe {
        pel_mahalanobis_distance_squared(x.as_ptr(), x.len(), mu.as_ptr(), mu.len(), cov.as_ptr(), cov.len(), n, out)
    }
}

/// Two tracks, each a state and a covariance, with the floor and the gate; the kind and the squared distance go to their places.
pub fn compare(i: [&[f64]; 2], j: [&[f64]; 2], n: usize, within: (f64, f64), kind: &mut u32, d2: &mut f64) -> u32 {
    let ([mu, p_i], [x, p_j], (floor, gate)) = (i, j, within);
    unsafe {
        pel_compare(
            mu.as_ptr(),
            mu.len(),
            x.as_ptr(),
            x.len(),
            p_i.as_ptr(),
            p_i.len(),
            p_j.as_ptr(),
            p_j.len(),
            n,
            floor,
            gate,
            kind,
            d2,
        )
    }
}

/// The fields of base, ours and theirs, of dimension d, with the floor; the fused track's fields go to `out`, and whether there is one to
/// `fused`.
pub fn fuse(tracks: [&[f64]; 3], d: usize, floor: f64, out: &mut [f64], fused: &mut u32) -> u32 {
    let [base, ours, theirs] = tracks;
    unsafe {
        pel_fuse(
            base.as_ptr(),
            base.len(),
            ours.as_ptr(),
            ours.len(),
            theirs.as_ptr(),
            theirs.len(),
            d,
            floor,
            out.as_mut_ptr(),
            out.len(),
            fused,
        )
    }
}

pub fn read_list(list: &[u8], values: &mut [f64], count: &mut usize, dimension: &mut usize) -> u32 {
    unsafe { pel_read_list(list.as_ptr(), list.len(), values.as_mut_ptr(), values.len(), count, dimension) }
}

pub fn write_list(count: usize, dimension: usize, values: &[f64], out: &mut [u8], length: &mut usize) -> u32 {
    unsafe { pel_write_list(count, dimension, values.as_ptr(), values.len(), out.as_mut_ptr(), out.len(), length) }
}

/// The record's part of the list, by its start and length.
pub fn record(list: &[u8], offset: usize, start: &mut usize, length: &mut usize) {
    unsafe { pel_record(list.as_ptr(), list.len(), offset, start, length) }
}

/// Base, ours and theirs with the floor and the gate; the rows go to the buffer, and how many have three, two and one track
/// to the counts.
pub fn merge(lists: [&[u8]; 3], within: (f64, f64), rows: &mut [u8], counts: [&mut usize; 3]) -> u32 {
    let ([base, ours, theirs], (floor, gate), [full, half, single]) = (lists, within, counts);
    unsafe {
        pel_merge(
            base.as_ptr(),
            base.len(),
            ours.as_ptr(),
            ours.len(),
            theirs.as_ptr(),
            theirs.len(),
            floor,
            gate,
            rows.as_mut_ptr(),
            rows.len(),
            full,
            half,
            single,
        )
    }
}

/// The same, and the merged list goes to the second buffer; its length stands after the counts.
pub fn merge_list(
    lists: [&[u8]; 3],
    within: (f64, f64),
    rows: &mut [u8],
    out: &mut [u8],
    numbers: [&mut usize; 4],
) -> u32 {
    let ([base, ours, theirs], (floor, gate), [full, half, single, length]) = (lists, within, numbers);
    unsafe {
        pel_merge_list(
            base.as_ptr(),
            base.len(),
            ours.as_ptr(),
            ours.len(),
            theirs.as_ptr(),
            theirs.len(),
            floor,
            gate,
            rows.as_mut_ptr(),
            rows.len(),
            out.as_mut_ptr(),
            out.len(),
            full,
            half,
            single,
            length,
        )
    }
}

/// The winning record's part of ours, list 1, or of theirs, list 2, by its start and length.
pub fn winner(ours: &[u8], theirs: &[u8], row: &[u8], list: &mut u32, start: &mut usize, length: &mut usize) {
    unsafe {
        pel_winner(
            ours.as_ptr(),
            ours.len(),
            theirs.as_ptr(),
            theirs.len(),
            row.as_ptr(),
            row.len(),
            list,
            start,
            length,
        )
    }
}
