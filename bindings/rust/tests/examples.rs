//! Document 01's examples, and refusals, through the crate.
use pelosumba::kernel::{self, Comparison};
use pelosumba::{fuse, fused, merge, merge_list, winner, List, Track, Verdict};

fn list(states: &[f64]) -> List {
    let track = |x: &f64| Track { state: vec![*x], triangle: vec![1.0] };
    List::write(1, &states.iter().map(track).collect::<Vec<_>>()).expect("a list")
}

#[test]
fn roots() {
    assert_eq!(kernel::sqrt(2.0).to_bits(), 0x3FF6A09E667F3BCD);
    assert_eq!(kernel::sqrt(f64::MAX).to_bits(), 0x5FEFFFFFFFFFFFFF);
    assert_eq!(kernel::sqrt(-0.0).to_bits(), (-0.0f64).to_bits());
}

#[test]
fn eigenpairs_and_repair() {
    let (mut values, mut vectors) = ([0.0; 2], [0.0; 4]);
    kernel::mat_symmetric_eigen(&[2.0, 1.0, 1.0, 2.0], 2, &mut values, &mut vectors).unwrap();
    assert_eq!(values, [3.0, 1.0]);
    let mut out = [7.0; 4];
    let report = kernel::nearest_psd(&[1.0, 0.0, 0.0, -2.0], 0.0, 2, &mut out).unwrap();
    assert_eq!((out, report.n_clipped, report.max_clip_magnitude), ([1.0, 0.0, 0.0, 0.0], 1, 2.0));
    let report = kernel::nearest_psd(&[1.0, 0.0, 0.0, -2.0], -2.0, 2, &mut out).unwrap();
    assert_eq!((report.n_clipped, report.max_clip_magnitude, report.clipped_indices), (0, 0.0, [false; 16]));
    let report = kernel::eigenvalue_floor(&[-3.0, 0.0, 0.0, 5.0], 1.0, 2, &mut out).unwrap();
    assert_eq!((out, report.clipped_indices[0], report.clipped_indices[1]), ([1.0, 0.0, 0.0, 5.0], false, true));
    assert_eq!(report.max_clip_magnitude, 4.0);
}

#[test]
fn solutions() {
    let mut x = [7.0; 2];
    kernel::mat_solve(&[0.0, 1.0, 2.0, 0.0], &[3.0, 4.0], 2, &mut x).unwrap();
    assert_eq!(x, [2.0, 3.0]);
    assert_eq!(kernel::mat_det(&[0.0, 1.0, 2.0, 0.0], 2).unwrap(), -2.0);
    kernel::mat_solve(&[2.0, 1048576.0, 1.0, 1.0], &[1048578.0, 2.0], 2, &mut x).unwrap();
    assert_eq!(x, [1.0, 1.0]);
    let mut out = [7.0; 4];
    assert_eq!(kernel::mat_inv(&[1.0, 2.0, 2.0, 4.0], 2, &mut out).unwrap_err().number(), 6);
    assert_eq!(out, [7.0; 4]);
    assert_eq!(kernel::mat_det(&[1.0, 2.0, 2.0, 4.0], 2).unwrap(), 0.0);
    assert_eq!(kernel::mat_inv(&[1e-151], 1, &mut out[..1]).unwrap_err().number(), 5);
    kernel::mat_cholesky(&[4.0, 9.0, 2.0, 5.0], 2, &mut out).unwrap();
    assert_eq!(out, [2.0, 0.0, 1.0, 2.0]);
    assert_eq!(kernel::mat_cholesky(&[0.0], 1, &mut out[..1]).unwrap_err().number(), 7);
}

#[test]
fn lists() {
    assert_eq!(List::read(&[1, 1, 6]).unwrap_err().number(), 13);
    assert_eq!(List::read(&[]).unwrap_err().to_string(), "no 9: are there two bytes?");
    let bytes = [1, 1, 2, 0, 0, 0, 0, 0, 0, 0xF0, 0x3F];
    let one = List::read(&bytes).unwrap();
    assert_eq!(one.tracks(), [Track { state: vec![0.0], triangle: vec![1.0] }]);
    assert_eq!(List::write(1, one.tracks()).unwrap().bytes(), bytes);
    assert_eq!(one.records().collect::<Vec<_>>(), [&bytes[2..]]);
    let empty = List::read(&[0, 9]).unwrap();
    assert_eq!((empty.dimension(), empty.tracks().len(), empty.records().count()), (9, 0, 0));
}

#[test]
fn case_k() {
    let (base, ours, theirs) = (list(&[10.0, 20.0, 30.0]), list(&[10.0, 30.0]), list(&[10.0, 20.0, 30.5]));
    let merged = merge(&base, &ours, &theirs, 1.0, 16.0).unwrap();
    let rows: Vec<[u8; 4]> = merged.rows.iter().map(|row| row.bytes()).collect();
    assert_eq!(rows, [[0, 0, 0, 0], [1, 255, 1, 3], [2, 1, 2, 2]]);
    assert_eq!((merged.full, merged.half, merged.single), (2, 1, 0));
    assert_eq!(merged.rows[1].ours, None);
    assert_eq!(merged.rows[2].verdict, Verdict::TakeTheirs);
    assert_eq!(winner(&ours, &theirs, &merged.rows[2]), theirs.records().nth(2));
    assert_eq!(winner(&ours, &theirs, &merged.rows[0]), None);
    let (rows, written) = merge_list(&base, &ours, &theirs, 1.0, 16.0).unwrap();
    assert_eq!((rows, &written), (merged, &list(&[10.0, 30.5])));
    let taken = [base.records().next(), theirs.records().nth(2)].map(Option::unwrap);
    assert_eq!(written.records().collect::<Vec<_>>(), taken);
    assert_eq!(written.bytes(), [&[2, 1], taken[0], taken[1]].concat());
}

fn collar(at: f64, variance: f64) -> Track {
    Track { state: vec![at], triangle: vec![variance] }
}

#[test]
fn fusions() {
    let (base, ours, theirs) = (collar(10.0, 1.0), collar(11.0, 1.0), collar(12.0, 1.0));
    assert_eq!(fuse(&base, &ours, &theirs, 1.0).unwrap(), Some(collar(13.0, 1.0)));
    // The floor raises the variance, and a NaN raises nothing.
    assert_eq!(fuse(&base, &ours, &theirs, 4.0).unwrap(), Some(collar(13.0, 4.0)));
    assert_eq!(fuse(&base, &ours, &theirs, f64::NAN).unwrap(), Some(collar(13.0, 1.0)));
    // Inverses 2, 1 and 1: (2 + 1) - 1 is 2, (22 + 12) - 10 is 24.
    assert_eq!(fuse(&base, &collar(11.0, 0.5), &theirs, 0.0).unwrap(), Some(collar(12.0, 0.5)));
    // No variance has an inverse, one has none, the sum (1 + 1) - 2 has none, the fused state is not finite.
    let certain = collar(11.0, 0.0);
    assert_eq!(fuse(&certain, &certain, &certain, 1.0).unwrap(), None);
    for [base, ours, theirs] in [[&certain, &ours, &theirs], [&base, &certain, &theirs], [&base, &ours, &certain]] {
        assert_eq!(fuse(base, ours, theirs, 1.0).unwrap(), None);
    }
    assert_eq!(fuse(&collar(10.0, 0.5), &ours, &theirs, 1.0).unwrap(), None);
    assert_eq!(fuse(&base, &collar(f64::MAX, 1.0), &collar(f64::MAX, 1.0), 1.0).unwrap(), None);
    // Two values, and a triangle of three entries, in their places.
    let plane = |east, north| Track { state: vec![east, north], triangle: vec![2.0, 1.0, 2.0] };
    let track = fuse(&plane(1.0, 2.0), &plane(2.0, 2.0), &plane(1.0, 4.0), 0.5).unwrap().unwrap();
    let near = |x: &[f64], y: &[f64]| x.len() == y.len() && x.iter().zip(y).all(|(x, y)| (x - y).abs() < 1e-12);
    assert!(near(&track.state, &[2.0, 4.0]) && near(&track.triangle, &[2.0, 1.0, 2.0]), "{track:?}");
}

#[test]
fn a_fused_row() {
    let (base, ours, theirs) = (list(&[10.0]), list(&[11.0]), list(&[12.0]));
    let (merged, written) = merge_list(&base, &ours, &theirs, 1.0, 16.0).unwrap();
    assert_eq!(merged, merge(&base, &ours, &theirs, 1.0, 16.0).unwrap());
    let row = merged.rows[0];
    assert_eq!((merged.rows.len(), row.bytes(), row.verdict), (1, [0, 0, 0, 5], Verdict::Fuse));
    assert_eq!((merged.full, merged.half, merged.single), (1, 0, 0));
    assert_eq!(written, list(&[13.0]));
    assert_eq!(merged.place(0), Some(0));
    assert_eq!(winner(&ours, &theirs, &row), None);
    assert_eq!(fused(&base, &ours, &theirs, 1.0, &row), Some(collar(13.0, 1.0)));
    // Lists that have no such track, or another dimension.
    assert_eq!(fused(&list(&[]), &ours, &theirs, 1.0, &row), None);
    let plane = List::write(2, &[Track { state: vec![1.0, 2.0], triangle: vec![1.0, 0.0, 1.0] }]).unwrap();
    assert_eq!(fused(&base, &ours, &plane, 1.0, &row), None);
    // The row of a conflict has no fused track, also with lists whose tracks at its indices can be fused.
    let certain = List::write(1, &[collar(11.0, 0.0)]).unwrap();
    let row = merge(&base, &certain, &theirs, 1.0, 16.0).unwrap().rows[0];
    assert_eq!((row.bytes(), row.verdict), ([0, 0, 0, 4], Verdict::Conflict));
    assert_eq!(fused(&base, &certain, &theirs, 1.0, &row), None);
    assert_eq!(fused(&base, &ours, &theirs, 1.0, &row), None);
}

#[test]
fn the_other_calls() {
    let a = [4.0, 2.0, 2.0, 3.0];
    let mut out = [7.0; 4];
    kernel::mat_mul(&a, &a, 2, 2, 2, &mut out).unwrap();
    assert_eq!(out, [20.0, 14.0, 14.0, 13.0]);
    kernel::mat_ata(&a, 2, 2, &mut out).unwrap();
    assert_eq!(out, [20.0, 14.0, 14.0, 13.0]);
    kernel::mat_transpose(&[1.0, 2.0, 3.0, 4.0], 2, 2, &mut out).unwrap();
    assert_eq!(out, [1.0, 3.0, 2.0, 4.0]);
    kernel::mat_symmetrize(&[1.0, 2.0, 4.0, 5.0], 2, &mut out).unwrap();
    assert_eq!(out, [1.0, 3.0, 3.0, 5.0]);
    kernel::mat_vec_mul(&a, &[1.0, 2.0], 2, &mut out[..2]).unwrap();
    assert_eq!(out[..2], [8.0, 8.0]);
    kernel::row_inf_norms(&[1.0, -2.0, 4.0, 3.0], 2, &mut out[..2]).unwrap();
    assert_eq!(out[..2], [2.0, 4.0]);
    kernel::tikhonov(&a, 0.5, 2, &mut out).unwrap();
    assert_eq!(out, [4.5, 2.0, 2.0, 3.5]);
    let (before, after) = kernel::tikhonov_with_report(&a, 0.0, 2, &mut out).unwrap();
    assert_eq!((before, out), (after, a));
    // Eigenvalues 9 and 1 become 12 and 4: the condition number falls from 9 to 3.
    let (before, after) = kernel::tikhonov_with_report(&[5.0, 4.0, 4.0, 5.0], 3.0, 2, &mut out).unwrap();
    assert_eq!(out, [8.0, 4.0, 4.0, 8.0]);
    assert!((before - 9.0).abs() < 1e-9 && (after - 3.0).abs() < 1e-9, "{before} and {after}");
    let lambda = kernel::mat_eigenvector_max(&[2.0, 0.0, 0.0, 2.0], 2, 0, 1e-9, &mut out[..2]).unwrap();
    assert!((lambda - 2.0).abs() < 1e-12);
    let three = [2.0, 0.0, 0.0, 0.0, 4.0, 0.0, 0.0, 0.0, 8.0];
    let mut nine = [7.0; 9];
    kernel::mat3_inv(&three, &mut nine).unwrap();
    assert_eq!(nine, [0.5, 0.0, 0.0, 0.0, 0.25, 0.0, 0.0, 0.0, 0.125]);
    kernel::mat3_solve(&three, &[2.0, 4.0, 8.0], &mut nine[..3]).unwrap();
    assert_eq!(nine[..3], [1.0, 1.0, 1.0]);
    assert_eq!(kernel::mat3_det(&three).unwrap(), 64.0);
}

#[test]
fn numbers() {
    let (a, x) = ([4.0, 2.0, 2.0, 3.0], [1.0, 2.0]);
    let unit = [1.0, 0.0, 0.0, 1.0];
    assert_eq!(kernel::mat_trace(&a, 2).unwrap(), 7.0);
    assert_eq!(kernel::mat_trace_product(&a, &a, 2).unwrap(), 33.0);
    assert_eq!(kernel::mat_trace_cube(&a, &unit, 2).unwrap(), 175.0);
    assert_eq!(kernel::mat_quadratic_form(&x, &a, 2).unwrap(), 24.0);
    assert_eq!(kernel::mahalanobis_distance_squared_with_inv(&x, &[0.0, 0.0], &unit, 2).unwrap(), 5.0);
    assert_eq!(kernel::mahalanobis_distance_squared(&x, &[0.0, 0.0], &unit, 2).unwrap(), 5.0);
    assert_eq!(kernel::mat_frobenius(&[3.0, 4.0], 1, 2).unwrap(), 5.0);
    assert_eq!(kernel::vec_norm(&[3.0, 4.0], 2).unwrap(), 5.0);
    assert_eq!(kernel::mat_largest_singular_value(&[3.0], 1, 10, 1e-9).unwrap(), 3.0);
    assert_eq!(kernel::condition_number(&[5.0], 1).unwrap(), f64::INFINITY);
    let condition = kernel::condition_number(&[5.0, 4.0, 4.0, 5.0], 2).unwrap();
    assert!((condition - 9.0).abs() < 1e-9, "{condition}");
    let diagonal = [1.0, 0.0, 0.0, 0.0, 2.0, 0.0, 0.0, 0.0, 8.0];
    let condition = kernel::condition_number(&diagonal, 3).unwrap();
    assert!((condition - 8.0).abs() < 1e-6, "{condition}");
    assert_eq!(kernel::condition_number(&[1.0, 2.0, 2.0, 4.0], 2).unwrap(), f64::INFINITY);
    assert_eq!(kernel::max(f64::NAN, 1.0), 1.0);
    assert_eq!((kernel::abs(-2.0), kernel::value(-2.0), kernel::constant(0.5)), (2.0, -2.0, 0.5));
}

#[test]
fn comparisons() {
    let compare = |x: f64, gate: f64| kernel::compare([&[10.0], &[x]], [&[1.0], &[1.0]], 1, 1.0, gate).unwrap();
    assert_eq!(compare(11.0, 16.0), Comparison::Near(0.5));
    assert_eq!(compare(11.0, 0.25), Comparison::Far(0.5));
    assert_eq!(compare(f64::MAX, 16.0), Comparison::NoDistance);
}
