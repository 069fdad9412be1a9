//! Every refusal that the crate can meet, by its number, with the memory that was lent left alone; and the questions in words.
use pelosumba::{fuse, kernel, merge, merge_list, List, Refusal, Track};
use std::slice::from_ref;

fn number<T: std::fmt::Debug>(answer: Result<T, Refusal>) -> u32 {
    answer.unwrap_err().number()
}

/// The call refuses with this number, and leaves what it was lent alone.
fn refuses<T: std::fmt::Debug>(wanted: u32, length: usize, call: impl FnOnce(&mut [f64]) -> Result<T, Refusal>) {
    let mut out = vec![7.0; length];
    assert_eq!(number(call(&mut out)), wanted);
    assert_eq!(out, vec![7.0; length], "a refusal with {wanted} wrote");
}

/// A call on a square matrix of side n, and on a vector where it takes one, that writes so many entries at side 2.
type Writing = (usize, fn(&[f64], usize, &mut [f64]) -> Result<(), Refusal>);

const X: &[f64] = &[1.0, 2.0];

const WRITING: &[Writing] = &[
    (4, |a, n, out| kernel::mat_mul(a, a, n, n, n, out)),
    (4, |a, n, out| kernel::mat_transpose(a, n, n, out)),
    (4, |a, n, out| kernel::mat_ata(a, n, n, out)),
    (4, |a, n, out| kernel::mat_symmetrize(a, n, out)),
    (2, |a, n, out| kernel::mat_vec_mul(a, X, n, out)),
    (4, |a, n, out| kernel::mat_cholesky(a, n, out)),
    (4, |a, n, out| kernel::tikhonov(a, 0.5, n, out)),
    (2, |a, n, out| kernel::row_inf_norms(a, n, out)),
    (2, |a, n, out| kernel::mat_solve(a, X, n, out)),
    (4, |a, n, out| kernel::mat_inv(a, n, out)),
    (4, |a, n, out| kernel::nearest_psd(a, 0.0, n, out).map(|_| ())),
    (4, |a, n, out| kernel::eigenvalue_floor(a, 0.0, n, out).map(|_| ())),
    (2, |a, n, out| kernel::mat_eigenvector_max(a, n, 7, 1e-9, out).map(|_| ())),
    (4, |a, n, out| kernel::tikhonov_with_report(a, 0.5, n, out).map(|_| ())),
];

#[test]
fn of_sides_and_lengths() {
    let a = [4.0, 2.0, 2.0, 3.0];
    for (length, call) in WRITING {
        assert!(call(&a, 2, &mut vec![7.0; *length]).is_ok());
        for side in [0, 17, usize::MAX] {
            refuses(1, *length, |out| call(&a, side, out));
        }
        for wrong in [&[][..], &a[..3], &[1.0; 5]] {
            refuses(2, *length, |out| call(wrong, 2, out));
        }
        for wrong in [0, length - 1, length + 1] {
            refuses(2, wrong, |out| call(&a, 2, out));
        }
    }
    // The eigensolver writes two slices: each may be the wrong one.
    for (values, vectors, wanted) in [(1, 4, 2), (3, 4, 2), (2, 3, 2), (2, 5, 2)] {
        let (mut first, mut second) = (vec![7.0; values], vec![7.0; vectors]);
        assert_eq!(number(kernel::mat_symmetric_eigen(&a, 2, &mut first, &mut second)), wanted);
        assert_eq!((first, second), (vec![7.0; values], vec![7.0; vectors]));
    }
    assert_eq!(number(kernel::mat_trace(&[], 2)), 2);
}

#[test]
fn of_entries() {
    let nan = [1.0, f64::NAN, 0.0, 1.0];
    refuses(3, 4, |out| kernel::nearest_psd(&nan, 0.0, 2, out));
    refuses(3, 4, |out| kernel::eigenvalue_floor(&nan, 0.0, 2, out));
    refuses(4, 4, |out| kernel::nearest_psd(&[f64::MAX; 4], 0.0, 2, out));
    refuses(4, 4, |out| kernel::eigenvalue_floor(&[f64::MAX; 4], 0.0, 2, out));
    refuses(4, 6, |out| {
        let (values, vectors) = out.split_at_mut(2);
        kernel::mat_symmetric_eigen(&nan, 2, values, vectors)
    });
    let (small, singular) = ([1e-151, 0.0, 0.0, 1e-151], [1.0, 2.0, 2.0, 4.0]);
    for (matrix, wanted) in [(small, 5), (singular, 6)] {
        refuses(wanted, 4, |out| kernel::mat_inv(&matrix, 2, out));
        refuses(wanted, 2, |out| kernel::mat_solve(&matrix, X, 2, out));
        assert_eq!(number(kernel::mahalanobis_distance_squared(X, X, &matrix, 2)), wanted);
    }
    refuses(7, 4, |out| kernel::mat_cholesky(&[-1.0, 0.0, 0.0, 1.0], 2, out));
    refuses(8, 9, |out| kernel::mat3_inv(&[1.0; 9], out));
    refuses(8, 3, |out| kernel::mat3_solve(&[1.0; 9], &[1.0; 3], out));
    let compare = |floor, gate| kernel::compare([&[1.0], &[1.0]], [&[1.0], &[1.0]], 1, floor, gate);
    assert_eq!(number(compare(0.0, 16.0)), 18);
    assert_eq!(number(compare(1.0, -1.0)), 18);
}

#[test]
fn of_lists() {
    let field = |bits: u64| [&[1, 1, 1][..], &bits.to_le_bytes()].concat();
    assert_eq!(number(List::read(&[])), 9);
    assert_eq!(number(List::read(&[33, 1])), 10);
    assert_eq!(number(List::read(&[1, 0])), 11);
    assert_eq!(number(List::read(&[1, 10])), 11);
    assert_eq!(number(List::read(&[1, 1])), 12);
    assert_eq!(number(List::read(&field(1)[..10])), 12);
    assert_eq!(number(List::read(&[1, 1, 6])), 13);
    assert_eq!(number(List::read(&field(f64::INFINITY.to_bits()))), 14);
    assert_eq!(number(List::read(&field(0))), 15);
    assert_eq!(number(List::read(&[0, 1, 0])), 16);
}

#[test]
fn of_writing() {
    let track = |state: &[f64], triangle: &[f64]| Track { state: state.to_vec(), triangle: triangle.to_vec() };
    let one = track(&[1.0], &[1.0]);
    assert_eq!(number(List::write(1, &vec![one.clone(); 33])), 10);
    assert_eq!(number(List::write(0, from_ref(&one))), 11);
    assert_eq!(number(List::write(usize::MAX, from_ref(&one))), 11);
    assert_eq!(number(List::write(2, from_ref(&one))), 2);
    // Ten values in all, as two tracks of dimension 2 have.
    let (short, long) = (track(&[1.0, 2.0], &[1.0, 0.0]), track(&[1.0, 2.0], &[1.0, 0.0, 1.0, 0.0]));
    assert_eq!(number(List::write(2, &[short, long])), 2);
    assert_eq!(number(List::write(1, &[track(&[f64::NAN], &[1.0])])), 14);
    assert_eq!(List::write(1, &vec![one; 32]).unwrap().tracks().len(), 32);
}

#[test]
fn of_a_fusion() {
    let track = |sides: usize, entries: usize| Track { state: vec![1.0; sides], triangle: vec![1.0; entries] };
    let refused = |[base, ours, theirs]: [&Track; 3]| number(fuse(base, ours, theirs, 1.0));
    let (one, none) = (track(1, 1), track(0, 0));
    for wrong in [&none, &track(17, 17 * 9)] {
        assert_eq!(refused([wrong; 3]), 1);
        assert_eq!(refused([wrong, &one, &one]), 1);
    }
    // Of one number of fields in all, and of another.
    for wrong in [&none, &track(2, 0), &track(0, 2), &track(1, 2), &track(2, 3)] {
        assert_eq!(refused([&one, wrong, &one]), 2);
        assert_eq!(refused([&one, &one, wrong]), 2);
    }
    for wrong in [&track(1, 0), &track(1, 2), &track(2, 2)] {
        assert_eq!(refused([wrong; 3]), 2);
    }
    let (d, mut unit) = (16, track(16, 0));
    unit.triangle = (0..d).flat_map(|i| (0..=i).map(move |j| f64::from(i == j))).collect();
    assert_eq!(fuse(&unit, &unit, &unit, 1.0), Ok(Some(unit.clone())));
}

#[test]
fn of_a_merge() {
    let one = List::write(1, &[Track { state: vec![10.0], triangle: vec![1.0] }]).unwrap();
    let flat = List::write(2, &[]).unwrap();
    assert_eq!(number(merge(&one, &one, &flat, 1.0, 16.0)), 17);
    for (floor, gate) in [(0.0, 16.0), (f64::NAN, 16.0), (f64::INFINITY, 16.0), (1.0, -1.0), (1.0, f64::NAN)] {
        assert_eq!(number(merge(&one, &one, &one, floor, gate)), 18);
        assert_eq!(number(merge_list(&one, &one, &one, floor, gate)), 18);
    }
}

#[test]
fn of_a_merge_into_a_list() {
    // Tracks so far apart that none are paired, but those of one number.
    let list = |numbers: std::ops::Range<u8>, by: f64| {
        let track = |i| Track { state: vec![100.0 * f64::from(i) + by], triangle: vec![1.0] };
        List::write(1, &numbers.map(track).collect::<Vec<_>>()).unwrap()
    };
    let none = list(0..0, 0.0);
    let refused = |base: &List, ours: &List, theirs: &List| number(merge_list(base, ours, theirs, 1.0, 16.0));
    assert_eq!(refused(&none, &none, &List::write(2, &[]).unwrap()), 17);
    // Changed on both sides and not to be fused, changed on one and deleted on the other, added on both.
    let certain = |at| List::write(1, &[Track { state: vec![at], triangle: vec![0.0] }]).unwrap();
    assert_eq!(refused(&certain(0.0), &certain(1.0), &certain(2.0)), 21);
    assert_eq!(refused(&list(0..1, 0.0), &list(0..1, 1.0), &none), 21);
    assert_eq!(refused(&none, &list(0..1, 1.0), &list(0..1, 2.0)), 21);
    // 32 tracks can be written and 33 cannot, however many were deleted; a conflict is asked for first.
    let (merged, written) = merge_list(&list(40..60, 0.0), &list(0..16, 0.0), &list(16..32, 0.0), 1.0, 16.0).unwrap();
    assert_eq!((merged.rows.len(), written.tracks().len()), (52, 32));
    assert_eq!(refused(&none, &list(0..16, 0.0), &list(16..33, 0.0)), 22);
    assert_eq!(refused(&none, &list(0..32, 0.0), &list(1..33, 0.0)), 22);
    assert_eq!(refused(&none, &list(0..32, 0.0), &list(31..60, 1.0)), 21);
    // A fused track is one of the 32: with 31 that are new in ours it can be written, and with a new one of theirs it cannot.
    let (base, ours, changed) = (list(0..1, 0.0), list(0..32, 1.0), list(0..1, 2.0));
    let (merged, written) = merge_list(&base, &ours, &changed, 1.0, 16.0).unwrap();
    assert_eq!((merged.rows[0].bytes(), merged.rows.len(), written.tracks().len()), ([0, 0, 0, 5], 32, 32));
    let theirs = List::write(1, &[changed.tracks(), list(40..41, 0.0).tracks()].concat()).unwrap();
    assert_eq!(refused(&base, &ours, &theirs), 22);
    // Fused tracks do not hide a conflict.
    let both = |at: f64| {
        let tracks =
            [(at, 1.0), (100.0 + at, 0.0)].map(|(at, variance)| Track { state: vec![at], triangle: vec![variance] });
        List::write(1, &tracks).unwrap()
    };
    let verdicts: Vec<_> = merge(&both(0.0), &both(1.0), &both(2.0), 1.0, 16.0).unwrap().rows;
    assert_eq!(verdicts.iter().map(|row| row.bytes()[3]).collect::<Vec<_>>(), [5, 4]);
    assert_eq!(refused(&both(0.0), &both(1.0), &both(2.0)), 21);
}

/// The words are those of docs/FORMAT.md: a row `| 9 | Are there two bytes? | .. |` for each question.
#[test]
fn in_words() {
    let text = std::fs::read_to_string(concat!(env!("CARGO_MANIFEST_DIR"), "/../../docs/FORMAT.md")).unwrap();
    let refused = List::read(&[]).unwrap_err();
    assert_eq!(refused.to_string(), format!("no 9: {}", refused.question()));
    let rows: Vec<&str> = text.lines().filter(|line| line.contains("? |")).collect();
    assert_eq!(rows.len(), Refusal::QUESTIONS.len());
    for (at, (row, question)) in rows.iter().zip(Refusal::QUESTIONS).enumerate() {
        let upper = question[..1].to_uppercase() + &question[1..];
        assert!(row.starts_with(&format!("| {} | {upper} |", at + 1)), "{row} and {question}");
    }
}
