//! The calls that rotate, which are compared on symmetric matrices too, and the floors that repairs are given.
use crate::classes::{Class, SUBNORMAL};
use crate::ffi::{self, Report};
use crate::lent::Entry;
use crate::matrix::{draw, one_side, square, Call, Never, Part, Part::*};
use crate::rng::Rng;
use nolan::flat::{at, Given};

pub const ROTATING: &[Call] = &[
    Call {
        name: "mat_symmetric_eigen",
        sides: one_side,
        reads: square,
        // The eigenvalues, and after them the vectors.
        writes: |s| vec![Slice(s[0]), Slice(s[0] * s[0])],
        ours: |g, s, out| {
            let [values, vectors] = out else { unreachable!("two parts") };
            ffi::mat_symmetric_eigen(g.slices[0], s[0], values, vectors)
        },
        theirs: at::mat_symmetric_eigen,
        refuses: &[1, 2, 4],
        never: &[Never::Nan(0), Never::Nan(1)],
    },
    Call {
        name: "nearest_psd",
        sides: one_side,
        reads: square,
        writes: repaired,
        ours: |g, s, out| repair(ffi::nearest_psd, g, s[0], out),
        theirs: at::nearest_psd,
        refuses: &[1, 2, 3, 4],
        never: &[Never::Nan(2)],
    },
    Call {
        name: "eigenvalue_floor",
        sides: one_side,
        reads: square,
        writes: repaired,
        ours: |g, s, out| repair(ffi::eigenvalue_floor, g, s[0], out),
        theirs: at::eigenvalue_floor,
        refuses: &[1, 2, 3, 4],
        never: &[Never::Nan(2)],
    },
];

/// The matrix, and after it the clip count, the largest clip and the mask as a number.
fn repaired(s: &[usize]) -> Vec<Part> {
    vec![Slice(s[0] * s[0]), Whole, Number, Whole]
}

/// The count and the mask are taken over as numbers where they were written.
fn repair(
    call: fn(&[f64], f64, usize, &mut [f64], &mut Report) -> u32,
    given: &Given,
    n: usize,
    out: &mut [&mut [f64]],
) -> u32 {
    let [matrix, count, clip, mask] = out else { unreachable!("four parts") };
    let before = Report { count: usize::mark(0), clip: clip[0], mask: u32::mark(0) };
    let mut report = before;
    let number = call(given.slices[0], given.number, n, matrix, &mut report);
    if report.count != before.count {
        count[0] = report.count as f64;
    }
    clip[0] = report.clip;
    if report.mask != before.mask {
        mask[0] = f64::from(report.mask);
    }
    number
}

/// One of the eigenvalues that the Rust gives, where it gives any.
pub fn eigenvalue(rng: &mut Rng, n: usize, matrix: &[f64]) -> Option<f64> {
    let mut pairs = vec![0.0; n + n * n];
    let told = at::mat_symmetric_eigen(&[n])(&Given { slices: &[matrix], number: 0.0, ..Given::default() }, &mut pairs);
    (told == 0).then(|| rng.one_of(&pairs[..n]))
}

/// The slices of a case, and a floor: any number, a special one, an eigenvalue or its neighbour, a subnormal or negative number.
pub fn draw_floor(rng: &mut Rng, fill: Class, shapes: &[(usize, usize)]) -> (Vec<Vec<f64>>, f64) {
    let (slices, number) = draw(rng, fill, shapes);
    let floor = match rng.below(8) {
        turn @ 0..=2 => {
            let beside = [|x| x, f64::next_up, f64::next_down][turn as usize];
            eigenvalue(rng, shapes[0].1, &slices[0]).map_or(number, beside)
        }
        3 => rng.one_of(&[f64::NAN, f64::INFINITY, f64::NEG_INFINITY, 0.0, -0.0]),
        4 => f64::from_bits(rng.bits() & SUBNORMAL),
        5 => -rng.unit().abs() * rng.one_of(&[1.0, 1e-8, 1e3]),
        _ => number,
    };
    (slices, floor)
}
