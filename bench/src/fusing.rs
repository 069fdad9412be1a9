//! A fusion of three tracks beside the source's functions, composed the same way.
use crate::timer::line;
use nolan::linalg::{generic, regularize};
use oracle::ffi;
use oracle::fusing::cases::fields;
use oracle::fusing::reference::state_and_covariance;
use oracle::rng::Rng;
use std::hint::black_box;

const FLOOR: f64 = 1e-6;

/// So many threes of tracks, one after the other, and so many times.
const THREES: usize = 64;
const TIMES: usize = 20;

/// The fields of base, ours and theirs.
type Three = [Vec<f64>; 3];

/// Base has a covariance with a heavy diagonal, and each side one that is smaller, and another state: all are fused.
fn threes<const N: usize>() -> Vec<Three> {
    let mut rng = Rng::new(19);
    let mut track = |scale: f64| {
        let mut fields: Vec<f64> = (0..N).map(|_| rng.unit()).collect();
        for i in 0..N {
            fields.extend((0..i).map(|_| scale * rng.unit()));
            fields.push(scale * (N as f64 + rng.unit()));
        }
        fields
    };
    (0..THREES).map(|_| [track(4.0), track(1.0), track(1.0)]).collect()
}

/// The rule of the fusion over the source's functions; answers whether there is a track.
fn theirs<const N: usize>(tracks: [&[f64]; 3], floor: f64, out: &mut [f64]) -> bool {
    let [(xb, pb), (xo, po), (xt, pt)] = tracks.map(state_and_covariance::<N>);
    let (Some(yb), Some(yo), Some(yt)) = (generic::mat_inv(&pb), generic::mat_inv(&po), generic::mat_inv(&pt)) else {
        return false;
    };
    let [vb, vo, vt] = [(&yb, &xb), (&yo, &xo), (&yt, &xt)].map(|(y, x)| generic::mat_vec_mul(y, x));
    let (mut y, mut v) = ([[0.0; N]; N], [0.0; N]);
    for i in 0..N {
        for j in 0..N {
            y[i][j] = (yo[i][j] + yt[i][j]) - yb[i][j];
        }
        v[i] = (vo[i] + vt[i]) - vb[i];
    }
    let (Some(state), Some(inverse)) = (generic::mat_solve(&y, &v), generic::mat_inv(&y)) else { return false };
    let Ok(repaired) = regularize::nearest_psd(&generic::mat_symmetrize(&inverse), floor) else { return false };
    if !state.iter().chain(repaired.cov.as_flattened()).all(|x| x.is_finite()) {
        return false;
    }
    out[..N].copy_from_slice(&state);
    for i in 0..N {
        out[N + i * (i + 1) / 2..][..=i].copy_from_slice(&repaired.cov[i][..=i]);
    }
    true
}

/// What the Rust is, for one order.
type Fusion = fn([&[f64]; 3], f64, &mut [f64]) -> bool;

fn slices(three: &Three) -> [&[f64]; 3] {
    three.each_ref().map(Vec::as_slice)
}

/// Both sides are called: the compiler does not see which function the pointer leads to.
fn order<const N: usize>() {
    let threes = threes::<N>();
    let rust: Fusion = black_box(theirs::<N>);
    let (mut out, mut beside, mut fused) = (vec![0.0; fields(N)], vec![0.0; fields(N)], 0);
    for three in &threes {
        assert!(ffi::fuse(slices(three), N, FLOOR, &mut out, &mut fused) == 0 && fused == 1, "fuse {N}: no track");
        assert!(rust(slices(three), FLOOR, &mut beside) && out == beside, "fuse {N}: another track than the Rust's");
    }
    let round = || (0..TIMES).flat_map(|_| &threes);
    line(
        &format!("fuse {N}"),
        TIMES * THREES,
        || {
            round().for_each(|three| {
                assert!(ffi::fuse(slices(black_box(three)), N, FLOOR, black_box(&mut out), black_box(&mut fused)) == 0);
            })
        },
        || round().for_each(|three| assert!(rust(slices(black_box(three)), FLOOR, black_box(&mut beside)))),
    );
}

pub fn run() {
    order::<1>();
    order::<2>();
    order::<3>();
    order::<4>();
    order::<6>();
    order::<9>();
    order::<16>();
}
