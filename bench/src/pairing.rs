//! The pairing of 32 by 32 tracks beside plain Rust that sorts the candidates and takes them in order.
use crate::timer::line;
use oracle::rng::Rng;
use std::hint::black_box;

const TRACKS: usize = 32;
const TIMES: usize = 100;
const CASES: usize = 2000;

extern "C" {
    fn bench_pair_tracks(
        keys: *const f64,
        keys_len: usize,
        m: usize,
        n: usize,
        firsts: *mut u8,
        firsts_len: usize,
        seconds: *mut u8,
        seconds_len: usize,
    );
}

/// The partner of each track, or 255.
#[derive(PartialEq)]
struct Partners {
    firsts: Vec<u8>,
    seconds: Vec<u8>,
}

impl Partners {
    fn new(m: usize, n: usize) -> Self {
        Self { firsts: vec![255; m], seconds: vec![255; n] }
    }
}

fn ours(keys: &[f64], to: &mut Partners) {
    let (m, n) = (to.firsts.len(), to.seconds.len());
    assert!(m <= TRACKS && n <= TRACKS && keys.len() == m * n);
    // The call's contract asks for these lengths and nothing else.
    unsafe {
        bench_pair_tracks(keys.as_ptr(), keys.len(), m, n, to.firsts.as_mut_ptr(), m, to.seconds.as_mut_ptr(), n);
    }
}

fn plain(keys: &[f64], to: &mut Partners) {
    to.firsts.fill(255);
    to.seconds.fill(255);
    let n = to.seconds.len();
    let mut order: Vec<usize> = (0..keys.len()).filter(|&k| !keys[k].is_nan()).collect();
    order.sort_unstable_by(|&a, &b| keys[a].partial_cmp(&keys[b]).unwrap().then(a.cmp(&b)));
    for k in order {
        let (i, j) = (k / n, k % n);
        if to.firsts[i] == 255 && to.seconds[j] == 255 {
            to.firsts[i] = j as u8;
            to.seconds[j] = i as u8;
        }
    }
}

/// A key of few values, so that many are equal: a NaN, a zero of either sign, or a small whole number.
fn key(rng: &mut Rng) -> f64 {
    rng.one_of(&[f64::NAN, -1.0, -0.0, 0.0, 1.0, 2.0, 3.0, 4.0])
}

/// Both answers on random keys of every size.
fn compare(rng: &mut Rng) {
    for _ in 0..CASES {
        let mut side = || rng.below(TRACKS as u64 + 1) as usize;
        let (m, n) = (side(), side());
        let keys: Vec<f64> = (0..m * n).map(|_| key(rng)).collect();
        let (mut a, mut b) = (Partners::new(m, n), Partners::new(m, n));
        ours(&keys, &mut a);
        plain(&keys, &mut b);
        assert!(a == b, "the pairings of {m} by {n} tracks differ: {keys:?}");
    }
}

fn time(name: &str, keys: &[f64]) {
    let (mut a, mut b) = (Partners::new(TRACKS, TRACKS), Partners::new(TRACKS, TRACKS));
    line(
        name,
        TIMES,
        || (0..TIMES).for_each(|_| ours(black_box(keys), black_box(&mut a))),
        || (0..TIMES).for_each(|_| plain(black_box(keys), black_box(&mut b))),
    );
}

pub fn run() {
    let mut rng = Rng::new(12);
    compare(&mut rng);
    let cells = TRACKS * TRACKS;
    let random: Vec<f64> = (0..cells).map(|_| rng.unit()).collect();
    let falling: Vec<f64> = (0..cells).map(|k| (cells - k) as f64).collect();
    let one_each: Vec<f64> = (0..cells).map(|k| if k % TRACKS == k / TRACKS { 1.0 } else { f64::NAN }).collect();
    time("pairing 32 by 32, random keys", &random);
    time("pairing 32 by 32, each key less", &falling);
    time("pairing 32 by 32, one candidate each", &one_each);
}
