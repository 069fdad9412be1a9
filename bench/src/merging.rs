//! Whole merges beside the second merger of the differential run, how much of their time is not spent on comparisons, and how
//! it grows with the tracks. These have no row that is fused, and no conflict of three tracks; merges whose rows are all fused
//! stand by themselves, beside merges of as many comparisons without a conflict.
use crate::timer::typical;
use oracle::ffi;
use oracle::lists::{fields, write};
use oracle::merge::checks::WITHIN;
use oracle::merge::pairings::by_order;
use oracle::merge::reference::{merge, Merged};
use oracle::rng::Rng;
use std::hint::black_box;

pub const ROOM: usize = 4 * 3 * 32;

pub type Track = Vec<f64>;

/// A track with a definite covariance, far from the others.
pub fn track(rng: &mut Rng, d: usize) -> Track {
    let mut fields: Track = (0..d).map(|_| rng.unit() * 100.0).collect();
    for i in 0..d {
        fields.extend((0..i).map(|_| rng.unit() * 0.5));
        fields.push(d as f64 * 0.5 + 1.0 + rng.unit());
    }
    fields
}

/// Base with one track in ten moved, the first of them at `changed`, and one deleted.
pub fn side(rng: &mut Rng, base: &[Track], changed: usize, deleted: usize) -> Vec<Track> {
    let mut tracks = base.to_vec();
    for track in tracks.iter_mut().skip(changed).step_by(10) {
        track[0] += 0.5 + rng.unit() * 0.25;
    }
    tracks.remove(deleted);
    tracks
}

/// Base, ours and theirs.
fn herds(d: usize, n: usize) -> [Vec<Track>; 3] {
    let mut rng = Rng::new(43);
    let base: Vec<Track> = (0..n).map(|_| track(&mut rng, d)).collect();
    let ours = side(&mut rng, &base, 2, n / 2);
    let theirs = side(&mut rng, &base, 5, n / 3);
    [base, ours, theirs]
}

/// Base, ours and theirs, of which both sides have measured every track, so that all rows are fused. All are so far apart that none is
/// taken for another.
pub fn measured(d: usize, n: usize) -> [Vec<Track>; 3] {
    let mut rng = Rng::new(43);
    let mut base: Vec<Track> = (0..n).map(|_| track(&mut rng, d)).collect();
    base.iter_mut().enumerate().for_each(|(at, track)| track[0] += 1000.0 * at as f64);
    let [ours, theirs] = [0.5, 0.75].map(|factor| {
        let mut tracks = base.clone();
        for track in &mut tracks {
            track[..d].iter_mut().for_each(|x| *x += rng.unit() * 0.25);
            track[d..].iter_mut().for_each(|x| *x *= factor);
        }
        tracks
    });
    [base, ours, theirs]
}

/// A state, and the whole covariance.
struct Whole {
    state: Vec<f64>,
    covariance: Vec<f64>,
}

fn whole(track: &Track, d: usize) -> Whole {
    let mut covariance = vec![0.0; d * d];
    for i in 0..d {
        for j in 0..=i {
            let x = track[d + i * (i + 1) / 2 + j];
            covariance[i * d + j] = x;
            covariance[j * d + i] = x;
        }
    }
    Whole { state: track[..d].to_vec(), covariance }
}

/// What a merge compares, each track of the first with each of the second: base with ours, base with theirs, and those that
/// are free of base.
fn compared(herds: &[Vec<Track>; 3], merged: &Merged, d: usize) -> [[Vec<Whole>; 2]; 3] {
    let all = |list: usize| herds[list].iter().map(|track| whole(track, d)).collect();
    let free = |list: usize| {
        let of = &merged.pairings[list - 1];
        let tracks = herds[list].iter().enumerate().filter(|(j, _)| of.first_of(*j).is_none());
        tracks.map(|(_, track)| whole(track, d)).collect()
    };
    [[all(0), all(1)], [all(0), all(2)], [free(1), free(2)]]
}

/// Times one size, prints its line, and answers the merge's nanoseconds and how many comparisons it makes.
fn time(d: usize, n: usize) -> (f64, f64) {
    let herds = herds(d, n);
    let lists = herds.each_ref().map(|tracks| write(tracks.len(), d, &tracks.concat()).unwrap());
    assert!(herds.iter().flatten().all(|track| track.len() == fields(d)));
    let lists = [&lists[0][..], &lists[1], &lists[2]];
    let within = (WITHIN.floor, WITHIN.gate);
    let mut rows = [0u8; ROOM];
    let [mut full, mut half, mut single] = [0; 3];
    let calls = (40_000 / (n * n * d * d)).max(1);
    let mut ours = || {
        for _ in 0..calls {
            let counts = [&mut full, &mut half, &mut single];
            assert!(ffi::merge(black_box(lists), within, black_box(&mut rows), counts) == 0);
        }
    };
    let theirs = || {
        for _ in 0..calls {
            black_box(merge(black_box(lists), WITHIN, ROOM, by_order).is_ok());
        }
    };
    let (merged, rust) = typical(calls, &mut ours, theirs);

    let Ok(reference) = merge(lists, WITHIN, ROOM, by_order) else { panic!("a merge of {n} tracks refused") };
    assert!(reference.fused.iter().all(Option::is_none) && reference.unfused() == 0, "a conflict of three tracks");
    let pairs = compared(&herds, &reference, d);
    let comparisons: usize = pairs.iter().map(|[firsts, seconds]| firsts.len() * seconds.len()).sum();
    let (mut kind, mut d2) = (0, 0.0);
    let mut compare = |i: &Whole, j: &Whole| {
        let (i, j) = ([&i.state[..], &i.covariance], [&j.state[..], &j.covariance]);
        assert!(ffi::compare(i, j, d, within, &mut kind, &mut d2) == 0);
    };
    let compare_all = || {
        for [firsts, seconds] in (0..calls).flat_map(|_| black_box(&pairs)) {
            firsts.iter().for_each(|i| seconds.iter().for_each(|j| compare(i, j)));
        }
    };
    let (again, alone) = typical(calls, &mut ours, compare_all);
    assert!((full, half, single) == (reference.full, reference.half, reference.single));
    assert!(rows[..4 * reference.rows.len()] == *reference.rows.as_flattened());
    println!(
        "{:44} {:9.1} us   Rust {:9.1} us   ratio {:5.2}   {:5.1} % outside {comparisons} comparisons",
        format!("merge, {n} tracks of dimension {d}"),
        merged / 1e3,
        rust / 1e3,
        merged / rust,
        100.0 * (1.0 - alone / again)
    );
    (merged, comparisons as f64)
}

/// Times a merge whose rows are all fused, the second merger, and the merge in which theirs has made ours' changes: the same comparisons
/// and no conflict.
fn time_fused(d: usize, n: usize) {
    let lists = measured(d, n).map(|tracks| write(tracks.len(), d, &tracks.concat()).unwrap());
    let fused = [&lists[0][..], &lists[1], &lists[2]];
    let alike = [&lists[0][..], &lists[1], &lists[1]];
    let within = (WITHIN.floor, WITHIN.gate);
    let calls = (40_000 / (n * n * d * d)).max(1);
    let round = |lists: [&[u8]; 3], rows: &mut [u8; ROOM]| {
        let [mut full, mut half, mut single] = [0; 3];
        for _ in 0..calls {
            let counts = [&mut full, &mut half, &mut single];
            assert!(ffi::merge(black_box(lists), within, black_box(rows), counts) == 0);
        }
    };
    let (mut rows, mut rows_alike) = ([0u8; ROOM], [0u8; ROOM]);
    let (with, without) = typical(calls, || round(fused, &mut rows), || round(alike, &mut rows_alike));
    let theirs = || {
        for _ in 0..calls {
            black_box(merge(black_box(fused), WITHIN, ROOM, by_order).is_ok());
        }
    };
    let (again, rust) = typical(calls, || round(fused, &mut rows), theirs);
    let told = |rows: &[u8]| rows[..4 * n].iter().skip(3).step_by(4).copied().collect::<Vec<u8>>();
    assert!(told(&rows) == vec![5; n] && told(&rows_alike) == vec![1; n], "rows that are not as they were drawn");
    println!(
        "{:44} {:9.1} us   Rust {:9.1} us   ratio {:5.2}   without a conflict {:9.1} us, ratio {:5.2}",
        format!("merge, {n} fused tracks of dimension {d}"),
        with / 1e3,
        rust / 1e3,
        again / rust,
        without / 1e3,
        with / without
    );
}

pub fn run() {
    for d in [1, 3, 6, 9] {
        let [(least, few), _, (most, many)] = [8, 16, 32].map(|n| time(d, n));
        let (growth, work) = (most / least, many / few);
        println!(
            "merge, dimension {d}: 32 tracks take {growth:.1} times as long as 8, with {work:.1} times the comparisons"
        );
        time_fused(d, 32);
    }
}
