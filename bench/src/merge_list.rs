//! A merge that writes its list beside the merge alone, of the same lists, and beside the second merger with its list: without a
//! conflict, and with fused tracks alone.
use crate::merging::{measured, side, track, Track, ROOM};
use crate::timer::typical;
use oracle::ffi;
use oracle::lists::{write, LONGEST};
use oracle::merge::checks::WITHIN;
use oracle::merge::list::reference::merge_list;
use oracle::merge::pairings::by_order;
use oracle::rng::Rng;
use std::hint::black_box;

/// Base, ours and theirs, without a conflict: no track is touched on both sides, and all are so far apart that none is taken for
/// another.
fn lists(d: usize, n: usize) -> [Vec<u8>; 3] {
    let mut rng = Rng::new(43);
    let mut base: Vec<Track> = (0..n).map(|_| track(&mut rng, d)).collect();
    base.iter_mut().enumerate().for_each(|(at, track)| track[0] += 1000.0 * at as f64);
    let ours = side(&mut rng, &base, 2, n / 2);
    let theirs = side(&mut rng, &base, 5, n - 2);
    [base, ours, theirs].map(|tracks| write(tracks.len(), d, &tracks.concat()).unwrap())
}

/// Times the merge of lists of a dimension, of n tracks a side, into a list of so many, and prints its line.
fn time(name: &str, d: usize, n: usize, lists: [Vec<u8>; 3], count: usize) {
    let lists = [&lists[0][..], &lists[1], &lists[2]];
    let within = (WITHIN.floor, WITHIN.gate);
    let (mut rows, mut rows_alone, mut out) = ([0u8; ROOM], [0u8; ROOM], [0u8; LONGEST]);
    let ([mut full, mut half, mut single, mut length], mut alone) = ([0; 4], [0; 3]);
    let calls = (40_000 / (n * n * d * d)).max(1);
    let mut with_list = || {
        for _ in 0..calls {
            let numbers = [&mut full, &mut half, &mut single, &mut length];
            let (rows, out) = black_box((&mut rows, &mut out));
            assert!(ffi::merge_list(black_box(lists), within, rows, out, numbers) == 0);
        }
    };
    let without = || {
        for _ in 0..calls {
            let counts = alone.each_mut();
            assert!(ffi::merge(black_box(lists), within, black_box(&mut rows_alone), counts) == 0);
        }
    };
    let (listed, merged) = typical(calls, &mut with_list, without);
    let theirs = || {
        for _ in 0..calls {
            black_box(merge_list(black_box(lists), WITHIN, [ROOM, LONGEST], by_order).is_ok());
        }
    };
    let (again, rust) = typical(calls, &mut with_list, theirs);

    let Ok(reference) = merge_list(lists, WITHIN, [ROOM, LONGEST], by_order) else { panic!("no list of {n} tracks") };
    assert!(reference.count == count && out[..length] == reference.bytes);
    assert!(rows == rows_alone && [full, half, single] == alone);
    println!(
        "{:44} {:9.1} us   merge {:9.1} us   ratio {:5.2}   Rust {:9.1} us   ratio {:5.2}",
        format!("merge_list, {n} {name} of dimension {d}"),
        listed / 1e3,
        merged / 1e3,
        listed / merged,
        rust / 1e3,
        again / rust
    );
}

pub fn run() {
    for d in [1, 3, 6, 9] {
        [8, 16, 32].into_iter().for_each(|n| time("tracks", d, n, lists(d, n), n - 2));
        let fused = measured(d, 32).map(|tracks| write(tracks.len(), d, &tracks.concat()).unwrap());
        time("fused tracks", d, 32, fused, 32);
    }
}
