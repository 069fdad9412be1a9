//! What happens to a herd between two lists: tracks stay, move, cross the gate, go, come, are doubled and exchanged.
use super::reference::Within;
use crate::lists::COUNTS;
use crate::rng::Rng;

/// A track's fields.
pub type Track = Vec<f64>;

/// A random field of the track.
pub fn field_mut<'a>(rng: &mut Rng, track: &'a mut Track) -> &'a mut f64 {
    let at = rng.below(track.len() as u64) as usize;
    &mut track[at]
}

/// Changes a field, where the new value is one that a list can hold.
fn change(field: &mut f64, to: impl FnOnce(f64) -> f64) {
    let value = to(*field);
    if value.is_finite() {
        *field = value;
    }
}

/// Moves one value of the state so far that the squared distance is about the gate, were the covariance diagonal.
fn across_the_gate(rng: &mut Rng, track: &mut Track, d: usize, within: Within) {
    let at = rng.below(d as u64) as usize;
    let variance = (2.0 * track[d + at * (at + 3) / 2]).max(within.floor);
    let step = (within.gate * variance).sqrt() * rng.one_of(&[0.5, 0.9, 0.999, 1.0, 1.001, 1.1, 2.0]);
    let sign = rng.one_of(&[1.0, -1.0]);
    change(&mut track[at], |x| x + step * sign);
}

/// A zero gets the other sign, or a field its neighbour: equal to a distance, and another record.
pub fn barely(rng: &mut Rng, track: &mut Track) {
    let zero = track.iter().position(|x| *x == 0.0);
    match zero {
        Some(at) if rng.below(2) == 0 => track[at] = -track[at],
        _ => {
            change(field_mut(rng, track), |x| f64::from_bits(x.to_bits() ^ 1));
        }
    }
}

/// A side's own measurement of a track: its state moves or stays, and its covariance shrinks, stays, is doubled or grows, as a whole or by
/// places.
pub fn measured(rng: &mut Rng, track: &Track, d: usize) -> Track {
    let whole = match rng.below(8) {
        0 => 1.0,
        1 | 2 => 2.0,
        3 => 3.0 + rng.unit(),
        _ => 0.5 + rng.unit() * 0.45,
    };
    let by_places = rng.below(4) == 0;
    let places: Vec<f64> = (0..d).map(|_| if by_places { 0.75 + rng.unit() * 0.5 } else { 1.0 }).collect();
    let mut other = track.clone();
    for (at, (i, j)) in (0..d).flat_map(|i| (0..=i).map(move |j| (i, j))).enumerate() {
        change(&mut other[d + at], |x| x * whole * (places[i] * places[j]));
    }
    for x in &mut other[..d] {
        if rng.below(3) != 0 {
            change(x, |x| x + rng.unit() * 0.25);
        }
    }
    other
}

/// Two tracks exchange their states.
fn exchange_states(rng: &mut Rng, tracks: &mut [Track], d: usize) {
    let (i, j) = (rng.below(tracks.len() as u64) as usize, rng.below(tracks.len() as u64) as usize);
    if i != j {
        let [a, b] = tracks.get_disjoint_mut([i, j]).unwrap();
        a[..d].swap_with_slice(&mut b[..d]);
    }
}

pub fn shuffle<T>(rng: &mut Rng, all: &mut [T]) {
    for i in (1..all.len()).rev() {
        all.swap(i, rng.below(i as u64 + 1) as usize);
    }
}

/// One side's list. A track is touched once in `calm` times; `new` draws one that comes to a place.
pub fn edited(
    rng: &mut Rng,
    from: &[Track],
    d: usize,
    within: Within,
    calm: u64,
    new: &mut impl FnMut(&mut Rng, usize) -> Track,
) -> Vec<Track> {
    let mut tracks = Vec::new();
    for (at, track) in from.iter().enumerate() {
        let mut track = track.clone();
        if rng.below(calm) != 0 {
            tracks.push(track);
            continue;
        }
        match rng.below(9) {
            0 | 1 => {
                let at = rng.below(d as u64) as usize;
                change(&mut track[at], |x| x + rng.unit() * 0.2);
            }
            2 | 3 => across_the_gate(rng, &mut track, d, within),
            4 => continue,
            5 => {
                let at = d + rng.below((track.len() - d) as u64) as usize;
                change(&mut track[at], |x| x * 1.5 + 0.5);
            }
            6 => tracks.push(track.clone()),
            7 => barely(rng, &mut track),
            _ => track = new(rng, at),
        }
        tracks.push(track);
    }
    let come = if rng.below(3) == 0 { rng.below(3) } else { 0 };
    for _ in 0..come {
        let track = new(rng, tracks.len());
        tracks.insert(rng.below(tracks.len() as u64 + 1) as usize, track);
    }
    if !tracks.is_empty() {
        match rng.below(8) {
            0 => exchange_states(rng, &mut tracks, d),
            1 => shuffle(rng, &mut tracks),
            2 => {
                let at = rng.below(tracks.len() as u64) as usize;
                tracks.rotate_left(at);
            }
            _ => {}
        }
    }
    tracks.truncate(COUNTS);
    tracks
}
