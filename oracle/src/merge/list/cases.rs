//! Merges whose list, or whose refusal, is known when they are drawn: tracks far apart, of which each has its own fate in ours
//! and in theirs.
use crate::lists::{COUNTS, DIMENSIONS, LONGEST};
use crate::merge::cases::{self, listed, room, Case};
use crate::merge::damage::{fault, one_fault, turn_bit, two_faults};
use crate::merge::edits::{barely, shuffle, Track};
use crate::merge::reference::Within;
use crate::rng::Rng;

/// What base, ours and theirs have: no track, or a form of it, by the letters of `form`.
type Fate = &'static [u8; 3];

/// Rows that write a record: of tracks that both sides have, and of a side's own.
const SHARED: &[Fate] = &[b"aaa", b"aaa", b"aba", b"aab", b"abb", b"-aa"];
const OURS: Fate = b"-a-";
const THEIRS: Fate = b"--a";
/// Rows that write a fused track.
const FUSED: &[Fate] = &[b"abc", b"acb", b"ade", b"aed", b"adb", b"acd"];
/// Rows that write none, and rows that refuse the list: of three tracks those that know nothing together, and those without an inverse.
const DELETED: &[Fate] = &[b"aa-", b"a-a", GONE];
const GONE: Fate = b"a--";
const CONFLICTS: &[Fate] = &[b"afg", b"ab-", b"a-b", b"-ab", b"xyz"];

/// Under all of these a changed track is near, and a track at another place is far.
const FLOORS: &[f64] = &[1.0, 1.0, 0.5, 1e-6];
const GATES: &[f64] = &[16.0, 16.0, 4.0, 0.5, 100.0];

/// How long the list's buffer is.
#[derive(Clone, Copy)]
pub enum Buffer {
    /// So many bytes more than the list, or fewer.
    By(isize),
    Of(usize),
}

impl Buffer {
    pub fn length(self, list: usize) -> usize {
        match self {
            Buffer::By(more) => list.saturating_add_signed(more),
            Buffer::Of(bytes) => bytes,
        }
    }
}

const ENOUGH: &[Buffer] =
    &[Buffer::By(0), Buffer::By(0), Buffer::By(1), Buffer::By(13), Buffer::Of(LONGEST), Buffer::Of(LONGEST + 50)];
const SHORT: &[Buffer] = &[Buffer::By(-1), Buffer::By(-1), Buffer::By(-8), Buffer::Of(0), Buffer::Of(1)];

/// What the call is given, and where it is known how many tracks the list has or which question is the first that is not met.
pub struct Drawn {
    pub case: Case,
    pub buffer: Buffer,
    pub planned: Option<Result<usize, u32>>,
}

/// How many rows of each kind a merge has: those that write a list's record, those that write a fused track, and those that write none.
/// Those that are deleted are fewer where a list would be too long.
#[derive(Clone, Copy, Default)]
pub struct Plan {
    pub winners: usize,
    pub fused: usize,
    pub deleted: usize,
    pub conflicts: usize,
}

impl Plan {
    /// How many tracks the list has.
    fn tracks(&self) -> usize {
        self.winners + self.fused
    }
}

fn upto(rng: &mut Rng, most: usize) -> usize {
    rng.below(most as u64 + 1) as usize
}

fn tracks(fates: &[Fate], list: usize) -> usize {
    fates.iter().filter(|fate| fate[list] != b'-').count()
}

/// Up to 64 winners, less two for each fused row and each conflict: as many as both sides have, and each side's own.
fn fates(rng: &mut Rng, plan: Plan) -> Vec<Fate> {
    let Plan { winners, fused, deleted, conflicts } = plan;
    let most = COUNTS - fused - conflicts;
    let shared = upto(rng, winners.min(2 * most - winners));
    let fewest = winners.saturating_sub(most);
    let ours = fewest + upto(rng, winners.min(most) - shared - fewest);
    let mut fates: Vec<Fate> = (0..shared).map(|_| rng.one_of(SHARED)).collect();
    fates.extend((0..ours).map(|_| OURS));
    fates.extend((0..winners - shared - ours).map(|_| THEIRS));
    fates.extend((0..fused).map(|_| rng.one_of(FUSED)));
    fates.extend((0..conflicts).map(|_| rng.one_of(CONFLICTS)));
    for _ in 0..deleted {
        let fits = |fate: &Fate| (0..3).all(|list| fate[list] == b'-' || tracks(&fates, list) < COUNTS);
        let fate = [rng.one_of(DELETED), GONE].into_iter().find(fits);
        fates.extend(fate);
    }
    shuffle(rng, &mut fates);
    fates
}

/// Some fields are zeros of either sign, so that records differ in length; the covariance is definite all the same.
fn far_apart(rng: &mut Rng, d: usize, place: usize) -> Track {
    let mut state: Vec<f64> = (0..d).map(|_| some(rng, 10.0)).collect();
    state[0] = 1000.0 * place as f64;
    cases::track(state, |i, j| if i == j { d as f64 * 0.5 + 1.0 + rng.unit() } else { some(rng, 0.5) })
}

fn some(rng: &mut Rng, scale: f64) -> f64 {
    match rng.below(6) {
        0 | 1 => 0.0,
        2 => -0.0,
        _ => rng.unit() * scale,
    }
}

/// A greater variance at some place.
fn widened(rng: &mut Rng, track: &Track, d: usize) -> Track {
    let (mut other, at) = (track.clone(), upto(rng, d - 1));
    let variance = &mut other[d + at * (at + 3) / 2];
    *variance = *variance * 1.5 + 0.5;
    other
}

/// Another record near the track's.
fn changed(rng: &mut Rng, track: &Track, d: usize) -> Track {
    let mut other = track.clone();
    match rng.below(3) {
        0 => barely(rng, &mut other),
        1 => other[upto(rng, d - 1)] += 0.1 + rng.unit() * 0.05,
        _ => return widened(rng, track, d),
    }
    other
}

/// The track with so many times its covariance, moved or not.
fn times(track: &Track, d: usize, factor: f64, moved: f64) -> Track {
    let mut other = track.clone();
    other[d..].iter_mut().for_each(|x| *x *= factor);
    other[0] += moved;
    other
}

/// The track without a covariance, and two that are barely others.
fn sure(track: &Track, d: usize) -> [Track; 3] {
    let mut known = track.clone();
    known[d..].fill(0.0);
    let (mut other, mut another) = (known.clone(), known.clone());
    other[d] = -0.0;
    another[0] = f64::from_bits(another[0].to_bits() ^ 1);
    [known, other, another]
}

/// The track as it is (a), changed (b) and changed again (c); better known (d, e) and half as well known (f, g), moved or not; and so
/// that its covariance is 0 (x, y, z).
fn form(letter: u8, track: &Track, changed: [&Track; 2], d: usize) -> Option<Track> {
    match letter {
        b'a' => Some(track.clone()),
        b'b' | b'c' => Some(changed[usize::from(letter - b'b')].clone()),
        b'd' => Some(times(track, d, 0.5, 0.0)),
        b'e' => Some(times(track, d, 0.25, 0.125)),
        b'f' => Some(times(track, d, 2.0, 0.0)),
        b'g' => Some(times(track, d, 2.0, 0.125)),
        b'x'..=b'z' => Some(sure(track, d)[usize::from(letter - b'x')].clone()),
        _ => None,
    }
}

/// Three lists of a dimension with these rows.
pub fn draw_of(rng: &mut Rng, d: usize, plan: Plan) -> Case {
    let mut tracks: [Vec<Track>; 3] = Default::default();
    for (place, fate) in fates(rng, plan).into_iter().enumerate() {
        let track = far_apart(rng, d, place);
        let other = changed(rng, &track, d);
        let another = widened(rng, &other, d);
        for (list, letter) in tracks.iter_mut().zip(fate) {
            list.extend(form(*letter, &track, [&other, &another], d));
        }
    }
    for side in &mut tracks[1..] {
        if rng.below(2) == 0 {
            shuffle(rng, side);
        }
    }
    let within = Within { floor: rng.one_of(FLOORS), gate: rng.one_of(GATES) };
    let room = room(rng, tracks.iter().map(Vec::len).sum());
    Case { class: "far apart", lists: tracks.each_ref().map(|tracks| listed(tracks, d)), within, room }
}

/// Large merges of a high dimension take milliseconds.
fn dimension(rng: &mut Rng, winners: usize, most: usize) -> usize {
    let most = if winners > 8 && rng.below(16) != 0 { most.min(3) } else { most };
    1 + upto(rng, most - 1)
}

/// A merge of a dimension whose list is written.
pub fn written_of(rng: &mut Rng, d: usize, plan: Plan) -> Drawn {
    let case = draw_of(rng, d, plan);
    Drawn { case, buffer: rng.one_of(ENOUGH), planned: Some(Ok(plan.tracks())) }
}

/// A merge whose list is written.
pub fn written(rng: &mut Rng) -> Drawn {
    let winners = match rng.below(16) {
        0 => 0,
        1 => COUNTS,
        2 => upto(rng, COUNTS),
        _ => upto(rng, 6),
    };
    let deleted = if rng.below(16) == 0 { COUNTS } else { upto(rng, 3) };
    let fused = match rng.below(4) {
        0 => upto(rng, winners),
        1 => winners.min(upto(rng, 3)),
        _ => 0,
    };
    let d = dimension(rng, winners.max(deleted), DIMENSIONS);
    written_of(rng, d, Plan { winners: winners - fused, fused, deleted, conflicts: 0 })
}

/// Questions that are not met at once, in their order.
pub const UNMET: &[&[u32]] = &[
    &[21],
    &[22],
    &[20],
    &[21, 22],
    &[21, 20],
    &[22, 20],
    &[21, 22, 20],
    &[18, 21],
    &[18, 22],
    &[18, 20],
    &[19, 21],
    &[19, 22],
    &[19, 20],
];

/// A merge of up to so many dimensions whose list is refused, each time by the next of these; so many of its rows are fused.
pub fn refused(rng: &mut Rng, time: u32, dimensions: usize, fused: usize) -> Drawn {
    let unmet = UNMET[time as usize % UNMET.len()];
    let is_unmet = |question: u32| unmet.contains(&question);
    let conflicts = if is_unmet(21) { 1 + upto(rng, 1) } else { 0 };
    let winners = if is_unmet(22) {
        // Of the first ones the fused rows are those that are too many.
        rng.one_of(&[COUNTS + 1 - fused, COUNTS + 1 - fused, COUNTS + 2, 48, 2 * (COUNTS - fused - conflicts)])
    } else {
        let most = if rng.below(8) == 0 { COUNTS - fused - conflicts } else { 5 };
        1 + upto(rng, most - 1)
    };
    let deleted = if rng.below(8) == 0 { COUNTS } else { upto(rng, 3) };
    let d = dimension(rng, winners.max(deleted), dimensions);
    let mut case = draw_of(rng, d, Plan { winners, fused, deleted, conflicts });
    for question in unmet.iter().filter(|question| **question < 20) {
        fault(rng, &mut case, 0, *question);
    }
    Drawn { case, buffer: rng.one_of(if is_unmet(20) { SHORT } else { ENOUGH }), planned: Some(Err(unmet[0])) }
}

pub fn with_any_buffer(rng: &mut Rng, case: Case) -> Drawn {
    let buffers = if rng.below(4) == 0 { SHORT } else { ENOUGH };
    Drawn { case, buffer: rng.one_of(buffers), planned: None }
}

/// Any merge, with one fault or two in its lists, its floor or gate, or its row buffer; each time the next ones.
pub fn damaged(rng: &mut Rng, time: u32) -> Drawn {
    let mut case = cases::draw(rng);
    match time % 4 {
        0 | 2 => two_faults(rng, &mut case, time / 2),
        1 => drop(one_fault(rng, &mut case, time / 4)),
        _ => turn_bit(rng, &mut case),
    }
    with_any_buffer(rng, case)
}

/// Any merge; every other time one side has left base as it was, or both have measured its tracks.
pub fn any(rng: &mut Rng, time: u32) -> Drawn {
    let mut case = match time % 4 {
        1 => cases::measured(rng),
        _ => cases::draw(rng),
    };
    if time.is_multiple_of(2) {
        case.lists[1 + upto(rng, 1)] = case.lists[0].clone();
        case.room = room(rng, case.lists.iter().map(|list| list[0] as usize).sum());
    }
    with_any_buffer(rng, case)
}
