//! Comparisons of two tracks beside the source's functions, composed as document 01 says.
use crate::classes::{Named, CLASSES};
use crate::faults::{self, Fault, Kind, Met, Shape};
use crate::ffi;
use crate::lent::Lent;
use crate::rng::Rng;
use crate::symmetric::{mirrored, SYMMETRIC};
use crate::tally::{self, Tally};
use nolan::flat::{at, Given};

const FLOORS: &[f64] = &[5e-324, 1e-300, 1e-160, 1e-150, 1e-12, 1e-6, 1.0, 1e6, 1e150, 1e300];
const GATES: &[f64] = &[0.0, -0.0, 5e-324, 1.0, 16.0, 1e6, 1e300];
pub const BAD_FLOORS: &[f64] = &[0.0, -0.0, -5e-324, -1.0, f64::INFINITY, f64::NEG_INFINITY, f64::NAN];
pub const BAD_GATES: &[f64] = &[-5e-324, -1.0, f64::INFINITY, f64::NEG_INFINITY, f64::NAN];

/// Two tracks of one dimension.
pub struct Pair {
    pub mu: Vec<f64>,
    pub x: Vec<f64>,
    pub p_i: Vec<f64>,
    pub p_j: Vec<f64>,
}

/// The refusal's number or 0, the kind, and the squared distance, which is written where the kind is not 0.
pub type Answer = (u32, u32, f64);

/// How many answers were of each kind, and why there was no distance.
#[derive(Default)]
pub struct Kinds {
    near: u64,
    far: u64,
    refused: u64,
    repair: u64,
    inverse: u64,
    infinite: u64,
    negative: u64,
}

impl Kinds {
    /// The answer that document 01 asks for, counted.
    pub fn wanted(&mut self, asked: u32, d2: f64, gate: f64) -> Answer {
        let (count, kind) = match asked {
            3 | 4 => (&mut self.repair, 0),
            5 | 6 => (&mut self.inverse, 0),
            _ if !d2.is_finite() => (&mut self.infinite, 0),
            _ if d2 < 0.0 => (&mut self.negative, 0),
            _ if d2 <= gate => (&mut self.near, 1),
            _ => (&mut self.far, 2),
        };
        *count += 1;
        (0, kind, d2)
    }
}

fn compare(tally: &mut Tally, pair: &Pair, n: usize, within: (f64, f64), wanted: Answer, class: &str) {
    let [mut mu, mut x, mut p_i, mut p_j] = [&pair.mu, &pair.x, &pair.p_i, &pair.p_j].map(|slice| Lent::holding(slice));
    let (mut kind, mut d2) = (Lent::<u32>::marked(1), Lent::<f64>::marked(1));
    let (i, j) = ([mu.slice(), p_i.slice()], [x.slice(), p_j.slice()]);
    let mut number = ffi::compare(i, j, n, within, kind.one(), d2.one());
    let written = wanted.0 == 0 && wanted.1 != 0;
    faults::plant(CALL, || Met {
        number: &mut number,
        also: unmet(pair, n, within),
        wrong: wrong_lengths(pair, n),
        reads: vec![&mut mu, &mut x, &mut p_i, &mut p_j],
        writes: vec![(&mut kind, 1), (&mut d2, usize::from(written))],
    });
    let kind_wanted = [wanted.1];
    let agrees = number == wanted.0
        && kind.begins_with(if wanted.0 == 0 { &kind_wanted } else { &[] })
        && d2.begins_with(if written { std::slice::from_ref(&wanted.2) } else { &[] });
    let kept = [&mu, &x, &p_i, &p_j].into_iter().all(Lent::is_untouched);
    tally.refused(wanted.0);
    tally.case(agrees && kept, || {
        format!(
            "side {n}, {class}, floor and gate {within:?}: answers {number}, kind {}, {:e}, not {wanted:?}, what is read {}\n    {:?} {:?} {:?} {:?}",
            kind.slice()[0],
            d2.slice()[0],
            if kept { "stays" } else { "is changed" },
            pair.mu,
            pair.x,
            pair.p_i,
            pair.p_j
        )
    });
}

/// The slices that have another length than the side asks for.
fn wrong_lengths(pair: &Pair, n: usize) -> Vec<usize> {
    let square = n.saturating_mul(n);
    let lengths = [(pair.mu.len(), n), (pair.x.len(), n), (pair.p_i.len(), square), (pair.p_j.len(), square)];
    (0..4).filter(|at| lengths[*at].0 != lengths[*at].1).collect()
}

/// The questions that are not met, each asked by itself.
fn unmet(pair: &Pair, n: usize, (floor, gate): (f64, f64)) -> Vec<u32> {
    let lengths = wrong_lengths(pair, n).is_empty();
    let within = floor.is_finite() && floor > 0.0 && gate.is_finite() && gate >= 0.0;
    [(1, (1..=16).contains(&n)), (2, lengths), (18, within)].iter().filter(|(_, met)| !met).map(|(q, _)| *q).collect()
}

/// States that are near, equal, far apart, or whose difference overflows or is no number.
fn states(rng: &mut Rng, n: usize) -> (Vec<f64>, Vec<f64>) {
    let kind = rng.below(8);
    let scale = rng.one_of(&[1.0, 1.0, 10.0, 1e-5, 1e5, 1e150]);
    let mu: Vec<f64> = (0..n).map(|_| rng.unit() * scale).collect();
    let x = mu
        .iter()
        .map(|m| match kind {
            0 => *m,
            1 => m + rng.unit() * scale * 1e-9,
            2 => -m,
            3 => rng.one_of(&[1e308, -1e308, f64::MAX, 0.0]),
            4 => rng.one_of(&[f64::INFINITY, f64::NEG_INFINITY, f64::NAN, 1.0, 0.0]),
            _ => rng.unit() * scale,
        })
        .collect();
    let mu = if kind == 3 { mu.iter().map(|_| rng.one_of(&[1e308, -1e308, f64::MIN, -0.0])).collect() } else { mu };
    (mu, x)
}

/// The covariances of a class; at times the second takes all or nearly all of the first away, so that the sum is 0 or singular.
fn covariances(rng: &mut Rng, class: &Named, n: usize) -> (Vec<f64>, Vec<f64>) {
    let (mut p_i, mut p_j) = (vec![0.0; n * n], vec![0.0; n * n]);
    (class.1)(rng, n, &mut p_i);
    match rng.below(6) {
        0 => p_j.iter_mut().zip(&p_i).for_each(|(b, a)| *b = -a),
        1 => {
            (SYMMETRIC[4].1)(rng, n, &mut p_j);
            p_j.iter_mut().zip(&p_i).for_each(|(b, a)| *b -= a);
        }
        2 => (SYMMETRIC[1].1)(rng, n, &mut p_j),
        _ => (class.1)(rng, n, &mut p_j),
    }
    (p_i, p_j)
}

/// A pair of the class with its floor.
pub fn draw(rng: &mut Rng, class: &Named, n: usize) -> (Pair, f64) {
    let (p_i, p_j) = covariances(rng, class, n);
    let (mu, x) = states(rng, n);
    let floor = if rng.below(2) == 0 { rng.one_of(&[1e-12, 1e-6, 1.0]) } else { rng.one_of(FLOORS) };
    (Pair { mu, x, p_i, p_j }, floor)
}

/// An indefinite joint covariance with rows and columns of different sizes, and a floor that is lost beside its greatest entry: the
/// repair is singular but for its rounding, so that squared distances below 0 are found, too. Those are most frequent at side 3 with
/// zeros on the diagonal; so at times such a block stands among tracks' entries that do not differ.
fn thin(rng: &mut Rng, n: usize) -> (Pair, f64) {
    let block = n >= 3 && rng.below(3) != 0;
    let (from, to) = if block {
        let from = rng.below(n as u64 - 2) as usize;
        (from, from + 3)
    } else {
        (0, n)
    };
    let within = |i: usize| (from..to).contains(&i);
    let scales: Vec<f64> = (0..n).map(|_| f64::powi(10.0, rng.below(7) as i32 - 3)).collect();
    let mut p_i = vec![0.0; n * n];
    mirrored(&mut p_i, n, |i, j| match (within(i) && within(j), i == j) {
        (true, true) if block => 0.0,
        (true, _) => rng.unit() * scales[i] * scales[j],
        (false, true) => 1.0,
        _ => 0.0,
    });
    let greatest = p_i.iter().fold(0.0, |g: f64, x| g.max(x.abs()));
    let floor = rng.one_of(if block { &[1e-20, 1e-18] } else { &[1e-18, 1e-16] }) * greatest;
    let x = (0..n).map(|i| if within(i) { rng.unit() } else { 0.0 }).collect();
    (Pair { mu: vec![0.0; n], x, p_i, p_j: vec![0.0; n * n] }, floor)
}

/// What the source answers, 0 or the question that refuses the distance, and the squared distance; and the gates to try: one of the
/// list, and the squared distance with its two neighbours.
pub fn gates(rng: &mut Rng, n: usize, pair: &Pair, floor: f64) -> (u32, f64, Vec<f64>) {
    let mut d2 = [0.0];
    let given = Given { slices: &[&pair.mu, &pair.x, &pair.p_i, &pair.p_j], number: floor, ..Given::default() };
    let asked = at::joint_distance(&[n])(&given, &mut d2);
    let d2 = d2[0];
    let mut gates = vec![rng.one_of(GATES)];
    if asked == 0 && d2.is_finite() && d2 >= 0.0 {
        gates.extend([d2, d2.next_up(), d2.next_down()].iter().filter(|g| g.is_finite() && **g >= 0.0));
    }
    (asked, d2, gates)
}

/// Compares a pair with all its gates.
fn answers(tally: &mut Tally, kinds: &mut Kinds, rng: &mut Rng, class: &str, n: usize, of: (Pair, f64)) {
    let (pair, floor) = of;
    let (asked, d2, gates) = gates(rng, n, &pair, floor);
    for gate in gates {
        let wanted = kinds.wanted(asked, d2, gate);
        compare(tally, &pair, n, (floor, gate), wanted, class);
    }
}

/// Sides, lengths, floors and gates that are refused, each also where a later question would be.
fn refusals(tally: &mut Tally, kinds: &mut Kinds, rng: &mut Rng, n: usize) {
    let mut refuse = |pair: &Pair, side: usize, within: (f64, f64), number: u32| {
        kinds.refused += 1;
        compare(tally, pair, side, within, (number, 0, 0.0), "refused");
    };
    let whole = |rng: &mut Rng| {
        let mut entries = |n: usize| (0..n).map(|_| rng.unit()).collect::<Vec<f64>>();
        Pair { mu: entries(n), x: entries(n), p_i: entries(n * n), p_j: entries(n * n) }
    };
    let pair = whole(rng);
    for side in [0, 17, 18, 32, 1 << 32, usize::MAX] {
        refuse(&pair, side, (1.0, 16.0), 1);
        refuse(&pair, side, (0.0, -1.0), 1);
    }
    for at in 0..4 {
        for other in [-1isize, 1, 16] {
            for within in [(1.0, 16.0), (f64::NAN, 16.0)] {
                let mut pair = whole(rng);
                let slice = [&mut pair.mu, &mut pair.x, &mut pair.p_i, &mut pair.p_j].into_iter().nth(at).unwrap();
                slice.resize((slice.len() as isize + other) as usize, 1.0);
                refuse(&pair, n, within, 2);
            }
        }
    }
    BAD_FLOORS.iter().for_each(|floor| refuse(&pair, n, (*floor, 16.0), 18));
    BAD_GATES.iter().for_each(|gate| refuse(&pair, n, (1.0, *gate), 18));
    BAD_FLOORS.iter().zip(BAD_GATES).for_each(|(floor, gate)| refuse(&pair, n, (*floor, *gate), 18));
}

/// The classes of covariances, symmetric ones twice.
pub fn classes() -> Vec<Named> {
    [CLASSES, SYMMETRIC, SYMMETRIC].concat()
}

const CALL: &str = "compare";

/// Each kind of answer, and each number, is met so many times at least.
const LEAST: u64 = 100;

const REFUSES: &[u32] = &[1, 2, 18];

/// The squared distance is a finite number where it is written.
pub fn shape() -> Shape {
    let d2 = Kind::Doubles { slice: false, nan: false, zero: true };
    Shape {
        name: CALL,
        reads: 4,
        writes: vec![Kind::Whole, d2],
        partly: vec![1],
        refuses: REFUSES,
        orders: vec![(1, 2), (1, 18), (2, 18)],
        others: (0..4).map(Fault::Unasked).collect(),
    }
}

/// Runs every class at every side so many times, and answers the number of differences.
pub fn run(count: usize) -> u64 {
    let classes = classes();
    let mut tally = Tally::refusing(CALL, REFUSES, LEAST);
    let mut kinds = Kinds::default();
    let mut rng = Rng::new(11);
    for n in 1..=16 {
        for _ in 0..count {
            for class in &classes {
                let pair = draw(&mut rng, class, n);
                answers(&mut tally, &mut kinds, &mut rng, class.0, n, pair);
            }
            for _ in 0..10 {
                let pair = thin(&mut rng, n);
                answers(&mut tally, &mut kinds, &mut rng, "thin", n, pair);
            }
        }
        refusals(&mut tally, &mut kinds, &mut rng, n);
        tally.done(n, 16);
    }
    let Kinds { near, far, refused, repair, inverse, infinite, negative } = kinds;
    if tally::is_quiet() {
        return tally.close();
    }
    let rare = [near, far, repair, inverse, infinite, negative].iter().any(|met| *met < LEAST);
    println!(
        "compare: {near} near, {far} far, {} without a distance ({repair} no repair, {inverse} no inverse, {infinite} not finite, {negative} below 0), {refused} refused",
        repair + inverse + infinite + negative
    );
    if rare {
        println!("compare: a kind of answer was met fewer than {LEAST} times");
    }
    tally.close() + u64::from(rare)
}
