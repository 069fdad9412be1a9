//! The number helpers beside Rust's own: `sqrt`, `abs`, `max`, and `value` and `constant` of the source's trait for f64.
use crate::faults::{self, Kind, Shape};
use crate::ffi;
use crate::rng::Rng;
use crate::tally::{same, Tally};
use nolan::traits::Differentiable;
use std::hint::black_box;

const FRACTION: u64 = (1 << 52) - 1;

/// Patterns that stand for themselves: zeros, ends of the ranges, infinities and NaNs, of both signs.
pub fn special() -> Vec<f64> {
    let positive = [
        0,
        1,
        2,
        FRACTION,
        FRACTION + 1,
        FRACTION + 2,
        0x3FEF_FFFF_FFFF_FFFF,
        0x3FF0_0000_0000_0000,
        0x3FF0_0000_0000_0001,
        0x4000_0000_0000_0000,
        0x7FEF_FFFF_FFFF_FFFE,
        0x7FEF_FFFF_FFFF_FFFF,
        0x7FF0_0000_0000_0000,
        0x7FF0_0000_0000_0001,
        0x7FF8_0000_0000_0000,
        0x7FFF_FFFF_FFFF_FFFF,
    ];
    positive.iter().flat_map(|p| [f64::from_bits(*p), f64::from_bits(*p | 1 << 63)]).collect()
}

/// All powers of two, each with the three doubles below it and above it.
pub fn powers_of_two() -> Vec<f64> {
    let subnormal = (0..52).map(|k| 1u64 << k);
    let normal = (1..2047).map(|e| e << 52);
    subnormal.chain(normal).flat_map(|p| (0..7).map(move |k| f64::from_bits(p.saturating_sub(3) + k))).collect()
}

/// A subnormal number whose leading digit is its `length`-th, 1 to 52.
fn subnormal(rng: &mut Rng, length: u32) -> f64 {
    f64::from_bits(1 << (length - 1) | rng.bits() & ((1 << (length - 1)) - 1))
}

/// A double near the square of a 53-bit number, or, as exactly as a double can be, of a number halfway between two.
fn near_square(rng: &mut Rng, halfway: bool) -> f64 {
    let r = (1 << 52 | rng.bits() & FRACTION) as u128;
    // (2r)^2 or (2r + 1)^2, cut to 53 digits.
    let square = if halfway { (2 * r + 1) * (2 * r + 1) } else { 4 * r * r };
    let drop = 128 - square.leading_zeros() - 53;
    let fraction = (square >> drop) as u64 & FRACTION;
    // Any exponent of the square's own parity, so that r has the root's digits: 54 are dropped where it is even, and an
    // even exponent's field is odd.
    let exponent = 1 + drop as u64 % 2 + 2 * rng.below(1022);
    let pattern = exponent << 52 | fraction;
    f64::from_bits(pattern + rng.below(5) - 2)
}

/// The square of a number of at most 26 digits, which is exact, or a neighbour.
fn near_exact_square(rng: &mut Rng) -> f64 {
    let r = 1 + rng.below((1 << 26) - 1);
    f64::from_bits(((r * r) as f64).to_bits() + rng.below(5) - 2)
}

/// A double of one of the classes, in turn.
pub fn sample(rng: &mut Rng, turn: u64) -> f64 {
    match turn % 8 {
        0 => rng.pattern(),
        1 | 2 => f64::from_bits(rng.below(0x7FF0_0000_0000_0000)),
        3 => {
            let length = 1 + rng.below(52) as u32;
            subnormal(rng, length)
        }
        4 => near_square(rng, false),
        5 => near_square(rng, true),
        6 => near_exact_square(rng),
        _ => rng.unit() * 1e3,
    }
}

type Unary = (&'static str, fn(f64) -> f64, fn(f64) -> f64);

/// The calls of one number, and the Rust's.
const UNARY: &[Unary] = &[
    ("sqrt", ffi::sqrt, f64::sqrt),
    ("abs", ffi::abs, f64::abs),
    ("value", ffi::value, |x| Differentiable::value(&x)),
    ("constant", ffi::constant, <f64 as Differentiable>::constant),
];

/// A call of one number, on the listed patterns and on `count` random ones.
fn unary(call: &Unary, count: u64) -> u64 {
    let (name, ours, theirs) = *call;
    let mut tally = Tally::new(name);
    let try_one = |tally: &mut Tally, x: f64| {
        let (got, wanted) = (faults::planted_in(name, ours(x)), theirs(black_box(x)));
        tally.case(same(got, wanted), || {
            format!("{:016x} gives {:016x}, not {:016x}", x.to_bits(), got.to_bits(), wanted.to_bits())
        });
    };
    special().into_iter().chain(powers_of_two()).for_each(|x| try_one(&mut tally, x));
    let mut rng = Rng::new(2);
    for turn in 0..count {
        try_one(&mut tally, sample(&mut rng, turn));
        if turn % STEP == 0 {
            tally.done((turn / STEP) as usize, (count / STEP) as usize);
        }
    }
    tally.close()
}

/// So many cases are a step of the progress that is told.
const STEP: u64 = 1 << 20;

/// A run with so many random patterns; it answers the number of differences.
pub type Run = Box<dyn Fn(u64) -> u64>;

/// The calls' names, each with how it is run with so many random patterns.
pub fn calls() -> Vec<(&'static str, Run)> {
    let mut all: Vec<(&'static str, Run)> = Vec::new();
    for call in UNARY {
        all.push((call.0, Box::new(|count| unary(call, count))));
    }
    all.push(("max", Box::new(maxima)));
    all
}

/// Runs every call, and answers the number of differences.
pub fn run(count: u64) -> u64 {
    calls().iter().map(|(_, run)| run(count)).sum()
}

/// What a call answers: one number, which is any.
pub fn shape(name: &'static str) -> Shape {
    let writes = vec![Kind::Doubles { slice: false, nan: true, zero: true }];
    Shape { name, reads: 0, writes, partly: vec![], refuses: &[], orders: vec![], others: vec![] }
}

/// `max`: every pair of special numbers, and random pairs, some of them neighbours or equal.
fn maxima(count: u64) -> u64 {
    let mut tally = Tally::new("max");
    let try_pair = |tally: &mut Tally, a: f64, b: f64| {
        let (got, wanted) = (faults::planted_in("max", ffi::max(a, b)), black_box(a).max(black_box(b)));
        tally.case(same(got, wanted), || {
            format!(
                "{:016x}, {:016x} gives {:016x}, not {:016x}",
                a.to_bits(),
                b.to_bits(),
                got.to_bits(),
                wanted.to_bits()
            )
        });
    };
    let special = special();
    for a in &special {
        for b in &special {
            try_pair(&mut tally, *a, *b);
        }
    }
    let mut rng = Rng::new(3);
    for turn in 0..count {
        let a = sample(&mut rng, turn / 4);
        let b = match turn % 4 {
            0 => sample(&mut rng, turn / 16),
            1 => f64::from_bits(a.to_bits().wrapping_add(rng.below(3)).wrapping_sub(1)),
            2 => -a,
            _ => rng.one_of(&special),
        };
        try_pair(&mut tally, a, b);
        try_pair(&mut tally, b, a);
        if turn % STEP == 0 {
            tally.done((turn / STEP) as usize, (count / STEP) as usize);
        }
    }
    tally.close()
}
