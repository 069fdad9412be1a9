//! The square root in a dependent chain, beside the hardware's; and how often the guess is not the root.
use crate::timer::line;
use oracle::ffi;
use oracle::rng::Rng;
use std::hint::black_box;

const CHAIN: usize = 20_000;

/// Each root waits for the one before it.
fn chain(addends: &[f64], root: impl Fn(f64) -> f64) {
    let mut x = 2.0;
    for addend in black_box(addends) {
        x = root(x) + addend;
    }
    black_box(x);
}

pub fn run() {
    let mut rng = Rng::new(13);
    let addends: Vec<f64> =
        (0..CHAIN).map(|_| f64::powi(2.0, rng.below(40) as i32 - 20) * (1.5 + rng.unit() / 2.0)).collect();
    line("sqrt, chain", CHAIN, || chain(&addends, ffi::sqrt), || chain(&addends, f64::sqrt));

    let calls = 100_000_000u64;
    let random = |rng: &mut Rng| (1 + rng.below(2046)) << 52 | rng.below(1 << 52);
    let missed = (0..calls).filter(|_| !guessed(random(&mut rng))).count();
    println!("sqrt, guess: {missed} of {calls} random normal numbers need the digits");
}

/// Whether the exact test of `kernel::number::root` admits the guess for the normal number with this bit pattern. Both are
/// written here again, operation by operation: the library does not tell which way it took.
fn guessed(bits: u64) -> bool {
    let x = f64::from_bits(bits);
    let y = reciprocal_root(x);
    let p = guess(x, x * y, y).to_bits();
    let e = bits / LEAD + 1021;
    let w = (LEAD + bits % LEAD) * (1 + e % 2);
    p.checked_sub(e / 2 * LEAD).is_some_and(|r| r < 2 * LEAD && is_nearest(w, r))
}

fn is_nearest(w: u64, r: u64) -> bool {
    let (a, b) = (r / (1 << 27), r % (1 << 27));
    let high = 4 * a * a;
    if w + 2 < high || 1 << 30 <= w + 2 - high {
        return false;
    }
    let (sum, cross) = ((w + 2 - high) << 24, a * b);
    if sum < cross || 1 << 35 <= sum - cross {
        return false;
    }
    let (left, right) = ((sum - cross) << 28, b * b + (1 << 53));
    right < left + r && left <= right + r
}

const LEAD: u64 = 1 << 52;

fn reciprocal_root(x: f64) -> f64 {
    let rough = f64::from_bits(0x5FE6_EB50_C7B5_37A9 - x.to_bits() / 2);
    let t = x * rough * rough;
    let tt = t * t;
    rough * (2.462735353900164 - 3.2870044520154824 * t)
        + rough * tt * (2.9595980131876254 - 1.4091257683923304 * t + 0.2737968520139008 * tt)
}

fn guess(x: f64, root: f64, reciprocal: f64) -> f64 {
    let bits = root.to_bits();
    let front = f64::from_bits(bits - bits % 0x800_0000);
    let rest = x - front * front;
    let h = 0.5 * reciprocal;
    front + rest * h * (2.0 - front * reciprocal - rest * (h * h))
}
