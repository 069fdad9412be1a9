//! The classes of matrices that the calls are compared on.
use crate::number::{sample, special};
use crate::rng::Rng;

/// Fills a matrix of `cols` columns, row by row.
pub type Class = fn(&mut Rng, usize, &mut [f64]);

/// A class with its name.
pub type Named = (&'static str, Class);

/// The sign and the fraction: the bits of a subnormal number.
pub const SUBNORMAL: u64 = (1 << 63) | ((1 << 52) - 1);

pub const CLASSES: &[Named] = &[
    ("random", random),
    ("whole", whole),
    ("definite", definite),
    ("ill-conditioned", ill_conditioned),
    ("tiny and huge", tiny_and_huge),
    ("subnormal", subnormal),
    ("infinite", |rng, cols, m| strewn(rng, cols, m, &[f64::INFINITY, f64::NEG_INFINITY])),
    ("nan", |rng, cols, m| strewn(rng, cols, m, &[f64::NAN])),
    ("zero", |_, _, m| m.fill(0.0)),
    ("equal rows", equal_rows),
    ("signed zeros", |rng, _, m| each(m, || rng.one_of(&[0.0, -0.0, 0.0, -0.0, 1.0, -1.0]))),
    ("patterns", patterns),
    ("badly scaled rows", scaled_rows),
    ("proportional rows", proportional_rows),
    ("tied ratios", tied_ratios),
    ("zero rows", zero_rows),
    ("permuted triangular", permuted_triangular),
    ("hilbert", hilbert),
    ("at the least scale", least_scale),
    ("rows at both ends", rows_at_both_ends),
];

fn each(m: &mut [f64], mut entry: impl FnMut() -> f64) {
    for x in m {
        *x = entry();
    }
}

fn random(rng: &mut Rng, _: usize, m: &mut [f64]) {
    each(m, || rng.unit());
}

/// Small whole numbers: exact sums, and pivots that are exactly 0.
fn whole(rng: &mut Rng, _: usize, m: &mut [f64]) {
    each(m, || rng.below(9) as f64 - 4.0);
}

/// Symmetric with a heavy diagonal, where it is square. Above the diagonal, at times, other entries.
fn definite(rng: &mut Rng, cols: usize, m: &mut [f64]) {
    let scale = f64::powi(10.0, rng.below(21) as i32 - 10);
    let rows = m.len() / cols;
    let asymmetric = rng.below(4) == 0;
    for i in 0..rows {
        for j in 0..cols {
            m[i * cols + j] = if i == j {
                scale * (cols as f64 * 0.6 + rng.unit().abs())
            } else if i > j || rows != cols || asymmetric {
                scale * rng.unit()
            } else {
                0.0
            };
        }
    }
    if rows == cols && !asymmetric {
        for i in 0..rows {
            for j in i + 1..cols {
                m[i * cols + j] = m[j * cols + i];
            }
        }
    }
}

/// The outer product of two vectors, changed in its last digits.
fn ill_conditioned(rng: &mut Rng, cols: usize, m: &mut [f64]) {
    let row: Vec<f64> = (0..cols).map(|_| 1.0 + rng.unit() * 0.5).collect();
    let rows = m.len() / cols;
    let symmetric = rows == cols && rng.below(2) == 0;
    for i in 0..rows {
        let by = if symmetric { row[i] } else { rng.unit() };
        for j in 0..cols {
            m[i * cols + j] = by * row[j] * (1.0 + rng.unit() * 1e-13);
        }
    }
}

/// Any exponent that keeps the entry finite and normal.
fn tiny_and_huge(rng: &mut Rng, _: usize, m: &mut [f64]) {
    each(m, || f64::from_bits((rng.bits() & SUBNORMAL) | (1 + rng.below(2046)) << 52));
}

fn subnormal(rng: &mut Rng, _: usize, m: &mut [f64]) {
    each(m, || match rng.below(4) {
        0 => rng.unit() * 1e-150,
        1 => f64::from_bits(rng.bits() & ((1 << 63) | ((1 << rng.below(53)) - 1))),
        2 => rng.unit() * f64::MIN_POSITIVE,
        _ => f64::from_bits(rng.bits() & SUBNORMAL),
    });
}

/// Ordinary entries with some of the given ones among them.
fn strewn(rng: &mut Rng, cols: usize, m: &mut [f64], among: &[f64]) {
    definite(rng, cols, m);
    for _ in 0..1 + rng.below(3) {
        let at = rng.below(m.len() as u64) as usize;
        m[at] = rng.one_of(among);
    }
}

fn equal_rows(rng: &mut Rng, cols: usize, m: &mut [f64]) {
    random(rng, cols, m);
    let rows = (m.len() / cols) as u64;
    for _ in 0..1 + rng.below(rows) {
        let (from, to) = (rng.below(rows) as usize * cols, rng.below(rows) as usize * cols);
        m.copy_within(from..from + cols, to);
    }
}

/// Any bits, with special numbers among them.
fn patterns(rng: &mut Rng, _: usize, m: &mut [f64]) {
    let special = special();
    let of = rng.below(3);
    each(m, || match of {
        0 => rng.pattern(),
        1 => rng.one_of(&special),
        _ => {
            let turn = rng.bits();
            sample(rng, turn)
        }
    });
}

/// Rows of sizes from 1e-160 to 1e160.
fn scaled_rows(rng: &mut Rng, cols: usize, m: &mut [f64]) {
    random(rng, cols, m);
    for row in m.chunks_mut(cols) {
        let scale = f64::powi(10.0, rng.below(321) as i32 - 160);
        each_of(row, |x| x * scale);
    }
}

/// Some rows are multiples of others.
fn proportional_rows(rng: &mut Rng, cols: usize, m: &mut [f64]) {
    equal_rows(rng, cols, m);
    for row in m.chunks_mut(cols) {
        let factor = rng.one_of(&[1.0, -1.0, 2.0, 3.0, -0.1, 1e10]);
        each_of(row, |x| x * factor);
    }
}

/// Entries of one size and any sign, each row times a power of two: the ratios of a column are equal at first.
fn tied_ratios(rng: &mut Rng, cols: usize, m: &mut [f64]) {
    each(m, || rng.one_of(&[1.0, -1.0, 1.0, -1.0, 0.5, 0.0]));
    for row in m.chunks_mut(cols) {
        let scale = f64::powi(2.0, rng.below(41) as i32 - 20);
        each_of(row, |x| x * scale);
    }
}

fn zero_rows(rng: &mut Rng, cols: usize, m: &mut [f64]) {
    random(rng, cols, m);
    let rows = (m.len() / cols) as u64;
    let zero = rng.below(rows) as usize * cols;
    m[zero..zero + cols].fill(rng.one_of(&[0.0, -0.0]));
}

/// The rows of an upper triangular matrix in any order: elimination finds each pivot elsewhere.
fn permuted_triangular(rng: &mut Rng, cols: usize, m: &mut [f64]) {
    random(rng, cols, m);
    let rows = m.len() / cols;
    for i in 0..rows {
        m[i * cols..i * cols + i.min(cols)].fill(0.0);
    }
    for i in (1..rows).rev() {
        let j = rng.below(i as u64 + 1) as usize;
        for c in 0..cols {
            m.swap(i * cols + c, j * cols + c);
        }
    }
}

/// 1 / (i + j + 1), at times with another scale.
fn hilbert(rng: &mut Rng, cols: usize, m: &mut [f64]) {
    let scale = rng.one_of(&[1.0, 3.0, 1e-8, 1e8]);
    for (at, x) in m.iter_mut().enumerate() {
        *x = scale / (at / cols + at % cols + 1) as f64;
    }
}

/// The least norm that counts, 1e-150, and its neighbours.
fn least_scale(rng: &mut Rng, _: usize, m: &mut [f64]) {
    let sign = rng.one_of(&[1.0, -1.0]);
    each(m, || match rng.below(4) {
        0 => 0.0,
        1 => 1e-151 * sign,
        _ => f64::from_bits(1e-150f64.to_bits() + rng.below(5) - 2) * sign,
    });
}

/// Rows about the least scale that counts and about the greatest number: quotients overflow. At times the first pivots stand alone,
/// so that their product has vanished when a later one is infinite.
fn rows_at_both_ends(rng: &mut Rng, cols: usize, m: &mut [f64]) {
    each(m, || rng.one_of(&[0.0, 1.0, 1.0, -1.0, 0.5]));
    let rows = m.len() / cols;
    let alone = if rng.below(2) == 0 { rows.min(cols).saturating_sub(2) } else { 0 };
    for (i, row) in m.chunks_mut(cols).enumerate() {
        let scale = rng.one_of(&[1e-150, 1e-149, 1e-100, 1e300, 1e308]);
        if i < alone {
            row.fill(0.0);
            row[i] = 1e-150;
        } else {
            row[..alone].fill(0.0);
            each_of(row, |x| x * scale);
        }
    }
}

fn each_of(row: &mut [f64], to: impl Fn(f64) -> f64) {
    for x in row {
        *x = to(*x);
    }
}
