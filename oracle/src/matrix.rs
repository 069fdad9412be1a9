//! The kernel's matrix calls beside the source's functions.
use crate::classes::{Class, Named, CLASSES};
use crate::faults::{self, Fault, Kind, Met, Shape};
use crate::ffi;
use crate::lent::{Lent, Memory};
use crate::number::{sample, special};
use crate::power::{limits, ITERATING, POWER};
use crate::rng::Rng;
use crate::rotating::{draw_floor, ROTATING};
use crate::symmetric::SYMMETRIC;
use crate::tally::Tally;
use nolan::flat::{at, Given, Theirs, PRODUCT_SIDES};

use Part::*;

/// A call of the library and how it is compared.
pub struct Call {
    pub name: &'static str,
    /// The sides that the call is compared at.
    pub sides: fn() -> Vec<Vec<usize>>,
    /// Rows and columns of each slice that is read.
    pub reads: fn(&[usize]) -> Vec<(usize, usize)>,
    /// The parts of the result.
    pub writes: fn(&[usize]) -> Vec<Part>,
    pub ours: fn(&Given, &[usize], &mut [&mut [f64]]) -> u32,
    /// All parts, one after the other.
    pub theirs: fn(&[usize]) -> Theirs,
    /// The questions that document 01 has the call ask.
    pub refuses: &'static [u32],
    pub never: &'static [Never],
}

/// A part of a result: a lent slice, whose length may be wrong, or the place of a single number.
#[derive(Clone, Copy)]
pub enum Part {
    Slice(usize),
    Number,
    /// A count, or a mask.
    Whole,
}

impl Part {
    pub fn length(&self) -> usize {
        match self {
            Slice(n) => *n,
            Number | Whole => 1,
        }
    }
}

/// What no entry of a part ever is. The faults that need one are not planted there, and a run that meets one tells it.
#[derive(Clone, Copy, PartialEq)]
pub enum Never {
    Nan(usize),
    Zero(usize),
}

fn no_sides() -> Vec<Vec<usize>> {
    vec![vec![]]
}

pub fn one_side() -> Vec<Vec<usize>> {
    (1..=16).map(|n| vec![n]).collect()
}

fn two_sides() -> Vec<Vec<usize>> {
    (1..=16).flat_map(|m| (1..=16).map(move |n| vec![m, n])).collect()
}

fn three_sides() -> Vec<Vec<usize>> {
    let of = &PRODUCT_SIDES;
    let all = of.iter().flat_map(|m| of.iter().flat_map(move |k| of.iter().map(move |n| vec![*m, *k, *n])));
    all.chain((1..=16).filter(|n| !of.contains(n)).map(|n| vec![n, n, n])).collect()
}

pub fn square(s: &[usize]) -> Vec<(usize, usize)> {
    vec![(s[0], s[0])]
}

fn two_squares(s: &[usize]) -> Vec<(usize, usize)> {
    vec![(s[0], s[0]), (s[0], s[0])]
}

fn square_and_vector(s: &[usize]) -> Vec<(usize, usize)> {
    vec![(s[0], s[0]), (1, s[0])]
}

fn rectangle(s: &[usize]) -> Vec<(usize, usize)> {
    vec![(s[0], s[1])]
}

const CALLS: &[Call] = &[
    Call {
        name: "mat_mul",
        sides: three_sides,
        reads: |s| vec![(s[0], s[1]), (s[1], s[2])],
        writes: |s| vec![Slice(s[0] * s[2])],
        ours: |g, s, out| ffi::mat_mul(g.slices[0], g.slices[1], s[0], s[1], s[2], out[0]),
        theirs: at::mat_mul,
        refuses: &[1, 2],
        never: &[],
    },
    Call {
        name: "mat_transpose",
        sides: two_sides,
        reads: rectangle,
        writes: |s| vec![Slice(s[0] * s[1])],
        ours: |g, s, out| ffi::mat_transpose(g.slices[0], s[0], s[1], out[0]),
        theirs: at::mat_transpose,
        refuses: &[1, 2],
        never: &[],
    },
    Call {
        name: "mat_ata",
        sides: two_sides,
        reads: rectangle,
        writes: |s| vec![Slice(s[1] * s[1])],
        ours: |g, s, out| ffi::mat_ata(g.slices[0], s[0], s[1], out[0]),
        theirs: at::mat_ata,
        refuses: &[1, 2],
        never: &[],
    },
    Call {
        name: "mat_frobenius",
        sides: two_sides,
        reads: rectangle,
        writes: |_| vec![Number],
        ours: |g, s, out| ffi::mat_frobenius(g.slices[0], s[0], s[1], &mut out[0][0]),
        theirs: at::mat_frobenius,
        refuses: &[1, 2],
        never: &[],
    },
    Call {
        name: "mat_symmetrize",
        sides: one_side,
        reads: square,
        writes: |s| vec![Slice(s[0] * s[0])],
        ours: |g, s, out| ffi::mat_symmetrize(g.slices[0], s[0], out[0]),
        theirs: at::mat_symmetrize,
        refuses: &[1, 2],
        never: &[],
    },
    Call {
        name: "mat_trace",
        sides: one_side,
        reads: square,
        writes: |_| vec![Number],
        ours: |g, s, out| ffi::mat_trace(g.slices[0], s[0], &mut out[0][0]),
        theirs: at::mat_trace,
        refuses: &[1, 2],
        never: &[],
    },
    Call {
        name: "mat_trace_product",
        sides: one_side,
        reads: two_squares,
        writes: |_| vec![Number],
        ours: |g, s, out| ffi::mat_trace_product(g.slices[0], g.slices[1], s[0], &mut out[0][0]),
        theirs: at::mat_trace_product,
        refuses: &[1, 2],
        never: &[],
    },
    Call {
        name: "mat_trace_cube",
        sides: one_side,
        reads: two_squares,
        writes: |_| vec![Number],
        ours: |g, s, out| ffi::mat_trace_cube(g.slices[0], g.slices[1], s[0], &mut out[0][0]),
        theirs: at::mat_trace_cube,
        refuses: &[1, 2],
        never: &[],
    },
    Call {
        name: "mat_vec_mul",
        sides: one_side,
        reads: square_and_vector,
        writes: |s| vec![Slice(s[0])],
        ours: |g, s, out| ffi::mat_vec_mul(g.slices[0], g.slices[1], s[0], out[0]),
        theirs: at::mat_vec_mul,
        refuses: &[1, 2],
        never: &[],
    },
    Call {
        name: "mat_quadratic_form",
        sides: one_side,
        reads: |s| vec![(1, s[0]), (s[0], s[0])],
        writes: |_| vec![Number],
        ours: |g, s, out| ffi::mat_quadratic_form(g.slices[0], g.slices[1], s[0], &mut out[0][0]),
        theirs: at::mat_quadratic_form,
        refuses: &[1, 2],
        never: &[],
    },
    Call {
        name: "vec_norm",
        sides: one_side,
        reads: |s| vec![(1, s[0])],
        writes: |_| vec![Number],
        ours: |g, s, out| ffi::vec_norm(g.slices[0], s[0], &mut out[0][0]),
        theirs: at::vec_norm,
        refuses: &[1, 2],
        never: &[],
    },
    Call {
        name: "mahalanobis_distance_squared_with_inv",
        sides: one_side,
        reads: |s| vec![(1, s[0]), (1, s[0]), (s[0], s[0])],
        writes: |_| vec![Number],
        ours: |g, s, out| {
            ffi::mahalanobis_distance_squared_with_inv(g.slices[0], g.slices[1], g.slices[2], s[0], &mut out[0][0])
        },
        theirs: at::mahalanobis_distance_squared_with_inv,
        refuses: &[1, 2],
        never: &[],
    },
    Call {
        name: "mat_cholesky",
        sides: one_side,
        reads: square,
        writes: |s| vec![Slice(s[0] * s[0])],
        ours: |g, s, out| ffi::mat_cholesky(g.slices[0], s[0], out[0]),
        theirs: at::mat_cholesky,
        refuses: &[1, 2, 7],
        never: &[Never::Nan(0)],
    },
    Call {
        name: "tikhonov",
        sides: one_side,
        reads: square,
        writes: |s| vec![Slice(s[0] * s[0])],
        ours: |g, s, out| ffi::tikhonov(g.slices[0], g.number, s[0], out[0]),
        theirs: at::tikhonov,
        refuses: &[1, 2],
        never: &[],
    },
    Call {
        name: "mat3_det",
        sides: no_sides,
        reads: |_| vec![(3, 3)],
        writes: |_| vec![Number],
        ours: |g, _, out| ffi::mat3_det(g.slices[0], &mut out[0][0]),
        theirs: at::mat3_det,
        refuses: &[2],
        never: &[],
    },
    Call {
        name: "mat3_inv",
        sides: no_sides,
        reads: |_| vec![(3, 3)],
        writes: |_| vec![Slice(9)],
        ours: |g, _, out| ffi::mat3_inv(g.slices[0], out[0]),
        theirs: at::mat3_inv,
        refuses: &[2, 8],
        never: &[],
    },
    Call {
        name: "mat3_solve",
        sides: no_sides,
        reads: |_| vec![(3, 3), (1, 3)],
        writes: |_| vec![Slice(3)],
        ours: |g, _, out| ffi::mat3_solve(g.slices[0], g.slices[1], out[0]),
        theirs: at::mat3_solve,
        refuses: &[2, 8],
        never: &[],
    },
    Call {
        name: "row_inf_norms",
        sides: one_side,
        reads: square,
        writes: |s| vec![Slice(s[0])],
        ours: |g, s, out| ffi::row_inf_norms(g.slices[0], s[0], out[0]),
        theirs: at::row_inf_norms,
        refuses: &[1, 2],
        never: &[Never::Nan(0)],
    },
    Call {
        name: "mat_solve",
        sides: one_side,
        reads: square_and_vector,
        writes: |s| vec![Slice(s[0])],
        ours: |g, s, out| ffi::mat_solve(g.slices[0], g.slices[1], s[0], out[0]),
        theirs: at::mat_solve,
        refuses: &[1, 2, 5, 6],
        never: &[],
    },
    Call {
        name: "mat_inv",
        sides: one_side,
        reads: square,
        writes: |s| vec![Slice(s[0] * s[0])],
        ours: |g, s, out| ffi::mat_inv(g.slices[0], s[0], out[0]),
        theirs: at::mat_inv,
        refuses: &[1, 2, 5, 6],
        never: &[],
    },
    Call {
        name: "mat_det",
        sides: one_side,
        reads: square,
        writes: |_| vec![Number],
        ours: |g, s, out| ffi::mat_det(g.slices[0], s[0], &mut out[0][0]),
        theirs: at::mat_det,
        refuses: &[1, 2],
        never: &[],
    },
    Call {
        name: "mahalanobis_distance_squared",
        sides: one_side,
        reads: |s| vec![(1, s[0]), (1, s[0]), (s[0], s[0])],
        writes: |_| vec![Number],
        ours: |g, s, out| {
            ffi::mahalanobis_distance_squared(g.slices[0], g.slices[1], g.slices[2], s[0], &mut out[0][0])
        },
        theirs: at::mahalanobis_distance_squared,
        refuses: &[1, 2, 5, 6],
        never: &[],
    },
];

/// The slices and the number of a case of a class, given the slices' rows and columns.
pub type Draw = fn(&mut Rng, Class, &[(usize, usize)]) -> (Vec<Vec<f64>>, f64);

/// Calls that are compared alike. Frozen answers name a call by its place among the calls of all groups, in this order.
pub struct Group {
    pub calls: &'static [Call],
    pub classes: fn() -> Vec<Named>,
    pub draw: Draw,
    /// How many matrices of a class there are at each of so many sides, in the long form or not.
    pub count: fn(bool, usize) -> usize,
}

pub static GROUPS: &[Group] = &[
    Group { calls: CALLS, classes: || CLASSES.to_vec(), draw, count: many },
    Group { calls: ROTATING, classes: || [CLASSES, SYMMETRIC].concat(), draw: draw_floor, count: many },
];

/// The calls that iterate: one that does not converge takes much longer than another call, so there are fewer cases.
pub static ITERATED: Group = Group {
    calls: ITERATING,
    classes: || [CLASSES, SYMMETRIC, POWER].concat(),
    draw,
    count: |long, _| if long { 1_000 } else { 40 },
};

fn many(long: bool, sides: usize) -> usize {
    if long {
        2_000
    } else {
        (6_000 / sides).max(12)
    }
}

/// A case of a call: what it is lent, and what it is to answer.
struct Case<'a> {
    sides: &'a [usize],
    slices: &'a [&'a [f64]],
    number: f64,
    limits: (u32, f64),
    /// The lengths of the result's parts.
    lengths: &'a [usize],
    /// The number, and all parts of an answer, one after the other.
    wanted: (u32, &'a [f64]),
    /// Questions that are not met either; asked where a fault is planted.
    also: &'a dyn Fn() -> Vec<u32>,
    class: &'a str,
}

/// Calls the library with marked parts, and compares the answer's number, the result and all else that was lent.
fn compare(call: &Call, tally: &mut Tally, case: &Case) {
    let mut slices: Vec<Lent<f64>> = case.slices.iter().map(|slice| Lent::holding(slice)).collect();
    let mut parts: Vec<Lent<f64>> = case.lengths.iter().map(|length| Lent::marked(*length)).collect();
    let mut number = {
        let slices: Vec<&[f64]> = slices.iter().map(Lent::slice).collect();
        let (max_iter, tol) = case.limits;
        let given = Given { slices: &slices, number: case.number, max_iter, tol };
        let mut lent: Vec<&mut [f64]> = parts.iter_mut().map(Lent::slice_mut).collect();
        (call.ours)(&given, case.sides, &mut lent)
    };
    faults::plant(call.name, || Met {
        number: &mut number,
        also: (case.also)(),
        wrong: wrong_lengths(call, case),
        reads: slices.iter_mut().map(|slice| slice as &mut dyn Memory).collect(),
        writes: parts.iter_mut().zip(case.lengths).map(|(part, n)| (part as &mut dyn Memory, *n)).collect(),
    });
    let mut rest = case.wanted.1;
    let agrees = parts.iter().zip(case.lengths).all(|(part, length)| {
        let (wanted, after) = rest.split_at(if case.wanted.0 == 0 { *length } else { 0 });
        rest = after;
        part.begins_with(wanted)
    });
    let kept = slices.iter().all(Lent::is_untouched);
    tally.refused(case.wanted.0);
    tally.case(number == case.wanted.0 && agrees && kept, || {
        let lengths: Vec<usize> = case.slices.iter().map(|s| s.len()).collect();
        format!(
            "sides {:?}, lengths {lengths:?}, result {:?}, {}: answers {number}, not {}, the result {}, what is read {}\n    {:?}",
            case.sides,
            case.lengths,
            case.class,
            case.wanted.0,
            if agrees { "agrees" } else { "differs" },
            if kept { "stays" } else { "is changed" },
            case.slices,
        )
    });
}

/// The slices that have another length than the sides ask for, those that are read first.
fn wrong_lengths(call: &Call, case: &Case) -> Vec<usize> {
    if case.wanted.0 == 1 {
        return vec![];
    }
    let reads = (call.reads)(case.sides).into_iter().map(|(rows, cols)| rows * cols);
    let asked = reads.chain((call.writes)(case.sides).iter().map(Part::length).collect::<Vec<usize>>());
    let lent = case.slices.iter().map(|slice| slice.len()).chain(case.lengths.iter().copied());
    asked.zip(lent).enumerate().filter(|(_, (asked, lent))| asked != lent).map(|(at, _)| at).collect()
}

/// The slices and the number of a case of a class.
pub fn draw(rng: &mut Rng, fill: Class, shapes: &[(usize, usize)]) -> (Vec<Vec<f64>>, f64) {
    let slices = shapes
        .iter()
        .map(|(rows, cols)| {
            let mut m = vec![0.0; rows * cols];
            // A slice beside the first is at times an ordinary one.
            let fill = if rng.below(8) == 0 { CLASSES[0].1 } else { fill };
            fill(rng, *cols, &mut m);
            m
        })
        .collect();
    let turn = rng.bits();
    let number = if rng.below(4) == 0 { rng.one_of(&special()) } else { sample(rng, turn) };
    (slices, number)
}

/// Whether a part of an answer has what the call says that it never has.
fn has_other(call: &Call, parts: &[Part], result: &[f64]) -> bool {
    let mut from = 0;
    parts.iter().enumerate().any(|(at, part)| {
        let entries = &result[from..from + part.length()];
        from += part.length();
        let has = |never: &Never| match never {
            Never::Nan(of) => *of == at && entries.iter().any(|x| x.is_nan()),
            Never::Zero(of) => *of == at && entries.contains(&0.0),
        };
        call.never.iter().any(has)
    })
}

/// Cases of every class at these sides.
fn answers(group: &Group, call: &Call, tally: &mut Tally, rng: &mut Rng, sides: &[usize], count: usize) {
    let shapes = (call.reads)(sides);
    let parts = (call.writes)(sides);
    let lengths: Vec<usize> = parts.iter().map(Part::length).collect();
    let theirs = (call.theirs)(sides);
    let mut result = vec![0.0; lengths.iter().sum()];
    for (class, fill) in (group.classes)() {
        for _ in 0..count {
            let (slices, number) = (group.draw)(rng, fill, &shapes);
            let slices: Vec<&[f64]> = slices.iter().map(Vec::as_slice).collect();
            let limits = limits(rng, slices[0]);
            let given = Given { slices: &slices, number, max_iter: limits.0, tol: limits.1 };
            let wanted = theirs(&given, &mut result);
            let also = || also_unmet(wanted, &given, sides);
            if wanted == 0 && has_other(call, &parts, &result) {
                tally.case(false, || format!("sides {sides:?}, {class}: has what no result has"));
            }
            let wanted = (wanted, &result[..]);
            let slices = &slices;
            compare(
                call,
                tally,
                &Case { sides, slices, number, limits, lengths: &lengths, wanted, also: &also, class },
            );
        }
    }
}

/// Later questions that are not met either, where a matrix is refused.
fn also_unmet(number: u32, given: &Given, sides: &[usize]) -> Vec<u32> {
    match number {
        3 => {
            let mut pairs = vec![0.0; sides[0] + sides[0] * sides[0]];
            vec![at::mat_symmetric_eigen(sides)(given, &mut pairs)]
        }
        // Without a row to divide by there is no best ratio.
        5 => vec![6],
        _ => vec![],
    }
}

/// A call that is refused: its sides, the lengths of its slices and of its result's parts, and the question's number.
pub struct Refused {
    pub sides: Vec<usize>,
    pub reads: Vec<usize>,
    pub writes: Vec<usize>,
    pub number: u32,
}

/// Sides out of 1 to 16, and slices of other lengths: question 1 comes before question 2.
pub fn refused(call: &Call, sides: &[usize], outside: &[usize]) -> Vec<Refused> {
    let reads: Vec<usize> = (call.reads)(sides).iter().map(|(rows, cols)| rows * cols).collect();
    let parts = (call.writes)(sides);
    let writes: Vec<usize> = parts.iter().map(Part::length).collect();
    let mut all = Vec::new();
    let mut add = |sides: &[usize], reads: &[usize], writes: &[usize], number: u32| {
        all.push(Refused { sides: sides.to_vec(), reads: reads.to_vec(), writes: writes.to_vec(), number })
    };
    let no_reads = vec![0; reads.len()];
    let no_writes: Vec<usize> = parts.iter().map(|part| usize::from(!matches!(part, Slice(_)))).collect();
    for bad in outside {
        for at in 0..sides.len() {
            let mut wrong = sides.to_vec();
            wrong[at] = *bad;
            add(&wrong, &reads, &writes, 1);
            add(&wrong, &no_reads, &no_writes, 1);
        }
        if !sides.is_empty() {
            add(&vec![*bad; sides.len()], &no_reads, &no_writes, 1);
        }
    }
    let others = |n: usize| [0, n.saturating_sub(1), n + 1, n + 16].into_iter().filter(move |m| *m != n);
    for at in 0..reads.len() {
        for other in others(reads[at]) {
            let mut wrong = reads.clone();
            wrong[at] = other;
            add(sides, &wrong, &writes, 2);
        }
    }
    for at in (0..parts.len()).filter(|at| matches!(parts[*at], Slice(_))) {
        for other in others(writes[at]) {
            let mut wrong = writes.clone();
            wrong[at] = other;
            add(sides, &reads, &wrong, 2);
        }
    }
    all
}

/// Entries that later questions are asked of, beside ordinary ones: with each of the later questions some matrix of one of
/// these numbers is refused.
const ALIKE: &[f64] = &[f64::NAN, f64::INFINITY, 0.0, 1.0, f64::MAX];

/// Later questions that the entries do not meet where the sides and the lengths are good.
fn also_refused(call: &Call, number: u32, sides: &[usize], entries: &[f64]) -> Vec<u32> {
    if number == 1 {
        let finite = entries.iter().all(|x| x.is_finite());
        return if finite { vec![2] } else { vec![2, 3] };
    }
    let slices: Vec<&[f64]> = (call.reads)(sides).iter().map(|(rows, cols)| &entries[..rows * cols]).collect();
    let mut result = vec![0.0; (call.writes)(sides).iter().map(Part::length).sum()];
    let later = (call.theirs)(sides)(&Given { slices: &slices, ..Given::default() }, &mut result);
    [vec![later], also_unmet(later, &Given { slices: &slices, ..Given::default() }, sides)].concat()
}

/// Compares what is refused at these sides.
fn refusals(call: &Call, tally: &mut Tally, rng: &mut Rng, sides: &[usize]) {
    let length = 16 * 16 + 16;
    let ordinary: Vec<f64> = (0..length).map(|_| rng.unit()).collect();
    let all: Vec<Vec<f64>> = [ordinary].into_iter().chain(ALIKE.iter().map(|x| vec![*x; length])).collect();
    for case in refused(call, sides, &[0, 17, 18, 32, 256, 1 << 32, 1 << 60, usize::MAX]) {
        for entries in &all {
            let slices: Vec<&[f64]> = case.reads.iter().map(|n| &entries[..*n]).collect();
            let also = || also_refused(call, case.number, sides, entries);
            compare(
                call,
                tally,
                &Case {
                    sides: &case.sides,
                    slices: &slices,
                    number: 1.0,
                    limits: (7, 1e-6),
                    lengths: &case.writes,
                    wanted: (case.number, &[]),
                    also: &also,
                    class: "refused",
                },
            );
        }
    }
}

/// Each number that a call refuses with is met so many times at least.
const LEAST: u64 = 100;

/// Compares a call at all its sides, with so many matrices of each class, and answers the number of differences.
pub fn run_call(group: &Group, call: &Call, count: usize) -> u64 {
    let all = (call.sides)();
    // A call without a side has one size of slices.
    let least = if all.len() > 1 { LEAST } else { 20 };
    let mut tally = Tally::refusing(call.name, call.refuses, least);
    let mut rng = Rng::new(5);
    for (step, sides) in all.iter().enumerate() {
        answers(group, call, &mut tally, &mut rng, sides, count);
        refusals(call, &mut tally, &mut rng, sides);
        tally.done(step + 1, all.len());
    }
    tally.close()
}

/// Every matrix call with its group.
pub fn calls() -> impl Iterator<Item = (&'static Group, &'static Call)> {
    GROUPS.iter().chain([&ITERATED]).flat_map(|group| group.calls.iter().map(move |call| (group, call)))
}

/// Runs every call, or those named, and answers the number of differences.
pub fn run(long: bool, wanted: &dyn Fn(&str) -> bool) -> u64 {
    let wanted = calls().filter(|(_, call)| wanted(call.name));
    wanted.map(|(group, call)| run_call(group, call, (group.count)(long, (call.sides)().len()))).sum()
}

/// What a call is lent at its largest sides, for the faults that are planted in it.
pub fn shape(call: &Call) -> Shape {
    let sides = (call.sides)().pop().expect("a call has sides");
    let kind = |(at, part): (usize, Part)| {
        let can = |never: Never| !call.never.contains(&never);
        match part {
            Whole => Kind::Whole,
            _ => {
                Kind::Doubles { slice: matches!(part, Slice(_)), nan: can(Never::Nan(at)), zero: can(Never::Zero(at)) }
            }
        }
    };
    let pairs = call.refuses.iter().flat_map(|first| call.refuses.iter().map(move |later| (*first, *later)));
    // Sides that are refused leave no matrix to ask about, but its entries can be looked at.
    let both = |(first, later): &(u32, u32)| first < later && (*first != 1 || *later <= 3);
    let (reads, parts) = ((call.reads)(&sides).len(), (call.writes)(&sides));
    let slices = parts.iter().enumerate().filter(|(_, part)| matches!(part, Slice(_))).map(|(at, _)| reads + at);
    Shape {
        name: call.name,
        reads,
        others: (0..reads).chain(slices).map(Fault::Unasked).collect(),
        writes: parts.into_iter().enumerate().map(kind).collect(),
        partly: vec![],
        refuses: call.refuses,
        orders: pairs.filter(both).collect(),
    }
}
