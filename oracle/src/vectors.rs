//! Writes the frozen answers that the programs `*_vectors` replay: a program's input, and the lines that it must write.
//! Every answer is the Rust's; the library is not asked.
use crate::classes::CLASSES;
use crate::comparisons::{self, Kinds, Pair, BAD_FLOORS, BAD_GATES};
use crate::lists;
use crate::matrix::{refused, Call, Group, Part, GROUPS, ITERATED};
use crate::merge::cases::{draw_of, measured_of, Case};
use crate::merge::damage::{fault, FIRST, QUESTIONS};
use crate::merge::pairings::by_size;
use crate::merge::reference::{merge, winner, Merged};
use crate::number::{powers_of_two, sample, special};
use crate::power::limits;
use crate::rng::Rng;
use nolan::flat::Given;
use nolan::traits::Differentiable;
use std::fs;
use std::hint::black_box;
use std::path::{Path, PathBuf};

mod merged_lists;

/// A program's input, and what it must write on it.
struct Frozen {
    bytes: Vec<u8>,
    lines: String,
}

impl Frozen {
    fn new() -> Frozen {
        Frozen { bytes: Vec::new(), lines: String::new() }
    }

    fn words(&mut self, words: &[u64]) {
        for word in words {
            self.bytes.extend(word.to_le_bytes());
        }
    }

    /// The length of a record of so many numbers, this one included, in a block that holds all of it.
    fn begin(&mut self, numbers: usize) {
        if self.bytes.len() % BLOCK + 8 * numbers > BLOCK {
            self.bytes.resize(self.bytes.len().next_multiple_of(BLOCK), 0);
        }
        self.words(&[numbers as u64]);
    }

    fn line(&mut self, name: &str, cases: usize) {
        self.lines.push_str(&format!("{name} {cases} cases 0 differences\n"));
    }

    /// The two files, and what is to stand in them.
    fn files(&self, program: &str) -> [(PathBuf, &[u8]); 2] {
        let folder = Path::new(env!("CARGO_MANIFEST_DIR")).join("../crates").join(program);
        [(folder.join("stdin"), &self.bytes), (folder.join("stdout"), self.lines.as_bytes())]
    }
}

/// Records of the call with this number, of one argument. A record is the call's number, two arguments and the answer.
fn unary(frozen: &mut Frozen, call: u64, name: &str, arguments: &[f64], answer: fn(f64) -> f64) {
    for x in arguments {
        frozen.words(&[call, x.to_bits(), 0, answer(*x).to_bits()]);
    }
    frozen.line(name, arguments.len());
}

fn numbers() -> Frozen {
    let mut rng = Rng::new(11);
    let mut samples = |count: u64| (0..count).map(|turn| sample(&mut rng, turn)).collect::<Vec<f64>>();
    let special = special();
    let powers: Vec<f64> = powers_of_two().into_iter().step_by(29).collect();
    let mut frozen = Frozen::new();
    unary(&mut frozen, 0, "sqrt", &[&special[..], &powers, &samples(1800)].concat(), f64::sqrt);
    unary(&mut frozen, 1, "abs", &[&special[..], &samples(200)].concat(), f64::abs);
    let both = special.iter().flat_map(|a| special.iter().map(|b| (*a, *b)));
    let pairs: Vec<(f64, f64)> = both.chain(samples(300).into_iter().zip(samples(300))).collect();
    for (a, b) in &pairs {
        frozen.words(&[2, a.to_bits(), b.to_bits(), black_box(*a).max(black_box(*b)).to_bits()]);
    }
    frozen.line("max", pairs.len());
    unary(&mut frozen, 3, "value", &special, |x| x.value());
    unary(&mut frozen, 4, "constant", &special, f64::constant);
    frozen
}

/// What stands in a slice before a call that writes it.
const BEFORE: f64 = 7.0;
/// A block of records, and zeros past the last.
const BLOCK: usize = 65_536;

/// A record of a matrix call: see the program.
fn record(frozen: &mut Frozen, call: usize, sides: &[usize], given: &Given, number: u32, result: &[f64]) {
    let (m, k, n) = match *sides {
        [m, k, n] => (m, k, n),
        [m, n] => (m, 0, n),
        [n] => (0, 0, n),
        _ => (0, 0, 0),
    };
    let length = |i: usize| given.slices.get(i).map_or(0, |slice| slice.len());
    let head = [call, m, k, n].map(|n| n as u64).into_iter().chain([given.number.to_bits()]);
    let lengths = [length(0), length(1), length(2), result.len(), number as usize].map(|n| n as u64);
    let entries = given.slices.iter().copied().flatten().chain(result).map(|x| x.to_bits());
    let words: Vec<u64> = head.chain(lengths).chain(entries).collect();
    frozen.begin(words.len() + 1);
    frozen.words(&words);
}

/// Answers at every order, of every class at the small ones, and refusals. A record of a call that iterates has its most rounds as a side.
fn answers(frozen: &mut Frozen, place: usize, group: &Group, call: &Call, iterates: bool) {
    let all = (group.classes)();
    let mut rng = Rng::new(23 + place as u64);
    let mut cases = 0;
    for sides in frozen_sides(call) {
        let shapes = (call.reads)(&sides);
        let largest = sides.iter().copied().max().unwrap_or(3);
        // Those that all calls are compared on come first, and then those of the group.
        let classes = (0..all.len()).filter(|class| largest <= 4 || *class % CLASSES.len() == largest % 5);
        for class in classes {
            let (slices, number) = (group.draw)(&mut rng, all[class].1, &shapes);
            let slices: Vec<&[f64]> = slices.iter().map(Vec::as_slice).collect();
            let mut given = Given { slices: &slices, number, ..Given::default() };
            let mut sides_told = sides.clone();
            if iterates {
                let (max_iter, tol) = limits(&mut rng, slices[0]);
                let tolerant = call.name != "tikhonov_with_report";
                given = Given { slices: &slices, number: if tolerant { tol } else { number }, max_iter, tol };
                sides_told = vec![0, max_iter as usize, sides[0]];
            }
            let parts: Vec<usize> = (call.writes)(&sides).iter().map(Part::length).collect();
            sides_told = told_sides(call, sides_told, &parts);
            let mut result = vec![BEFORE; parts.iter().sum()];
            let told = (call.theirs)(&sides)(&given, &mut result);
            record(frozen, place, &sides_told, &given, told, &result);
            cases += 1;
        }
    }
    let sides = &(call.sides)()[0];
    let sides: Vec<usize> = (0..sides.len()).map(|i| 2 + i).collect();
    for case in refused(call, &sides, &[0, 17]) {
        // Every other time no later question is met either.
        let odd = cases % 2 == 1;
        let entries: Vec<f64> = (0..64).map(|_| if odd { f64::NAN } else { rng.unit() }).collect();
        let slices: Vec<&[f64]> = case.reads.iter().map(|n| &entries[..*n]).collect();
        let given = Given { slices: &slices, number: 1.0, ..Given::default() };
        let sides_told = told_sides(call, case.sides, &case.writes);
        record(frozen, place, &sides_told, &given, case.number, &vec![BEFORE; case.writes.iter().sum()]);
        cases += 1;
    }
    frozen.line(call.name, cases);
}

/// A record of the eigensolver, which has two slices to write, has the first one's length as a side.
fn told_sides(call: &Call, sides: Vec<usize>, parts: &[usize]) -> Vec<usize> {
    if call.name == "mat_symmetric_eigen" {
        vec![0, parts[0], sides[0]]
    } else {
        sides
    }
}

/// The matrix calls, then comparisons, then the calls that iterate.
fn matrices() -> Frozen {
    let mut frozen = Frozen::new();
    let mut place = 0;
    for group in GROUPS {
        for call in group.calls {
            answers(&mut frozen, place, group, call, false);
            place += 1;
        }
    }
    tracks(&mut frozen, place);
    for (at, call) in ITERATED.calls.iter().enumerate() {
        answers(&mut frozen, place + 1 + at, &ITERATED, call, true);
    }
    frozen
}

/// A record of a comparison: the states and the gate are its first slice, the result is the kind and the squared distance.
fn comparison(frozen: &mut Frozen, call: usize, n: usize, pair: &Pair, within: (f64, f64), answer: (u32, [f64; 2])) {
    let (floor, gate) = within;
    let states = [&pair.mu[..], &pair.x, &[gate]].concat();
    let given = Given { slices: &[&states, &pair.p_i, &pair.p_j], number: floor, ..Given::default() };
    record(frozen, call, &[n], &given, answer.0, &answer.1);
}

/// Comparisons at every dimension, also with the squared distance and its neighbours as the gate, and refusals.
fn tracks(frozen: &mut Frozen, call: usize) {
    let mut rng = Rng::new(23 + call as u64);
    let mut cases = 0;
    let mut kinds = Kinds::default();
    for n in 1..=16 {
        let classes = comparisons::classes();
        let classes = classes.iter().enumerate().filter(|(at, _)| n <= 4 || at % 8 == n % 8);
        for (_, class) in classes {
            let (pair, floor) = comparisons::draw(&mut rng, class, n);
            let (asked, d2, gates) = comparisons::gates(&mut rng, n, &pair, floor);
            for gate in gates {
                let (number, kind, _) = kinds.wanted(asked, d2, gate);
                let result = [f64::from(kind), if kind == 0 { BEFORE } else { d2 }];
                comparison(frozen, call, n, &pair, (floor, gate), (number, result));
                cases += 1;
            }
        }
    }
    let mut refuse = |n: usize, lengths: [usize; 2], within: (f64, f64), number: u32| {
        let mut entries = |n: usize| (0..n).map(|_| rng.unit()).collect::<Vec<f64>>();
        let pair = Pair { mu: entries(n), x: entries(n), p_i: entries(lengths[0]), p_j: entries(lengths[1]) };
        comparison(frozen, call, n, &pair, within, (number, [BEFORE; 2]));
        cases += 1;
    };
    [0, 17].iter().for_each(|n| refuse(*n, [4, 4], (0.0, 16.0), 1));
    [[3, 4], [4, 5], [0, 4], [4, 16]].iter().for_each(|lengths| refuse(2, *lengths, (0.0, 16.0), 2));
    BAD_FLOORS.iter().for_each(|floor| refuse(2, [4, 4], (*floor, 16.0), 18));
    BAD_GATES.iter().for_each(|gate| refuse(2, [4, 4], (1.0, *gate), 18));
    frozen.line("compare", cases);
}

/// Every order, and some sides that differ.
fn frozen_sides(call: &Call) -> Vec<Vec<usize>> {
    let all = (call.sides)();
    let is_square = |sides: &Vec<usize>| sides.iter().all(|n| *n == sides[0]);
    let rest = all.iter().filter(|sides| !is_square(sides)).step_by(41);
    all.iter().filter(|sides| is_square(sides)).chain(rest).cloned().collect()
}

/// What stands in a buffer before a list is written.
const BYTE_BEFORE: u8 = 0xA5;

/// A record of lists: its kind, so many numbers more, those that are not given 0, and its data, in parts that are filled up to whole
/// words.
fn data_record(frozen: &mut Frozen, kind: u64, numbers: usize, given: &[u64], data: &[&[u8]]) {
    let parts = data.iter().map(|part| part.len().div_ceil(8)).sum::<usize>();
    frozen.begin(2 + numbers + parts);
    let mut head = vec![0; numbers];
    head[..given.len()].copy_from_slice(given);
    frozen.words(&[kind]);
    frozen.words(&head);
    for part in data {
        frozen.bytes.extend(*part);
        frozen.bytes.resize(frozen.bytes.len().next_multiple_of(8), 0);
    }
}

fn list_record(frozen: &mut Frozen, kind: u64, named: &[usize], data: &[&[u8]]) {
    data_record(frozen, kind, 6, &named.iter().map(|n| *n as u64).collect::<Vec<u64>>(), data);
}

fn patterns(values: &[f64]) -> Vec<u8> {
    values.iter().flat_map(|x| x.to_le_bytes()).collect()
}

/// A list that is read into `room` values, and how many records a reader finds in it.
fn read_record(frozen: &mut Frozen, list: &[u8], room: usize) {
    let mut values = vec![BEFORE; room];
    let read = lists::read(list);
    let (told, count, dimension) = match &read {
        Ok(read) if read.values.len() <= room => {
            values[..read.values.len()].copy_from_slice(&read.values);
            (0, list[0] as usize, read.dimension)
        }
        Ok(_) => (2, 0, 0),
        Err(number) => (*number as usize, 0, 0),
    };
    let records = read.map_or(0, |read| read.starts.len() - 1);
    list_record(frozen, 0, &[list.len(), room, told, count, dimension, records], &[list, &patterns(&values)]);
}

/// Values that are written as a list into `room` bytes.
fn write_record(frozen: &mut Frozen, count: usize, dimension: usize, values: &[f64], room: usize) {
    let mut bytes = vec![BYTE_BEFORE; room];
    let (told, length) = match lists::write(count, dimension, values) {
        Ok(list) if list.len() <= room => {
            bytes[..list.len()].copy_from_slice(&list);
            (0, list.len())
        }
        Ok(_) => (20, 0),
        Err(number) => (number as usize, 0),
    };
    list_record(frozen, 1, &[count, dimension, values.len(), room, told, length], &[&patterns(values), &bytes]);
}

/// Good lists and damaged ones, read and written back; their records, and which of them are equal.
fn track_lists() -> Frozen {
    let mut rng = Rng::new(29);
    let mut frozen = Frozen::new();
    let mut good: Vec<(usize, usize, Vec<f64>, Vec<u8>)> = Vec::new();
    for dimension in 1..=9 {
        for count in [0, 1, 2] {
            let values = lists::tracks(&mut rng, count, dimension);
            let list = lists::write(count, dimension, &values).unwrap();
            good.push((count, dimension, values, list));
        }
    }
    good.retain(|(_, _, values, _)| values.len() <= 20);
    let mut listed: Vec<Vec<u8>> = vec![vec![], vec![1], vec![33, 1], vec![1, 0], vec![1, 10], vec![1, 1, 6]];
    for (_, _, _, list) in &good {
        listed.push(list.clone());
        let mut other = list.clone();
        other.push(0);
        listed.push(other);
        listed.push(list[..rng.below(list.len() as u64) as usize].to_vec());
        for _ in 0..2 {
            let mut other = list.clone();
            let bit = rng.below(8 * list.len() as u64) as usize;
            other[bit / 8] ^= 1 << (bit % 8);
            listed.push(other);
        }
    }
    // A stored field that is infinite, a NaN, or +0.0, in the first track and in the last.
    for (_, _, _, list) in good.iter().filter(|(count, _, values, _)| *count > 0 && values.iter().all(|x| *x != 0.0)) {
        for (at, pattern) in
            [(list.len() - 8, 0x7FF0_0000_0000_0000u64), (list.len() - 8, 0xFFF8_0000_0000_0001), (list.len() - 8, 0)]
        {
            let mut other = list.clone();
            other[at..at + 8].copy_from_slice(&pattern.to_le_bytes());
            listed.push(other);
        }
    }
    let told: Vec<u32> = listed.iter().filter_map(|list| lists::read(list).err()).collect();
    assert!((9..=16).all(|question| told.contains(&question)), "a question that no frozen list fails");
    let most: Vec<Vec<u8>> = (0..2)
        .map(|turn| {
            let values = if turn == 0 { vec![1.0; 64] } else { lists::tracks(&mut rng, 32, 1) };
            lists::write(32, 1, &values).unwrap()
        })
        .collect();
    for list in &most {
        read_record(&mut frozen, list, 64);
        read_record(&mut frozen, &list[..list.len() - 1], 64);
        read_record(&mut frozen, list, 63);
    }
    for list in &listed {
        let needed = lists::read(list).map_or(3, |read| read.values.len());
        let room = rng.one_of(&[needed, needed, needed + 1, needed.saturating_sub(1)]);
        read_record(&mut frozen, list, room);
    }
    frozen.lines.push_str(&format!("{} lists read, 0 differences\n", listed.len() + 3 * most.len()));

    let mut writes = 0;
    for (count, dimension, values, list) in &good {
        for room in [list.len() - 1, list.len(), list.len() + 3] {
            write_record(&mut frozen, *count, *dimension, values, room);
            writes += 1;
        }
    }
    for list in &most {
        write_record(&mut frozen, 32, 1, &lists::read(list).unwrap().values, list.len() + 1);
        writes += 1;
    }
    let infinite = [f64::NEG_INFINITY, 1.0];
    for (count, dimension, values) in
        [(33, 1, &[0.0; 2][..]), (1, 0, &[]), (1, 10, &[]), (1, 1, &[1.0]), (1, 1, &infinite)]
    {
        write_record(&mut frozen, count, dimension, values, 40);
        writes += 1;
    }
    frozen.lines.push_str(&format!("{} lists written, 0 differences\n", writes));

    let mut records = 0;
    for list in &listed {
        let read = lists::read(list);
        let mut offsets = read.as_ref().map_or(vec![2], |read| read.starts.clone());
        offsets.push(rng.below(list.len() as u64 + 2) as usize);
        for offset in offsets {
            let part = lists::record(list, &read, offset);
            list_record(&mut frozen, 2, &[list.len(), offset, part.len()], &[list]);
            records += 1;
        }
    }
    for list in &most {
        let read = lists::read(list);
        let starts = read.as_ref().unwrap().starts.clone();
        for offset in [starts[0], starts[31], starts[32], starts[31] + 1] {
            let part = lists::record(list, &read, offset);
            list_record(&mut frozen, 2, &[list.len(), offset, part.len()], &[list]);
            records += 1;
        }
    }
    frozen.lines.push_str(&format!("{} records handed out, 0 differences\n", records));

    let mut compared = 0;
    for pair in listed.windows(2).step_by(3) {
        for (a, b) in [(&pair[0], &pair[0]), (&pair[0], &pair[1])] {
            list_record(&mut frozen, 3, &[a.len(), b.len(), (a == b) as usize], &[a, b]);
            compared += 1;
        }
    }
    frozen.lines.push_str(&format!("{} records compared, 0 differences\n", compared));
    assert!(frozen.bytes.len() <= BLOCK, "{} bytes in one block", frozen.bytes.len());
    frozen
}

/// What is told of a merge, and its rows with untouched bytes.
fn merge_numbers(case: &Case, answer: Result<&Merged, &u32>) -> (Vec<u64>, Vec<u8>) {
    let mut rows = vec![BYTE_BEFORE; case.room];
    let (told, full, half, single) = match answer {
        Ok(merged) => {
            let written = merged.rows.as_flattened();
            rows[..written.len()].copy_from_slice(written);
            (0, merged.full, merged.half, merged.single)
        }
        Err(number) => (*number, 0, 0, 0),
    };
    let lengths = case.slices().map(|list| list.len() as u64);
    let within = [case.within.floor.to_bits(), case.within.gate.to_bits(), case.room as u64, u64::from(told)];
    ([&lengths[..], &within, &[full, half, single].map(|n| n as u64)].concat(), rows)
}

/// A merge with its rows and counts.
fn merge_record(frozen: &mut Frozen, case: &Case, answer: &Result<Merged, u32>) {
    let (numbers, rows) = merge_numbers(case, answer.as_ref());
    let [base, ours, theirs] = case.slices();
    data_record(frozen, 0, 10, &numbers, &[base, ours, theirs, &rows]);
}

/// The winner of a row.
fn winner_record(frozen: &mut Frozen, case: &Case, row: [u8; 4]) {
    let [_, ours, theirs] = case.slices();
    let (list, start, length) = winner(ours, theirs, &row);
    let row = u64::from(u32::from_le_bytes(row));
    let given = [ours.len() as u64, theirs.len() as u64, row, u64::from(list), start as u64, length as u64];
    data_record(frozen, 1, 10, &given, &[ours, theirs]);
}

/// The longest row buffer that a frozen merge is lent.
const MOST_ROOM: usize = 400;

/// Merges of every dimension, of few tracks and of up to 32; each refusal; two faults at once; and then merges of every dimension whose
/// tracks both sides have measured.
fn merge_cases(rng: &mut Rng) -> Vec<Case> {
    let mut cases = Vec::new();
    for d in 1..=lists::DIMENSIONS {
        for n in [0, 1, 1, 1, 2, 2, 2, 3, 3] {
            cases.push(draw_of(rng, d, n));
        }
    }
    for n in [5, 8, 12, 16, 24, 31, 32, 32, 32] {
        cases.push(draw_of(rng, 1, n));
    }
    cases.push(draw_of(rng, 2, 32));
    cases.push(draw_of(rng, 3, 32));
    for turn in 0..10 * QUESTIONS {
        let (d, n) = (1 + turn as usize % 3, 1 + rng.below(2) as usize);
        let mut case = draw_of(rng, d, n);
        fault(rng, &mut case, turn as usize / 11 % 3, FIRST + turn % QUESTIONS);
        if turn >= 7 * QUESTIONS {
            let other = FIRST + rng.below(u64::from(QUESTIONS)) as u32;
            let list = rng.below(3) as usize;
            fault(rng, &mut case, list, other);
        }
        cases.push(case);
    }
    let mut rng = Rng::new(67);
    for d in 1..=lists::DIMENSIONS {
        for n in [1, 1, 1, 2, 2] {
            cases.push(measured_of(&mut rng, d, n));
        }
    }
    cases.push(measured_of(&mut rng, 1, 32));
    cases.push(measured_of(&mut rng, 2, 16));
    for case in &mut cases {
        case.room = case.room.min(MOST_ROOM);
    }
    cases
}

/// Whether merges of every dimension have a fused row, and there are such rows and conflicts of three tracks in numbers.
fn are_fused(cases: &[Case], answers: &[Result<Merged, u32>]) -> bool {
    let (mut fused, mut unfused) = ([0; lists::DIMENSIONS], 0);
    for (case, merged) in cases.iter().zip(answers).filter_map(|(case, answer)| Some((case, answer.as_ref().ok()?))) {
        fused[case.lists[0][1] as usize - 1] += merged.rows.iter().filter(|row| row[3] == 5).count();
        unfused += merged.unfused();
    }
    println!("frozen merges: {fused:?} rows fused, by dimensions, {unfused} conflicts of three tracks");
    fused.iter().all(|rows| *rows > 0) && unfused >= 10
}

/// Frozen merges, the winners of some rows, and merges with their lists. Every verdict, every refusal and some ties are there.
fn merging() -> Frozen {
    let mut rng = Rng::new(59);
    let mut frozen = Frozen::new();
    let cases = merge_cases(&mut rng);
    let answers: Vec<Result<Merged, u32>> =
        cases.iter().map(|case| merge(case.slices(), case.within, case.room, by_size)).collect();
    let mut winners = Vec::new();
    for (case, answer) in cases.iter().zip(&answers) {
        merge_record(&mut frozen, case, answer);
        let small = case.lists.iter().map(Vec::len).sum::<usize>() < 400;
        let rows = answer.as_ref().map_or(&[][..], |merged| &merged.rows);
        let other =
            [rng.one_of(&[0, 255]), rng.one_of(&[0, 1, 32, 255]), rng.one_of(&[0, 1, 32]), rng.one_of(&[1, 2, 5])];
        if small {
            winners.extend(rows.iter().take(2).chain([&other]).map(|row| (case, *row)));
        }
    }
    for (case, row) in &winners {
        winner_record(&mut frozen, case, *row);
    }
    let answered = || answers.iter().filter_map(|answer| answer.as_ref().ok());
    let verdicts: Vec<u8> = answered().flat_map(|merged| merged.rows.iter().map(|row| row[3])).collect();
    let refused: Vec<u32> = answers.iter().filter_map(|answer| answer.as_ref().err().copied()).collect();
    assert!((0..6).all(|verdict| verdicts.contains(&verdict)), "a verdict that no frozen merge has");
    assert!(are_fused(&cases, &answers), "a dimension without a fused row, or few conflicts of three tracks");
    assert!((0..QUESTIONS).all(|at| refused.contains(&(FIRST + at))), "a question that no frozen merge fails");
    assert!(answered().any(|merged| merged.pairings.iter().any(|pairing| pairing.ties() > 0)), "no tie");
    frozen.lines.push_str(&format!("{} merges, 0 differences\n", cases.len()));
    frozen.lines.push_str(&format!("{} winners, 0 differences\n", winners.len()));
    merged_lists::append(&mut frozen);
    frozen
}

/// The programs, each with its frozen answers.
fn all() -> [(&'static str, Frozen); 4] {
    [
        ("number_vectors", numbers()),
        ("matrix_vectors", matrices()),
        ("tracks_vectors", track_lists()),
        ("merge_vectors", merging()),
    ]
}

pub fn write() {
    for (program, frozen) in all() {
        frozen.files(program).iter().for_each(|(path, bytes)| fs::write(path, bytes).unwrap());
        println!("{program}: {} bytes", frozen.bytes.len());
    }
}

/// Compares the frozen answers with those that stand, and answers how many files differ.
pub fn check() -> u64 {
    let mut differences = 0;
    for (program, frozen) in all() {
        let stand = |(path, bytes): &(PathBuf, &[u8])| fs::read(path).is_ok_and(|found| found == *bytes);
        let differ = frozen.files(program).iter().filter(|file| !stand(file)).count();
        println!("{program}: {differ} of the 2 files differ from what the Rust answers now");
        differences += differ as u64;
    }
    differences
}
