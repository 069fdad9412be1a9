//! What the second merger itself is held to: examples worked out by hand, and document 01's sentences on rows and counts.
use super::cases::listed;
use super::list::reference::{merge_list, MergedList};
use super::pairings::{by_order, by_size, by_trying, Candidate};
use super::reference::{merge, Merged, Within, NONE};
use crate::lists::{self, LONGEST};
use crate::rng::Rng;

/// Floor and gate of the program and of the examples.
pub const WITHIN: Within = Within { floor: 1.0, gate: 16.0 };

/// The lines that the program prints.
pub fn text(answer: &Result<Merged, u32>) -> String {
    let merged = match answer {
        Ok(merged) => merged,
        Err(number) => return format!("no {number}\n"),
    };
    let index = |i: u8| if i == NONE { "-".to_string() } else { i.to_string() };
    let mut lines = String::new();
    for [b, o, t, verdict] in &merged.rows {
        lines.push_str(&format!("{} {} {} {verdict}\n", index(*b), index(*o), index(*t)));
    }
    lines + &format!("{} {} {}\n", merged.full, merged.half, merged.single)
}

/// A list of dimension 1 by its states and variances.
type Tracks = &'static [(f64, f64)];

/// Three such lists, the lines by hand, and the merged list or the number that it is refused with.
type Example = ([Tracks; 3], &'static str, Result<Tracks, u32>);

const EXAMPLES: &[Example] = &[
    // k of document 01.
    (
        [
            &[(10.0, 1.0), (20.0, 1.0), (30.0, 1.0)],
            &[(10.0, 1.0), (30.0, 1.0)],
            &[(10.0, 1.0), (20.0, 1.0), (30.5, 1.0)],
        ],
        "0 0 0 0\n1 - 1 3\n2 1 2 2\n2 1 0\n",
        Ok(&[(10.0, 1.0), (30.5, 1.0)]),
    ),
    ([&[], &[], &[]], "0 0 0\n", Ok(&[])),
    // Paired crosswise, not by place; theirs is left with nobody near.
    (
        [&[(10.0, 1.0), (20.0, 1.0)], &[(20.0, 1.0), (10.0, 1.0)], &[(60.0, 1.0)]],
        "0 1 - 3\n1 0 - 3\n- - 0 2\n0 2 1\n",
        Ok(&[(60.0, 1.0)]),
    ),
    // Ours 0 is as far from base 0 as from base 1, then theirs 0 as far as theirs 1: the lower place wins.
    ([&[(0.0, 1.0), (4.0, 1.0)], &[(2.0, 1.0)], &[]], "0 0 - 4\n1 - - 3\n0 1 1\n", Err(21)),
    ([&[(4.0, 1.0)], &[], &[(6.0, 1.0), (2.0, 1.0)]], "0 - 0 4\n- - 1 2\n0 1 1\n", Err(21)),
    // Base 1 and ours 0 are nearest; base 0 is left with ours 1, at d² 8.
    ([&[(0.0, 1.0), (3.0, 1.0)], &[(2.0, 1.0), (4.0, 1.0)], &[]], "0 1 - 4\n1 0 - 4\n0 2 0\n", Err(21)),
    // At the gate, d² 16, and past it.
    ([&[(0.0, 0.5), (100.0, 0.5)], &[(4.0, 0.5), (104.25, 0.5)], &[]], "0 0 - 4\n1 - - 3\n- 1 - 1\n0 1 2\n", Err(21)),
    // Both sides changed base alike; both added one track alike, and one differently.
    (
        [&[(0.0, 1.0)], &[(1.0, 1.0), (50.0, 1.0), (90.0, 1.0)], &[(90.5, 1.0), (50.0, 1.0), (1.0, 1.0)]],
        "0 0 2 1\n- 1 1 1\n- 2 0 4\n1 2 0\n",
        Err(21),
    ),
    // Theirs stayed; both changed differently, and are fused: 51 + 52 - 50; a zero of the other sign is another record.
    (
        [
            &[(0.0, 1.0), (50.0, 1.0), (90.0, 1.0)],
            &[(1.0, 1.0), (51.0, 1.0), (90.0, 2.0)],
            &[(0.0, 1.0), (52.0, 1.0), (90.0, 1.0)],
        ],
        "0 0 0 1\n1 1 1 5\n2 2 2 1\n3 0 0\n",
        Ok(&[(1.0, 1.0), (53.0, 1.0), (90.0, 2.0)]),
    ),
    // Both sides know more than base: 1/2 + 1/8 - 1/8 = 1/2, and 51/2 + 52/8 - 50/8 = 51.5/2. Then the floor raises 1/2 to 1.
    (
        [&[(50.0, 8.0), (90.0, 1.0)], &[(51.0, 2.0), (90.0, 0.5)], &[(52.0, 8.0), (91.0, 1.0)]],
        "0 0 0 5\n1 1 1 5\n2 0 0\n",
        Ok(&[(51.5, 2.0), (90.5, 1.0)]),
    ),
    // What is known together is below 0, -5/8 and -1/2: the variance is raised to the floor, and 0 divided by it is -0.0.
    (
        [&[(0.0, 1.0), (50.0, 1.0)], &[(0.0, 4.0), (51.0, 4.0)], &[(0.0, 8.0), (50.0, 4.0)]],
        "0 0 0 5\n1 1 1 5\n2 0 0\n",
        Ok(&[(-0.0, 1.0), (49.5, 1.0)]),
    ),
    // Nothing is known together: 1/2 + 1/2 - 1; a variance of 0 has no inverse, wherever it stands.
    ([&[(0.0, 1.0)], &[(1.0, 2.0)], &[(2.0, 2.0)]], "0 0 0 4\n1 0 0\n", Err(21)),
    ([&[(0.0, 0.0)], &[(1.0, 1.0)], &[(2.0, 2.0)]], "0 0 0 4\n1 0 0\n", Err(21)),
    ([&[(0.0, 1.0)], &[(1.0, 1.0)], &[(2.0, -0.0)]], "0 0 0 4\n1 0 0\n", Err(21)),
    // 2 + 1 - 3 is a state of +0.0, which is not stored. Where one row is fused and another is a conflict, there is no list.
    ([&[(3.0, 1.0)], &[(2.0, 1.0)], &[(1.0, 1.0)]], "0 0 0 5\n1 0 0\n", Ok(&[(0.0, 1.0)])),
    (
        [&[(3.0, 1.0), (50.0, 0.0)], &[(2.0, 1.0), (51.0, 0.0)], &[(1.0, 1.0), (52.0, 0.0)]],
        "0 0 0 5\n1 1 1 4\n2 0 0\n",
        Err(21),
    ),
    // Ours has changed base 1 and added one, theirs has changed base 0 and added another, and base 2 stays.
    (
        [
            &[(0.0, 1.0), (50.0, 1.0), (90.0, 1.0)],
            &[(70.0, 1.0), (90.0, 1.0), (51.0, 1.0), (0.0, 1.0)],
            &[(50.0, 1.0), (90.0, 1.0), (1.0, 0.0), (20.0, 1.0)],
        ],
        "0 3 2 2\n1 2 0 1\n2 1 1 0\n- 0 - 1\n- - 3 2\n3 0 2\n",
        Ok(&[(1.0, 0.0), (51.0, 1.0), (90.0, 1.0), (70.0, 1.0), (20.0, 1.0)]),
    ),
    ([&[(0.0, 1.0)], &[(-0.0, 1.0)], &[(0.0, 1.0)]], "0 0 0 1\n1 0 0\n", Ok(&[(-0.0, 1.0)])),
    ([&[], &[(0.0, 1.0)], &[(-0.0, 1.0)]], "- 0 0 4\n0 1 0\n", Err(21)),
    // Theirs 1 is free of base and nearer to ours 0 than theirs 0, which base took; ours 0 is base's, too.
    (
        [&[(0.0, 1.0)], &[(3.0, 1.0)], &[(0.5, 1.0), (3.0, 1.0)]],
        "0 0 0 5\n- - 1 2\n1 0 1\n",
        Ok(&[(3.5, 1.0), (3.0, 1.0)]),
    ),
    // The repair lifts a variance of 0 to the floor: d² 16, and 25 where it is 25 / 1.
    ([&[(0.0, 0.0), (50.0, 0.0)], &[(4.0, 0.0), (55.0, 0.0)], &[]], "0 0 - 4\n1 - - 3\n- 1 - 1\n0 1 2\n", Err(21)),
];

fn examples() {
    let of = |tracks: Tracks| listed(&tracks.iter().map(|(x, p)| vec![*x, *p]).collect::<Vec<_>>(), 1);
    for (lists, wanted, merged) in EXAMPLES {
        let lists = lists.map(of);
        let lists = [&lists[0][..], &lists[1], &lists[2]];
        let answer = merge(lists, WITHIN, 384, by_size);
        assert!(text(&answer) == *wanted, "the second merger answers\n{}where it is\n{wanted}", text(&answer));
        let list = merge_list(lists, WITHIN, [384, LONGEST], by_size).map(|list| list.bytes);
        assert!(list == merged.map(of), "the second merger writes {list:?} where the rows are\n{wanted}");
    }
}

/// Candidates of few distances between few tracks: trying all pairings finds what their order gives.
fn two_ways() {
    let mut rng = Rng::new(31);
    for _ in 0..20_000 {
        let (m, n, distances) = (rng.below(5), rng.below(5), 1 + rng.below(5) as usize);
        let mut candidates = Vec::new();
        for (first, second) in (0..m as usize).flat_map(|i| (0..n as usize).map(move |j| (i, j))) {
            if rng.below(4) != 0 {
                let d2 = rng.one_of(&[-0.0, 0.0, 1.0, 2.0, 3.0][..distances]);
                candidates.push(Candidate { d2, first, second });
            }
        }
        let (mut tried, mut ordered) = (by_trying(candidates.clone()).pairs, by_order(candidates).pairs);
        tried.sort_by_key(|pair| pair.first);
        ordered.sort_by_key(|pair| pair.first);
        assert!(tried == ordered, "two pairings: {tried:?} and {ordered:?}");
    }
}

/// Every track of the three lists stands in exactly one row, and every index is a track's or 255; the rows' order; a fused
/// track for each row of verdict 5, which has three tracks, and for no other; the counts; and the pairs that the rows show
/// are the three pairings.
pub fn whole(merged: &Merged, counts: [usize; 3]) {
    let Merged { rows, full, half, single, fused, pairings } = merged;
    for (list, count) in counts.into_iter().enumerate() {
        let mut indices: Vec<u8> = rows.iter().map(|row| row[list]).filter(|i| *i != NONE).collect();
        indices.sort_unstable();
        assert!(indices.into_iter().eq((0..count).map(|i| i as u8)), "list {list}: not each track once in {rows:?}");
    }
    let group = |row: &[u8; 4]| row[..3].iter().position(|i| *i != NONE).expect("a row without a track");
    let places: Vec<(usize, u8)> = rows.iter().map(|row| (group(row), row[group(row)])).collect();
    assert!(places.is_sorted(), "the rows' order: {rows:?}");
    assert!(rows.iter().all(|row| row[3] <= 5));
    let is_fused = |row: &[u8; 4]| row[3] == 5 && row[..3].iter().all(|i| *i != NONE);
    let agrees =
        |(row, fused): (&[u8; 4], &Option<Vec<f64>>)| if fused.is_some() { is_fused(row) } else { row[3] != 5 };
    assert!(rows.len() == fused.len() && rows.iter().zip(fused).all(agrees), "the fused tracks of {rows:?}");
    assert!(fused.iter().flatten().flatten().all(|x| x.is_finite()), "a fused track that no list holds");
    assert!(full + half + single == rows.len());
    assert!(3 * full + 2 * half + single == counts.iter().sum());
    let shown = |first: usize, second: usize, among: fn(&[u8; 4]) -> bool| -> Vec<(usize, usize)> {
        let pairs = rows.iter().filter(|row| among(row) && row[first] != NONE && row[second] != NONE);
        pairs.map(|row| (row[first] as usize, row[second] as usize)).collect()
    };
    let three = [shown(0, 1, |_| true), shown(0, 2, |_| true), shown(1, 2, |row| row[0] == NONE)];
    for (mut shown, pairing) in three.into_iter().zip(pairings) {
        let mut pairs: Vec<(usize, usize)> = pairing.pairs.iter().map(|pair| (pair.first, pair.second)).collect();
        shown.sort_unstable();
        pairs.sort_unstable();
        assert!(shown == pairs, "the rows show {shown:?}, paired are {pairs:?}");
    }
}

/// The list that the second merger writes: the second writer makes it of the tracks' fields, and the second reader finds these.
pub fn list(list: &MergedList) {
    let MergedList { count, dimension, bytes, values, .. } = list;
    let made = lists::write(*count, *dimension, values);
    assert!(made.as_ref() == Ok(bytes), "{bytes:?} is written where the tracks make {made:?}");
    let read = lists::read(bytes).expect("a merged list that is accepted");
    let bits = |values: &[f64]| values.iter().map(|x| x.to_bits()).collect::<Vec<u64>>();
    assert!(read.dimension == *dimension && bits(&read.values) == bits(values), "other tracks in {bytes:?}");
}

pub fn run() {
    examples();
    two_ways();
    println!("second merger: {} examples by hand, 20,000 pairings found in two ways", EXAMPLES.len());
}
