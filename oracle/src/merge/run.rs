//! The library's merge and winner beside the second merger.
use super::cases::{draw, draw_of, measured, measured_of, Case};
use super::checks;
use super::damage::{one_fault, turn_bit, two_faults};
use super::pairings::by_size;
use super::reference::{merge, winner, Merged, Within};
use crate::faults::{self, End, Fault, Kind, Met, Shape};
use crate::ffi;
use crate::lent::Lent;
use crate::lists::{self, COUNTS, DIMENSIONS};
use crate::rng::Rng;
use crate::tally::{self, Tally};

const MERGE: &str = "merge";
const WINNER: &str = "winner";

/// The numbers of the lists' questions, and those of the merge.
const REFUSES: &[u32] = &[9, 10, 11, 12, 13, 14, 15, 16, 17, 18, 19];

/// Pairs of these of which both can be unmet, the earlier one first.
pub fn orders() -> Vec<(u32, u32)> {
    // A list is refused before the next one is read, also where that one's number is lower; the merge's own questions follow.
    let among_lists = (9..=16).flat_map(|first| [9, 16].map(|later| (first, later)));
    let after_lists = (9..=16).flat_map(|first| [17, 18, 19].map(|later| (first, later)));
    let of_lists = among_lists.filter(|(first, later)| first != later).chain(after_lists);
    of_lists.chain([(17, 18), (17, 19), (18, 19)]).collect()
}

/// The faults that rows of these verdicts can have.
pub fn row_faults(verdicts: &[u8]) -> Vec<Fault> {
    let ends = [End::First, End::Last].map(Fault::RowLeftOut);
    let others = |from: u8| (0..VERDICTS as u8).filter(move |to| *to != from).map(move |to| Fault::Verdict(from, to));
    let verdicts = verdicts.iter().copied().flat_map(others);
    [0, 1, 2].map(Fault::PairExchanged).into_iter().chain(ends).chain(verdicts).collect()
}

/// What the two calls are lent, and the faults that only they can have.
pub fn shapes() -> [Shape; 2] {
    [
        Shape {
            name: MERGE,
            reads: 3,
            writes: vec![Kind::Bytes, Kind::Whole, Kind::Whole, Kind::Whole],
            partly: vec![0],
            refuses: REFUSES,
            orders: orders(),
            others: row_faults(&[0, 1, 2, 3, 4, 5]),
        },
        Shape {
            name: WINNER,
            reads: 3,
            writes: vec![Kind::Whole, Kind::Whole, Kind::Whole],
            partly: vec![],
            refuses: &[],
            orders: vec![],
            others: [0, 1].map(Fault::WhereEmpty).to_vec(),
        },
    ]
}

/// The questions that are not met, each asked by itself.
pub fn unmet(case: &Case) -> Vec<u32> {
    let byte = |at: usize| case.lists.iter().filter_map(move |list| list.get(at)).map(|byte| *byte as usize);
    let Within { floor, gate } = case.within;
    let questions = [
        (17, byte(1).all(|d| Some(d) == byte(1).next())),
        (18, floor.is_finite() && floor > 0.0 && gate.is_finite() && gate >= 0.0),
        (19, case.room >= 4 * byte(0).sum::<usize>()),
    ];
    let lists = case.lists.iter().filter_map(|list| lists::read(list).err());
    lists.chain(questions.iter().filter(|(_, met)| !met).map(|(question, _)| *question)).collect()
}

/// How many verdicts there are.
const VERDICTS: usize = 6;

/// Rows of three tracks that are fused, and such that are not, are met so many times at least.
const LEAST: u64 = 100;

/// What the merges that were compared had in them.
#[derive(Default)]
struct Seen {
    verdicts: [u64; VERDICTS],
    /// Conflicts of three tracks.
    unfused: u64,
    /// Rows with one, two and three tracks.
    rows: [u64; 3],
    /// Pairs of base with ours, base with theirs, ours with theirs.
    pairs: [u64; 3],
    candidates: u64,
    /// Candidates at one distance that share a track, and the merges that have some.
    tied: u64,
    with_ties: u64,
    /// Pairings of some candidate, and those that were found by trying all.
    pairings: u64,
    tried: u64,
}

impl Seen {
    fn answered(&mut self, merged: &Merged) {
        merged.rows.iter().for_each(|row| self.verdicts[row[3] as usize] += 1);
        self.unfused += merged.unfused() as u64;
        for (count, rows) in self.rows.iter_mut().zip([merged.single, merged.half, merged.full]) {
            *count += rows as u64;
        }
        for (count, pairing) in self.pairs.iter_mut().zip(&merged.pairings) {
            *count += pairing.pairs.len() as u64;
        }
        let mut tied = 0;
        for pairing in merged.pairings.iter().filter(|pairing| !pairing.candidates.is_empty()) {
            self.candidates += pairing.candidates.len() as u64;
            self.pairings += 1;
            self.tried += u64::from(pairing.tried);
            tied += pairing.ties() as u64;
        }
        self.tied += tied;
        self.with_ties += u64::from(tied > 0);
    }

    fn print(&self) {
        let [keep, ours, theirs, deleted, conflict, fused] = self.verdicts;
        let [single, half, full] = self.rows;
        println!(
            "merge: rows {keep} keep, {ours} take ours, {theirs} take theirs, {deleted} deleted, {conflict} conflict, {} of them of three tracks, {fused} fused",
            self.unfused
        );
        let [base_ours, base_theirs, ours_theirs] = self.pairs;
        println!(
            "merge: rows {full} of three tracks, {half} of two, {single} of one; pairs {base_ours} of base and ours, {base_theirs} of base and theirs, {ours_theirs} of ours and theirs"
        );
        println!(
            "merge: {} candidates, {} of them tied with another, in {} merges; {} pairings, {} found by trying all",
            self.candidates, self.tied, self.with_ties, self.pairings, self.tried
        );
    }

    /// Whether every verdict, every number of tracks, every pairing and some ties were there.
    fn is_whole(&self) -> bool {
        let counts = [&self.verdicts[..], &self.rows, &self.pairs, &[self.with_ties, self.tried]].concat();
        counts.iter().all(|n| *n > 0) && self.unfused >= LEAST && self.verdicts[5] >= LEAST
    }
}

struct Compared {
    merges: Tally,
    winners: Tally,
    seen: Seen,
}

impl Compared {
    /// One merge: its answer, its rows and all other memory.
    fn merge(&mut self, case: &Case) -> Result<Merged, u32> {
        let [mut base, mut ours, mut theirs] = case.slices().map(Lent::holding);
        let mut rows = Lent::<u8>::marked(case.room);
        let [mut full, mut half, mut single] = [0; 3].map(|_| Lent::<usize>::marked(1));
        let lists = [base.slice(), ours.slice(), theirs.slice()];
        let within = (case.within.floor, case.within.gate);
        let mut number = ffi::merge(lists, within, rows.slice_mut(), [full.one(), half.one(), single.one()]);

        let wanted = merge(case.slices(), case.within, case.room, by_size);
        let (number_wanted, rows_wanted) = match &wanted {
            Ok(merged) => (0, merged.rows.as_flattened()),
            Err(number) => (*number, &[][..]),
        };
        faults::plant(MERGE, || Met {
            number: &mut number,
            also: unmet(case),
            wrong: vec![],
            reads: vec![&mut base, &mut ours, &mut theirs],
            writes: vec![(&mut rows, rows_wanted.len()), (&mut full, 1), (&mut half, 1), (&mut single, 1)],
        });
        let counts: Vec<usize> = wanted.iter().flat_map(|merged| [merged.full, merged.half, merged.single]).collect();
        let told = [&full, &half, &single];
        let agrees = number == number_wanted
            && rows.begins_with(rows_wanted)
            && (0..3).all(|at| told[at].begins_with(counts.get(at..at + 1).unwrap_or_default()));
        let kept = [&base, &ours, &theirs].into_iter().all(Lent::is_untouched);
        if let Ok(merged) = &wanted {
            checks::whole(merged, [0, 1, 2].map(|list| case.lists[list][0] as usize));
            self.seen.answered(merged);
        }
        self.merges.refused(number_wanted);
        self.merges.case(agrees && kept, || {
            let counts_told: Vec<usize> = told.iter().map(|count| count.slice()[0]).collect();
            format!(
                "answers {number}, {counts_told:?}, rows {:?}, not {number_wanted}, {counts:?}, {rows_wanted:?}, the lists {}\n    {}",
                rows.slice(),
                if kept { "stay" } else { "are changed" },
                case.describe()
            )
        });
        wanted
    }

    /// One list, lent three times.
    fn one_list(&mut self, mut case: Case) {
        case.lists = [0, 1, 2].map(|_| case.lists[0].clone());
        case.room = 4 * 3 * COUNTS;
        let (list, mut rows) = (Lent::holding(&case.lists[0]), Lent::<u8>::marked(case.room));
        let [mut full, mut half, mut single] = [0; 3];
        let within = (case.within.floor, case.within.gate);
        let number = ffi::merge([list.slice(); 3], within, rows.slice_mut(), [&mut full, &mut half, &mut single]);
        let wanted = merge(case.slices(), case.within, case.room, by_size).expect("a good list");
        let agrees = (number, full, half, single) == (0, wanted.full, wanted.half, wanted.single)
            && rows.begins_with(wanted.rows.as_flattened())
            && list.is_untouched();
        self.merges.refused(0);
        self.merges.case(agrees, || format!("one list three times: {}", case.describe()));
    }

    /// The winner's place for a row.
    fn winner(&mut self, case: &Case, row: &[u8]) {
        let [mut ours, mut theirs, mut lent] = [&case.lists[1], &case.lists[2], row].map(Lent::holding);
        let mut list = Lent::<u32>::marked(1);
        let [mut start, mut length] = [0; 2].map(|_| Lent::<usize>::marked(1));
        ffi::winner(ours.slice(), theirs.slice(), lent.slice(), list.one(), start.one(), length.one());
        let wanted = winner(&case.lists[1], &case.lists[2], row);
        let mut number = 0;
        faults::plant(WINNER, || Met {
            number: &mut number,
            also: vec![],
            wrong: vec![],
            reads: vec![&mut ours, &mut theirs, &mut lent],
            writes: vec![(&mut list, 1), (&mut start, 1), (&mut length, 1)],
        });
        if wanted.0 == 0 {
            self.winners.empty();
        }
        let agrees = list.begins_with(&[wanted.0]) && start.begins_with(&[wanted.1]) && length.begins_with(&[wanted.2]);
        let kept = [&ours, &theirs, &lent].into_iter().all(Lent::is_untouched);
        self.winners.case(agrees && kept, || {
            let answer = (list.slice()[0], start.slice()[0], length.slice()[0]);
            format!("row {row:?}: answers {answer:?}, not {wanted:?}, or other memory\n    {}", case.describe())
        });
    }

    /// A merge, and the winners of some of its rows and of some other bytes.
    fn case(&mut self, rng: &mut Rng, case: &Case) {
        let merged = self.merge(case);
        let rows = merged.map_or(Vec::new(), |merged| merged.rows);
        for _ in 0..rows.len().min(4) {
            self.winner(case, &rng.one_of(&rows));
        }
        if let Some(fused) = rows.iter().find(|row| row[3] == 5) {
            self.winner(case, fused);
        }
        let other = [0, 1, 2].map(|_| rng.one_of(&[0, 1, 2, 31, 32, 254, 255]));
        let verdict = rng.one_of(&[0, 1, 1, 2, 2, 3, 4, 5, 6, 255]);
        let row = [other[0], other[1], other[2], verdict, 0];
        self.winner(case, &row[..4]);
        self.winner(case, &row[..rng.one_of(&[0, 3, 4, 5])]);
    }
}

/// So many merges are drawn in the quick form, and in the long one.
pub fn amount(long: bool) -> u32 {
    if long {
        300_000
    } else {
        5_000
    }
}

/// So many merges of all kinds, and then those of every count and dimension, or of some; answers the number of differences.
pub fn run(amount: u32, every: bool) -> u64 {
    let mut compared = Compared {
        merges: Tally::refusing(MERGE, REFUSES, u64::from(amount / 200)),
        winners: Tally::new(WINNER),
        seen: Seen::default(),
    };
    let mut rng = Rng::new(37);
    for turn in 0..amount {
        let mut case = if turn % 4 == 3 { measured(&mut rng) } else { draw(&mut rng) };
        match turn % 8 {
            0 => turn_bit(&mut rng, &mut case),
            1 => drop(one_fault(&mut rng, &mut case, turn / 8)),
            2 | 3 => two_faults(&mut rng, &mut case, turn / 8),
            _ => {}
        }
        compared.case(&mut rng, &case);
        compared.merges.done(turn as usize + 1, amount as usize);
    }
    for d in 1..=DIMENSIONS {
        // Large merges of a high dimension take milliseconds.
        let step = if every || d <= 3 { 1 } else { 8 };
        for n in (0..=COUNTS).step_by(step) {
            let case = measured_of(&mut rng, d, n);
            compared.case(&mut rng, &case);
            let case = draw_of(&mut rng, d, n);
            compared.case(&mut rng, &case);
            compared.one_list(case);
        }
        compared.merges.done(d, DIMENSIONS);
    }
    if tally::is_quiet() {
        return 0;
    }
    compared.seen.print();
    let missed = u64::from(!compared.seen.is_whole());
    if missed != 0 {
        println!("merge: a verdict, a pairing or a tie was never met");
    }
    compared.merges.close() + compared.winners.close() + missed
}
