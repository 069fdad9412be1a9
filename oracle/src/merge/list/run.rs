//! The library's merge with its list beside the second one.
use super::cases::{self, Buffer, Drawn, Plan};
use super::reference::{length, merge_list, winners, written, MergedList, Winner, HEAD};
use crate::faults::{self, Fault, Kind, Met, Shape};
use crate::ffi;
use crate::lent::Lent;
use crate::lists::{COUNTS, DIMENSIONS};
use crate::merge::cases::Case;
use crate::merge::checks::{self, WITHIN};
use crate::merge::pairings::by_size;
use crate::merge::reference::{merge, Merged};
use crate::merge::run as merges;
use crate::rng::Rng;
use crate::tally::{self, Tally};

pub const MERGE_LIST: &str = "merge_list";

/// The merge's questions and then those of the list, in their order.
const REFUSES: &[u32] = &[9, 10, 11, 12, 13, 14, 15, 16, 17, 18, 19, 21, 22, 20];

/// What the call is lent, and the faults that only it can have.
pub fn shape() -> Shape {
    let writes = vec![Kind::Bytes, Kind::Whole, Kind::Whole, Kind::Whole, Kind::Bytes, Kind::Whole];
    // A buffer without room for a count and a dimension is too short for any list.
    let before_list = (9..=19).map(|first| (first, 20));
    let of_rows = [18, 19].into_iter().flat_map(|first| [21, 22].map(|later| (first, later)));
    let of_list = [(21, 22), (21, 20), (22, 20)];
    let early = [21, 22, 20].into_iter().flat_map(|n| (0..writes.len()).map(move |part| Fault::WrittenBefore(n, part)));
    let left_out = [0, 1, 2, 5].map(|verdict| Fault::Record(verdict, None));
    // Where all three lists have the record, each is the right one.
    let wrong = [(1, 0), (1, 2), (2, 0), (2, 1), (3, 0), (3, 1), (3, 2), (5, 0), (5, 1), (5, 2)];
    let wrong = wrong.map(|(verdict, list)| Fault::Record(verdict, Some(list)));
    let of_rows_told = merges::row_faults(&[0, 1, 2, 3, 5]);
    let fused = [Fault::FusedRefuses, Fault::FusedUncounted];
    let others = of_rows_told.into_iter().chain(early).chain(left_out).chain(wrong).chain(fused).collect();
    let orders = merges::orders().into_iter().chain(before_list).chain(of_rows).chain(of_list).collect();
    Shape { name: MERGE_LIST, reads: 3, writes, partly: vec![0, 4], refuses: REFUSES, orders, others }
}

/// The questions that are not met, each asked by itself: those of the list where the lists can be merged, under a floor and a gate
/// that are good and with room for all rows.
fn unmet(case: &Case, room: usize) -> Vec<u32> {
    let mut unmet = merges::unmet(case);
    let within = if unmet.contains(&18) { WITHIN } else { case.within };
    let merged = merge(case.slices(), within, 4 * 3 * COUNTS, by_size);
    let questions = [
        (21, merged.iter().flat_map(|merged| &merged.rows).all(|row| row[3] != 4)),
        (22, merged.iter().all(|merged| winners(merged).len() <= COUNTS)),
        (20, room >= merged.as_ref().map_or(HEAD, |merged| length(case.slices(), merged))),
    ];
    unmet.extend(questions.iter().filter(|(_, met)| !met).map(|(question, _)| *question));
    unmet
}

/// The place of fused tracks among the records that were counted.
const FUSED: usize = 3;

/// What the merges that were compared had in them.
#[derive(Default)]
struct Seen {
    written: u64,
    /// Lists of no track, of 32, and those that their buffer just holds.
    empty: u64,
    most: u64,
    exact: u64,
    /// Records of base, ours and theirs, and of fused tracks, and rows that write none.
    records: [u64; 4],
    deleted: u64,
    /// Written lists with a fused track, and with nothing else.
    with_fused: u64,
    all_fused: u64,
    /// Refused by 21, by 22, and by 20.
    refused: [u64; 3],
    /// Refused by 21 for conflicts of three tracks alone; by 22 for fused tracks, without which there were not too many.
    unfused: u64,
    fused_too_many: u64,
}

impl Seen {
    /// Why the rows of a merge refuse the list.
    fn refused_by_rows(&mut self, merged: &Merged) {
        let conflicts = merged.rows.iter().filter(|row| row[3] == 4).count();
        self.unfused += u64::from(conflicts > 0 && conflicts == merged.unfused());
        self.fused_too_many += u64::from(conflicts == 0 && winners(merged).len() > COUNTS && unfused_fit(merged));
    }

    fn answered(&mut self, wanted: &Result<MergedList, u32>, room: usize) {
        let list = match wanted {
            Ok(list) => list,
            Err(number) => {
                let place = [21, 22, 20].iter().position(|question| question == number);
                return place.into_iter().for_each(|place| self.refused[place] += 1);
            }
        };
        self.written += 1;
        self.empty += u64::from(list.count == 0);
        self.most += u64::from(list.count == COUNTS);
        self.exact += u64::from(list.bytes.len() == room);
        let winners = winners(&list.merged);
        let place = |winner: &Winner| if let Winner::Of(list, _) = winner { *list } else { FUSED };
        winners.iter().for_each(|winner| self.records[place(winner)] += 1);
        let fused = winners.iter().filter(|winner| place(winner) == FUSED).count();
        self.with_fused += u64::from(fused > 0);
        self.all_fused += u64::from(fused > 0 && fused == list.count);
        self.deleted += (list.merged.rows.len() - list.count) as u64;
    }

    fn print(&self) {
        let [conflict, many, short] = self.refused;
        println!(
            "merge_list: {} lists written, {conflict} refused by 21 ({} for conflicts of three tracks alone), {many} by 22 ({} for their fused tracks), {short} by 20; of those written {} have no track, {} have 32, {} fill their buffer, {} have fused tracks, {} nothing else",
            self.written,
            self.unfused,
            self.fused_too_many,
            self.empty,
            self.most,
            self.exact,
            self.with_fused,
            self.all_fused
        );
        let [base, ours, theirs, fused] = self.records;
        println!(
            "merge_list: records {base} of base, {ours} of ours, {theirs} of theirs, {fused} of fused tracks; {} rows without one",
            self.deleted
        );
    }

    /// Whether lists of every kind, records of all three lists and every refusal were there.
    fn is_whole(&self) -> bool {
        let lists = [self.written, self.empty, self.most, self.exact, self.deleted, self.with_fused, self.all_fused];
        let by_rows = [self.unfused, self.fused_too_many];
        [&lists[..], &self.records, &self.refused, &by_rows].concat().iter().all(|n| *n > 0)
    }
}

/// Whether a list would hold the tracks that are not fused.
fn unfused_fit(merged: &Merged) -> bool {
    winners(merged).iter().filter(|winner| matches!(winner, Winner::Of(..))).count() <= COUNTS
}

/// Whether the library's reader finds the tracks that the second merger chose.
fn reads_back(list: &[u8], wanted: &MergedList) -> bool {
    let mut values = Lent::<f64>::marked(wanted.values.len());
    let (mut count, mut dimension) = (0, 0);
    let number = ffi::read_list(list, values.slice_mut(), &mut count, &mut dimension);
    (number, count, dimension) == (0, wanted.count, wanted.dimension) && values.begins_with(&wanted.values)
}

struct Compared {
    lists: Tally,
    seen: Seen,
}

impl Compared {
    /// One merge with its list: the answer, both buffers and all other memory.
    fn case(&mut self, drawn: &Drawn) {
        let case = &drawn.case;
        let merged = merge(case.slices(), case.within, case.room, by_size);
        let needed = merged.as_ref().map_or(HEAD, |merged| length(case.slices(), merged));
        let room = drawn.buffer.length(needed);
        merged.iter().for_each(|merged| self.seen.refused_by_rows(merged));
        let only_fused_many = merged.as_ref().is_ok_and(unfused_fit);
        let wanted = merged.and_then(|merged| written(case.slices(), merged, room));
        if let Some(planned) = drawn.planned {
            let found = wanted.as_ref().map(|list| list.count).map_err(|number| *number);
            assert!(found == planned, "drawn for {planned:?}, and {found:?}: {}", case.describe());
        }

        let [mut base, mut ours, mut theirs] = case.slices().map(Lent::holding);
        let [mut rows, mut out] = [case.room, room].map(Lent::<u8>::marked);
        let [mut full, mut half, mut single, mut length] = [0; 4].map(|_| Lent::<usize>::marked(1));
        let lists = [base.slice(), ours.slice(), theirs.slice()];
        let numbers = [full.one(), half.one(), single.one(), length.one()];
        let within = (case.within.floor, case.within.gate);
        let mut number = ffi::merge_list(lists, within, rows.slice_mut(), out.slice_mut(), numbers);

        let number_wanted = wanted.as_ref().err().copied().unwrap_or(0);
        let (rows_wanted, list_wanted, numbers_wanted) = match &wanted {
            Ok(list) => {
                checks::list(list);
                let of = &list.merged;
                (of.rows.as_flattened(), &list.bytes[..], vec![of.full, of.half, of.single, list.bytes.len()])
            }
            Err(_) => (&[][..], &[][..], vec![]),
        };
        let has_fused = rows_wanted.iter().skip(3).step_by(4).any(|verdict| *verdict == 5);
        match faults::planted(MERGE_LIST) {
            Some(Fault::FusedRefuses) if has_fused => number = 21,
            Some(Fault::FusedUncounted) if number == 22 && only_fused_many => number = 0,
            _ => {}
        }
        faults::plant(MERGE_LIST, || Met {
            number: &mut number,
            also: if number_wanted == 0 { vec![] } else { unmet(case, room) },
            wrong: vec![],
            reads: vec![&mut base, &mut ours, &mut theirs],
            writes: vec![
                (&mut rows, rows_wanted.len()),
                (&mut full, 1),
                (&mut half, 1),
                (&mut single, 1),
                (&mut out, list_wanted.len()),
                (&mut length, 1),
            ],
        });
        let told = [&full, &half, &single, &length];
        let agrees = number == number_wanted
            && rows.begins_with(rows_wanted)
            && out.begins_with(list_wanted)
            && (0..4).all(|at| told[at].begins_with(numbers_wanted.get(at..at + 1).unwrap_or_default()));
        let kept = [&base, &ours, &theirs].into_iter().all(Lent::is_untouched);
        let list = out.slice().get(..length.slice()[0]);
        let read = wanted.iter().all(|wanted| list.is_some_and(|list| reads_back(list, wanted)));
        self.seen.answered(&wanted, room);
        self.lists.refused(number_wanted);
        self.lists.case(agrees && kept && read, || {
            let numbers_told = told.map(|number| number.slice()[0]);
            format!(
                "answers {number}, {numbers_told:?}, not {number_wanted}, {numbers_wanted:?}, or other memory; rows {:?}, \
                 not {rows_wanted:?}; list {:02x?}, not {list_wanted:02x?}; the lists {}, the list is {}\n    {room} bytes of list, {}",
                &rows.slice()[..rows_wanted.len()],
                &out.slice()[..list_wanted.len()],
                if kept { "stay" } else { "are changed" },
                if read { "read back" } else { "not read back" },
                case.describe()
            )
        });
    }

    /// One list, lent three times, is its own merge.
    fn one_list(&mut self, mut case: Case) {
        case.lists = [0, 1, 2].map(|_| case.lists[0].clone());
        let list = Lent::holding(&case.lists[0]);
        let room = [4 * 3 * COUNTS, list.slice().len()];
        let [mut rows, mut out] = room.map(Lent::<u8>::marked);
        let [mut full, mut half, mut single, mut length] = [0; 4];
        let numbers = [&mut full, &mut half, &mut single, &mut length];
        let within = (case.within.floor, case.within.gate);
        let number = ffi::merge_list([list.slice(); 3], within, rows.slice_mut(), out.slice_mut(), numbers);
        let wanted = merge_list(case.slices(), case.within, room, by_size);
        let merged = &wanted.as_ref().expect("a list without a conflict").merged;
        let agrees = number == 0
            && [full, half, single, length] == [merged.full, merged.half, merged.single, room[1]]
            && rows.begins_with(merged.rows.as_flattened())
            && out.begins_with(list.slice())
            && list.is_untouched();
        self.seen.answered(&wanted, room[1]);
        self.lists.refused(0);
        self.lists.case(agrees, || format!("one list three times: {}", case.describe()));
    }
}

/// So many merges are drawn in the quick form, and in the long one.
pub fn amount(long: bool) -> u32 {
    if long {
        100_000
    } else {
        6_000
    }
}

/// So many merges of all kinds, and then lists of every count and dimension, or of some; answers the number of differences.
pub fn run(amount: u32, every: bool) -> u64 {
    let mut compared =
        Compared { lists: Tally::refusing(MERGE_LIST, REFUSES, u64::from(amount / 200)), seen: Seen::default() };
    let mut rng = Rng::new(47);
    for turn in 0..amount {
        let drawn = match turn % 10 {
            at @ 0..=3 => cases::damaged(&mut rng, turn / 10 * 4 + at),
            4 | 5 => cases::any(&mut rng, turn),
            6 | 7 => cases::written(&mut rng),
            at => {
                let fused = rng.one_of(&[0, 0, 1, 2, 5]);
                cases::refused(&mut rng, turn / 10 * 2 + at % 2, DIMENSIONS, fused)
            }
        };
        compared.case(&drawn);
        compared.lists.done(turn as usize + 1, amount as usize);
    }
    for d in 1..=DIMENSIONS {
        // Large merges of a high dimension take milliseconds.
        let step = if every || d <= 3 { 1 } else { 8 };
        for winners in (0..=COUNTS).step_by(step) {
            let case = cases::draw_of(&mut rng, d, Plan { winners, ..Plan::default() });
            compared.case(&Drawn { case: case.clone(), buffer: Buffer::By(0), planned: Some(Ok(winners)) });
            compared.one_list(case);
            let case = cases::draw_of(&mut rng, d, Plan { fused: winners, ..Plan::default() });
            compared.case(&Drawn { case, buffer: Buffer::By(0), planned: Some(Ok(winners)) });
        }
        compared.lists.done(d, DIMENSIONS);
    }
    if tally::is_quiet() {
        return 0;
    }
    compared.seen.print();
    let missed = u64::from(!compared.seen.is_whole());
    if missed != 0 {
        println!("merge_list: a kind of list or of refusal was never met");
    }
    compared.lists.close() + missed
}
