//! Frozen merges with their lists.
use super::{data_record, merge_numbers, Frozen, BYTE_BEFORE, MOST_ROOM};
use crate::lists::{COUNTS, DIMENSIONS};
use crate::merge::cases::{self, Case};
use crate::merge::damage::{one_fault, QUESTIONS};
use crate::merge::list::cases::{refused, with_any_buffer, written_of, Drawn, Plan, UNMET};
use crate::merge::list::reference::{length, merge_list, MergedList, HEAD};
use crate::merge::pairings::by_size;
use crate::merge::reference::merge;
use crate::rng::Rng;

/// The longest list buffer that is lent: 32 tracks of dimension 2 have 1,314 bytes at most.
const MOST_LIST: usize = 1_400;

/// What a merge's record has, then the bytes of list that are lent, the list's length, and the bytes of list afterwards.
fn list_record(frozen: &mut Frozen, case: &Case, room: usize, answer: &Result<MergedList, u32>) {
    let mut list = vec![BYTE_BEFORE; room];
    let written = answer.as_ref().map_or(&[][..], |answer| &answer.bytes);
    list[..written.len()].copy_from_slice(written);
    let (numbers, rows) = merge_numbers(case, answer.as_ref().map(|answer| &answer.merged));
    let [base, ours, theirs] = case.slices();
    let lengths = [room, written.len()].map(|n| (n as u64).to_le_bytes());
    data_record(frozen, 2, 10, &numbers, &[base, ours, theirs, &rows, lengths.as_flattened(), &list]);
}

/// Lists of every dimension, and of up to 32 tracks; any merges of few tracks; each refusal, and refusals at once.
fn drawn(rng: &mut Rng) -> Vec<Drawn> {
    let mut drawn = Vec::new();
    let plan = |winners, deleted| Plan { winners, deleted, ..Plan::default() };
    for d in 1..=DIMENSIONS {
        drawn.push(written_of(rng, d, plan(if d <= 4 { 2 } else { 1 }, 1)));
    }
    for (d, winners, deleted) in [(1, 0, 0), (2, 0, 2), (1, 5, 2), (1, 8, 3), (1, 31, 0), (1, 32, 5), (2, 32, 0)] {
        drawn.push(written_of(rng, d, plan(winners, deleted)));
    }
    for turn in 0..8 {
        let case = cases::draw_of(rng, 1 + turn % 3, 1 + turn % 4);
        drawn.push(with_any_buffer(rng, case));
    }
    for time in 0..UNMET.len() as u32 {
        drawn.push(refused(rng, time, 2, 0));
    }
    for time in 0..QUESTIONS {
        let mut case = cases::draw_of(rng, 1 + time as usize % 2, 2);
        one_fault(rng, &mut case, time);
        drawn.push(with_any_buffer(rng, case));
    }
    drawn
}

/// Lists with fused tracks: of every dimension, beside others and alone, of 32 tracks; merges whose tracks both sides have measured;
/// and each refusal of a list with a fused row.
fn drawn_fused(rng: &mut Rng) -> Vec<Drawn> {
    let mut drawn = Vec::new();
    for d in 1..=DIMENSIONS {
        drawn.push(written_of(rng, d, Plan { winners: usize::from(d <= 4), fused: 1, deleted: 1, conflicts: 0 }));
        drawn.push(written_of(rng, d, Plan { fused: if d <= 4 { 2 } else { 1 }, ..Plan::default() }));
    }
    drawn.push(written_of(rng, 1, Plan { winners: 20, fused: 12, ..Plan::default() }));
    drawn.push(written_of(rng, 2, Plan { fused: COUNTS, ..Plan::default() }));
    for d in [1, 2, 3] {
        let case = cases::measured_of(rng, d, 2);
        drawn.push(with_any_buffer(rng, case));
    }
    for time in 0..UNMET.len() as u32 {
        drawn.push(refused(rng, time, 2, 1));
    }
    drawn
}

/// Appends the records and their line. Written lists, some that their buffer just holds and one of 32 tracks, and every refusal are there.
pub fn append(frozen: &mut Frozen) {
    let mut rng = Rng::new(61);
    let (mut counts, mut exact, mut fused, mut refused) = (Vec::new(), 0, 0, Vec::new());
    let mut drawn = drawn(&mut rng);
    drawn.extend(drawn_fused(&mut Rng::new(73)));
    for Drawn { case, buffer, planned } in &drawn {
        let mut case = case.clone();
        case.room = case.room.min(MOST_ROOM);
        let merged = merge(case.slices(), case.within, case.room, by_size);
        let needed = merged.map_or(HEAD, |merged| length(case.slices(), &merged));
        let room = buffer.length(needed).min(needed + 16).min(MOST_LIST);
        let answer = merge_list(case.slices(), case.within, [case.room, room], by_size);
        list_record(frozen, &case, room, &answer);
        fused += answer.iter().flat_map(|list| &list.merged.fused).flatten().count();
        let told = answer.map(|list| list.count);
        assert!(planned.is_none_or(|planned| planned == told), "drawn for {planned:?}, and {told:?}");
        exact += u32::from(told.is_ok() && room == needed);
        match told {
            Ok(count) => counts.push(count),
            Err(number) => refused.push(number),
        }
    }
    println!("frozen merged lists: {} written, with {fused} fused tracks, {} refused", counts.len(), refused.len());
    assert!([0, COUNTS].iter().all(|count| counts.contains(count)) && exact > 0, "a kind of list that is not frozen");
    assert!((9..=22).all(|question| refused.contains(&question)), "a question that no frozen list fails");
    frozen.lines.push_str(&format!("{} merged lists, 0 differences\n", drawn.len()));
}
