//! Merges that are refused: one fault or two, at any of the three lists, the floor, the gate or the row buffer.
use super::cases::{listed, Case, HERDS};
use crate::lists::{self, fields, DIMENSIONS};
use crate::rng::Rng;

const BAD_FLOORS: &[f64] = &[0.0, -0.0, -5e-324, -1.0, f64::INFINITY, f64::NEG_INFINITY, f64::NAN];
const BAD_GATES: &[f64] = &[-5e-324, -1.0, f64::INFINITY, f64::NEG_INFINITY, f64::NAN];

/// The first question that a merge can fail, and how many there are.
pub const FIRST: u32 = 9;
pub const QUESTIONS: u32 = 11;

/// Where a record of a good list starts, and its map's length; none where it has no track.
fn some_record(rng: &mut Rng, list: &[u8]) -> Option<(usize, usize)> {
    let read = lists::read(list).ok()?;
    let count = read.starts.len() as u64 - 1;
    (count > 0).then(|| (read.starts[rng.below(count) as usize], fields(read.dimension).div_ceil(8)))
}

/// A stored field of a good list, as its eight bytes.
fn some_field<'a>(rng: &mut Rng, list: &'a mut [u8]) -> Option<&'a mut [u8]> {
    let (start, map) = some_record(rng, list)?;
    let stored: u32 = list[start..start + map].iter().map(|byte| byte.count_ones()).sum();
    let at = start + map + 8 * rng.below(u64::from(stored.max(1))) as usize;
    list.get_mut(at..at + 8)
}

/// Makes a list fail the question, where it can: one without tracks has no map and no field.
fn spoil(rng: &mut Rng, list: &mut Vec<u8>, question: u32) {
    match question {
        9 => list.truncate(rng.below(2) as usize),
        10 => list[0] = 33 + rng.below(223) as u8,
        11 => list[1] = rng.one_of(&[0, 10, 11, 128 + list[1] % 16, 255]),
        12 if rng.below(2) == 0 && list[0] < 32 => list[0] += 1,
        12 => list.truncate(2 + rng.below(list.len() as u64 - 2 + u64::from(list.len() == 2)) as usize),
        13 => {
            if let Some((start, map)) = some_record(rng, list) {
                let used = fields(list[1] as usize) % 8;
                list[start + map - 1] |= 1 << (used + rng.below(8 - used as u64) as usize);
            }
        }
        14 => {
            let infinite = rng.below(2) == 0;
            if let Some(field) = some_field(rng, list) {
                if infinite {
                    field[..7].fill(0);
                }
                field[6] |= 0xF0;
                field[7] |= 0x7F;
            }
        }
        15 => {
            if let Some(field) = some_field(rng, list) {
                field.fill(0);
            }
        }
        _ => list.extend((0..1 + rng.below(3)).map(|_| rng.one_of(&[0u8, 1, 255]))),
    }
}

/// A list of another dimension.
fn other_dimension(rng: &mut Rng, list: &[u8]) -> Vec<u8> {
    let d = 1 + (list.get(1).map_or(0, |d| *d as usize) + rng.below(DIMENSIONS as u64 - 1) as usize) % DIMENSIONS;
    let tracks: Vec<Vec<f64>> = (0..rng.below(3) as usize).map(|at| HERDS[0].1(rng, d, at)).collect();
    listed(&tracks, d)
}

/// One fault more in a merge that may have one already, in this list where it is a list's.
pub fn fault(rng: &mut Rng, case: &mut Case, list: usize, question: u32) {
    let list = &mut case.lists[list];
    match question {
        9..=16 if list.len() >= 2 => spoil(rng, list, question),
        9..=16 => {}
        17 => *list = other_dimension(rng, list),
        18 => match rng.below(3) {
            0 => case.within.floor = rng.one_of(BAD_FLOORS),
            1 => case.within.gate = rng.one_of(BAD_GATES),
            _ => {
                case.within.floor = rng.one_of(BAD_FLOORS);
                case.within.gate = rng.one_of(BAD_GATES);
            }
        },
        _ => {
            let counts: usize = case.lists.iter().map(|list| list.first().map_or(0, |n| *n as usize)).sum();
            case.room = (4 * counts).saturating_sub(rng.one_of(&[1, 1, 2, 4, 5, 4 * counts]));
        }
    }
}

/// One fault in some list, each time the next question's; answers the list.
pub fn one_fault(rng: &mut Rng, case: &mut Case, time: u32) -> usize {
    let list = rng.below(3) as usize;
    fault(rng, case, list, FIRST + time % QUESTIONS);
    list
}

/// Two faults in two lists, each time the next pair of questions.
pub fn two_faults(rng: &mut Rng, case: &mut Case, time: u32) {
    let list = one_fault(rng, case, time);
    let other = (list + 1 + rng.below(2) as usize) % 3;
    fault(rng, case, other, FIRST + time / QUESTIONS % QUESTIONS);
}

/// One bit of a list turned: a refusal of some number, or another list.
pub fn turn_bit(rng: &mut Rng, case: &mut Case) {
    let list = &mut case.lists[rng.below(3) as usize];
    let bit = rng.below(8 * list.len() as u64) as usize;
    list[bit / 8] ^= 1 << (bit % 8);
}
