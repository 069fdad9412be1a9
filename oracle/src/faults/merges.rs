//! Rows and a merged list as a wrong call would leave them. The calls read base, ours and theirs and write the rows and three counts;
//! one of them also writes the list and its length.
use super::{end_of, End, Met};
use crate::lent::Memory;
use crate::lists;

/// The places of the list and of its length among the parts.
const LIST: usize = 4;
const LENGTH: usize = 5;

/// Whether a row of the verdict writes a record.
fn writes(verdict: u8) -> bool {
    matches!(verdict, 0 | 1 | 2 | 5)
}

impl Met<'_> {
    fn row(&self, row: isize, byte: isize) -> u8 {
        self.writes[0].0.at(4 * row + byte) as u8
    }

    fn rows(&self) -> isize {
        self.writes[0].1 as isize / 4
    }

    pub(super) fn exchange_pair(&mut self, list: usize) {
        let with: Vec<isize> = (0..self.rows()).filter(|row| self.row(*row, list as isize) != 255).collect();
        if let [first, .., last] = with[..] {
            let (a, b) = (4 * first + list as isize, 4 * last + list as isize);
            let memory = &mut self.writes[0].0;
            let (x, y) = (memory.at(a), memory.at(b));
            memory.set(a, y);
            memory.set(b, x);
        }
    }

    /// The rows after it move up; its tracks' count is one less.
    pub(super) fn leave_out_row(&mut self, end: End) {
        let Some(row) = end_of(self.rows() as usize, end) else { return };
        let tracks = (0..3).filter(|list| self.row(row, *list) != 255).count();
        let (memory, written) = &mut self.writes[0];
        let last = *written as isize - 4;
        (4 * row..last).for_each(|place| memory.set(place, memory.at(place + 4)));
        (last..last + 4).for_each(|place| memory.set(place, memory.before(place)));
        let count = &mut self.writes[4 - tracks].0;
        count.set(0, count.at(0) - 1);
    }

    pub(super) fn change_verdict(&mut self, from: u8, to: u8) {
        if let Some(row) = (0..self.rows()).find(|row| self.row(*row, 3) == from) {
            self.writes[0].0.set(4 * row + 3, u64::from(to));
        }
    }

    /// Writes the list anew, with another list's record for rows of the verdict that have a track there, or with none for them. Where
    /// the call would refuse that list, all stays as it is.
    pub(super) fn write_other_records(&mut self, verdict: u8, from: Option<usize>) {
        let bytes = |memory: &dyn Memory, length: usize| -> Vec<u8> {
            (0..length as isize).map(|place| memory.at(place) as u8).collect()
        };
        let lists = [0, 1, 2].map(|list| bytes(self.reads[list], self.reads[list].length()));
        let merged = bytes(self.writes[LIST].0, self.writes[LIST].1);
        let read = lists.each_ref().map(|list| lists::read(list).expect("a list that was merged"));
        let Ok(written) = lists::read(&merged) else { return };
        let mut own = written.starts.windows(2).map(|ends| &merged[ends[0]..ends[1]]);
        let mut records: Vec<&[u8]> = Vec::new();
        for row in 0..self.rows() {
            let told = self.row(row, 3);
            let has_track = |list: usize| self.row(row, list as isize) != 255;
            let mut record = if writes(told) { own.next() } else { None };
            if told == verdict && from.is_none_or(has_track) {
                let other = |list: usize| {
                    let starts = &read[list].starts[self.row(row, list as isize) as usize..];
                    &lists[list][starts[0]..starts[1]]
                };
                record = from.map(other);
            }
            records.extend(record);
        }
        let list = [&[records.len() as u8, lists[0][1]], &records.concat()[..]].concat();
        let (memory, written) = &mut self.writes[LIST];
        if records.len() > lists::COUNTS || list.len() > memory.length() {
            return;
        }
        for (place, byte) in list.iter().enumerate() {
            memory.set(place as isize, u64::from(*byte));
        }
        for place in list.len()..*written {
            memory.set(place as isize, memory.before(place as isize));
        }
        self.writes[LENGTH].0.set(0, list.len() as u64);
    }
}
