//! Faults that the selftest plants, one at a time, between the library's answer and the checks: what a wrong call would leave in the
//! memory that it was lent. A kind of fault is planted in every call that it can occur in, by the rules of `all`.
use crate::lent::Memory;
use fusions::Rule;
use std::cell::Cell;

pub mod fusions;
mod merges;

/// The first entry that is written, or the last.
#[derive(Clone, Copy, Debug, PartialEq)]
pub enum End {
    First,
    Last,
}

/// Parts of a result and slices that are read are named by their place among them.
#[derive(Clone, Copy, Debug, PartialEq)]
pub enum Fault {
    /// An entry has another bit.
    Bit(usize, End, u32),
    /// An entry is left unwritten.
    Unwritten(usize, End),
    /// An entry that should be a NaN is left unwritten.
    UnwrittenNan(usize),
    /// A zero has the other sign.
    ZeroSign(usize),
    /// A count is one too many.
    OneMore(usize),
    /// An entry past those that the answer writes is touched.
    PastWritten(usize),
    /// Memory before or past the lent slice is touched.
    Beside(usize, End),
    /// A refusal touches an entry.
    RefusalWrites(usize, End),
    /// A part is written before this question is asked.
    WrittenBefore(u32, usize),
    /// An answer, or a refusal, changes a slice that is only read.
    AnswerChangesInput(usize, End),
    RefusalChangesInput(usize, End),
    /// One refusal's number is given for another's.
    Number(u32, u32),
    /// Where both questions are not met, the later one's number is given.
    Order(u32, u32),
    /// The length of one slice, of those that are read and then of those that are written, is not asked for.
    Unasked(usize),
    /// A part is one more where the answer is the empty part.
    WhereEmpty(usize),
    /// Two rows have each other's track of this list.
    PairExchanged(usize),
    /// A row is left out, and not counted.
    RowLeftOut(End),
    /// One verdict stands for another.
    Verdict(u8, u8),
    /// For rows of a verdict the merged list has the record of this list, or none.
    Record(u8, Option<usize>),
    /// Three tracks are fused by another rule.
    Fusion(Rule),
    /// A fused row refuses the merged list as a conflict does.
    FusedRefuses,
    /// Fused rows are not counted where the merged list has too many tracks.
    FusedUncounted,
}

/// A part of a result, and which of the faults it can have.
#[derive(Clone, Copy)]
pub enum Kind {
    /// A lent slice of doubles, or a single one.
    Doubles { slice: bool, nan: bool, zero: bool },
    /// A lent slice of bytes.
    Bytes,
    /// A whole number: no NaN, and a zero without a sign.
    Whole,
}

/// What a call is lent, and the numbers that it refuses with.
pub struct Shape {
    pub name: &'static str,
    pub reads: usize,
    pub writes: Vec<Kind>,
    /// Parts that an answer may fill up to a place before their end.
    pub partly: Vec<usize>,
    pub refuses: &'static [u32],
    /// Pairs of questions of which both can be unmet, the earlier one first.
    pub orders: Vec<(u32, u32)>,
    pub others: Vec<Fault>,
}

/// Every fault that a call of this shape can have.
pub fn all(shape: &Shape) -> Vec<Fault> {
    use Fault::*;
    let mut faults = Vec::new();
    let ends = [End::First, End::Last];
    let refuses = !shape.refuses.is_empty();
    for (part, kind) in shape.writes.iter().enumerate() {
        let (slice, bits): (bool, &[u32]) = match kind {
            Kind::Doubles { slice, .. } => (*slice, &[0, 30, 51, 62, 63]),
            Kind::Bytes => (true, &[0, 7]),
            Kind::Whole => (false, &[0]),
        };
        let ends = if slice { &ends[..] } else { &ends[..1] };
        for end in ends {
            faults.extend(bits.iter().map(|bit| Bit(part, *end, *bit)));
            faults.push(Unwritten(part, *end));
            faults.extend(refuses.then_some(RefusalWrites(part, *end)));
            faults.extend(slice.then_some(Beside(part, *end)));
        }
        match kind {
            Kind::Doubles { nan, zero, .. } => {
                faults.extend(nan.then_some(UnwrittenNan(part)));
                faults.extend(zero.then_some(ZeroSign(part)));
            }
            Kind::Bytes => {}
            Kind::Whole => faults.push(OneMore(part)),
        }
    }
    faults.extend(shape.partly.iter().map(|part| PastWritten(*part)));
    for slice in 0..shape.reads {
        for end in ends {
            faults.push(AnswerChangesInput(slice, end));
            faults.extend(refuses.then_some(RefusalChangesInput(slice, end)));
        }
    }
    for from in shape.refuses {
        faults.push(Number(*from, 0));
        faults.extend(shape.refuses.iter().filter(|to| *to != from).map(|to| Number(*from, *to)));
    }
    faults.extend(shape.orders.iter().map(|(first, later)| Order(*first, *later)));
    faults.extend(&shape.others);
    faults
}

thread_local! {
    static PLANTED: Cell<Option<(&'static str, Fault)>> = const { Cell::new(None) };
}

/// From now on the call has this fault, or none has any.
pub fn set(fault: Option<(&'static str, Fault)>) {
    PLANTED.set(fault);
}

/// The fault that is planted in the call, where one is.
pub fn planted(call: &'static str) -> Option<Fault> {
    PLANTED.get().filter(|(name, _)| *name == call).map(|(_, fault)| fault)
}

/// What a call answered and left in the memory that it was lent.
pub struct Met<'a> {
    pub number: &'a mut u32,
    /// Questions that are not met either, though the call is to refuse with an earlier one.
    pub also: Vec<u32>,
    /// The slices whose length is wrong, those that are read first.
    pub wrong: Vec<usize>,
    pub reads: Vec<&'a mut dyn Memory>,
    /// The parts of the result, and how many entries of each an answer writes.
    pub writes: Vec<(&'a mut dyn Memory, usize)>,
}

/// Changes what a call has left as the planted fault says, where one is planted in it.
pub fn plant<'a>(call: &'static str, met: impl FnOnce() -> Met<'a>) {
    if let Some(fault) = planted(call) {
        met().suffer(fault);
    }
}

/// The same for a call that answers a number and is lent nothing.
pub fn planted_in(call: &'static str, answer: f64) -> f64 {
    planted(call).map_or(answer, |fault| changed(fault, answer))
}

/// What stands for a result that was not written, where a call has no memory to write.
const NOTHING: f64 = 7.0;

fn changed(fault: Fault, answer: f64) -> f64 {
    match fault {
        Fault::Bit(_, _, bit) if !answer.is_nan() && !f64::from_bits(answer.to_bits() ^ 1 << bit).is_nan() => {
            f64::from_bits(answer.to_bits() ^ 1 << bit)
        }
        Fault::Unwritten(..) => NOTHING,
        Fault::UnwrittenNan(_) if answer.is_nan() => NOTHING,
        Fault::ZeroSign(_) if answer == 0.0 => -answer,
        _ => answer,
    }
}

fn end_of(length: usize, end: End) -> Option<isize> {
    match end {
        _ if length == 0 => None,
        End::First => Some(0),
        End::Last => Some(length as isize - 1),
    }
}

/// Changes one bit.
fn flip(memory: &mut dyn Memory, place: isize, bit: u32) {
    memory.set(place, memory.at(place) ^ 1 << bit);
}

fn flip_end(memory: &mut dyn Memory, end: End) {
    if let Some(place) = end_of(memory.length(), end) {
        flip(memory, place, 0);
    }
}

impl Met<'_> {
    fn suffer(&mut self, fault: Fault) {
        let answered = *self.number == 0;
        match fault {
            Fault::Number(from, to) if *self.number == from => *self.number = to,
            Fault::Unasked(slice) if *self.number == 2 && self.wrong == [slice] => *self.number = 0,
            Fault::Order(first, later) if *self.number == first && self.also.contains(&later) => *self.number = later,
            Fault::Beside(part, end) => {
                let memory = &mut self.writes[part].0;
                let place = if end == End::First { -1 } else { memory.length() as isize };
                flip(*memory, place, 0);
            }
            Fault::RefusalWrites(part, end) if !answered => flip_end(self.writes[part].0, end),
            Fault::WrittenBefore(question, part) if *self.number == question => {
                flip_end(self.writes[part].0, End::First);
            }
            Fault::RefusalChangesInput(slice, end) if !answered => flip_end(self.reads[slice], end),
            Fault::AnswerChangesInput(slice, end) if answered => flip_end(self.reads[slice], end),
            _ if answered => self.suffer_in_result(fault),
            _ => {}
        }
    }

    fn suffer_in_result(&mut self, fault: Fault) {
        let part = match fault {
            Fault::Bit(part, ..)
            | Fault::Unwritten(part, _)
            | Fault::UnwrittenNan(part)
            | Fault::ZeroSign(part)
            | Fault::OneMore(part)
            | Fault::PastWritten(part) => part,
            Fault::WhereEmpty(part) if self.writes.last().is_some_and(|(length, _)| length.at(0) == 0) => part,
            Fault::PairExchanged(list) => return self.exchange_pair(list),
            Fault::RowLeftOut(end) => return self.leave_out_row(end),
            Fault::Verdict(from, to) => return self.change_verdict(from, to),
            Fault::Record(verdict, from) => return self.write_other_records(verdict, from),
            _ => return,
        };
        let (memory, written) = &mut self.writes[part];
        let mut places = 0..*written as isize;
        match fault {
            Fault::Bit(_, end, bit) => {
                let can = |place: &isize| {
                    let bits = memory.at(*place);
                    !memory.is_nan(bits) && !memory.is_nan(bits ^ 1 << bit)
                };
                let place = if end == End::First { places.find(can) } else { places.rfind(can) };
                if let Some(place) = place {
                    flip(*memory, place, bit);
                }
            }
            Fault::Unwritten(_, end) => {
                if let Some(place) = end_of(*written, end) {
                    memory.set(place, memory.before(place));
                }
            }
            Fault::UnwrittenNan(_) => {
                if let Some(place) = places.find(|place| memory.is_nan(memory.at(*place))) {
                    memory.set(place, memory.before(place));
                }
            }
            Fault::ZeroSign(_) => {
                if let Some(place) = places.find(|place| memory.at(*place) << 1 == 0) {
                    flip(*memory, place, 63);
                }
            }
            Fault::OneMore(_) | Fault::WhereEmpty(_) => memory.set(0, memory.more(memory.at(0))),
            _ => {
                if *written < memory.length() {
                    flip(*memory, *written as isize, 0);
                }
            }
        }
    }
}
