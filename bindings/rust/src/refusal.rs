//! Why a call refused.
use std::fmt;

/// The first question that is not met. A refusal has changed nothing.
#[derive(Clone, Copy, Debug, PartialEq, Eq, Hash)]
pub struct Refusal {
    number: u32,
}

impl Refusal {
    /// All questions in words: number 1 is the first.
    pub const QUESTIONS: [&'static str; 22] = [
        "is each side 1 to 16?",
        "has each slice its length?",
        "is every entry finite?",
        "is every eigenvalue finite?",
        "is some row's greatest entry not below 1e-150?",
        "has each column a pivot whose ratio is not below 1e-14?",
        "is each pivot above 0 and finite?",
        "is the determinant large enough beside the entries?",
        "are there two bytes?",
        "is the count at most 32?",
        "is the dimension 1 to 9?",
        "is the map, or the next stored field, all there?",
        "are the map's spare bits 0?",
        "is the field finite?",
        "is a stored field not all zero bits?",
        "does nothing follow the last track?",
        "have all three lists one dimension?",
        "is the floor finite and above 0, the gate finite and not below 0?",
        "has the buffer four bytes for each track of the three lists?",
        "is the buffer long enough for the list?",
        "has no row verdict 4?",
        "would at most 32 tracks be written?",
    ];

    /// The refusal that a call of C answers; 0 is none.
    pub(crate) fn of(number: u32) -> Option<Refusal> {
        (number != 0).then_some(Refusal { number })
    }

    /// The question's number.
    pub fn number(self) -> u32 {
        self.number
    }

    /// The question in words.
    pub fn question(self) -> &'static str {
        Self::QUESTIONS.get(self.number as usize - 1).copied().unwrap_or("a question of a later edition")
    }
}

impl fmt::Display for Refusal {
    fn fmt(&self, f: &mut fmt::Formatter<'_>) -> fmt::Result {
        write!(f, "no {}: {}", self.number, self.question())
    }
}

impl std::error::Error for Refusal {}
