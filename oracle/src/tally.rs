//! How many cases of a call ran, how many of them were refused with which number, and how many differed.
use std::cell::Cell;
use std::panic::resume_unwind;
use std::time::{Duration, Instant};

/// Equal bits, or both a NaN: a NaN's bits are free.
pub fn same(a: f64, b: f64) -> bool {
    a.to_bits() == b.to_bits() || (a.is_nan() && b.is_nan())
}

/// The last question's number.
pub const LAST_QUESTION: usize = 22;

/// What ends a run at its first difference, where the selftest asks for that.
pub struct Found;

thread_local! {
    static QUIET: Cell<bool> = const { Cell::new(false) };
    static LONG: Cell<bool> = const { Cell::new(false) };
}

/// From now on nothing is printed, and the first difference ends the run.
pub fn stop_at_the_first_difference() {
    QUIET.set(true);
}

/// Whether nothing is printed.
pub fn is_quiet() -> bool {
    QUIET.get()
}

/// From now on a call tells how far it is.
pub fn tell_progress() {
    LONG.set(true);
}

/// How often progress is told.
const PAUSE: Duration = Duration::from_secs(10);

pub struct Tally {
    name: &'static str,
    cases: u64,
    refused: [u64; LAST_QUESTION + 1],
    required: &'static [u32],
    least: u64,
    empty: u64,
    differences: u64,
    began: Instant,
    told: Instant,
}

impl Tally {
    pub fn new(name: &'static str) -> Tally {
        let now = Instant::now();
        Tally {
            name,
            cases: 0,
            refused: [0; LAST_QUESTION + 1],
            required: &[],
            least: 0,
            empty: 0,
            differences: 0,
            began: now,
            told: now,
        }
    }

    /// A call that refuses with exactly these numbers; each is to be met so many times at least.
    pub fn refusing(name: &'static str, numbers: &'static [u32], least: u64) -> Tally {
        Tally { required: numbers, least, ..Tally::new(name) }
    }

    /// Counts a case; the first few that differ are printed as `what` describes them.
    pub fn case(&mut self, agrees: bool, what: impl FnOnce() -> String) {
        self.cases += 1;
        if !agrees {
            self.differs(what);
        }
    }

    fn differs(&mut self, what: impl FnOnce() -> String) {
        if QUIET.get() {
            resume_unwind(Box::new(Found));
        }
        self.differences += 1;
        if self.differences <= 3 {
            println!("  {}: {}", self.name, what());
        }
    }

    /// Counts a case that is to be refused with this number; 0 is no refusal.
    pub fn refused(&mut self, number: u32) {
        self.refused[number as usize] += 1;
    }

    /// Counts a case whose answer is the empty part, which is how calls without a number refuse.
    pub fn empty(&mut self) {
        self.empty += 1;
    }

    /// Tells, in the long form, that so many of all steps are done.
    pub fn done(&mut self, steps: usize, of: usize) {
        if LONG.get() && self.told.elapsed() >= PAUSE {
            self.told = Instant::now();
            let left = self.began.elapsed().mul_f64((of - steps) as f64 / steps.max(1) as f64).as_secs();
            println!("  {}: {} cases, step {steps} of {of}, about {left} s left of this call", self.name, self.cases);
        }
    }

    /// Prints the counts and answers the number of differences, a number that was met too rarely among them.
    pub fn close(mut self) -> u64 {
        if QUIET.get() {
            return self.differences;
        }
        let met = self.refused;
        for (number, times) in met.into_iter().enumerate().skip(1) {
            let required = self.required.contains(&(number as u32));
            let least = self.least;
            if required && times < least {
                self.differs(|| format!("refused with {number} {times} times, and should be {least} times"));
            }
            if !required && times > 0 {
                self.differs(|| format!("refused with {number}, which document 01 does not ask"));
            }
        }
        let refused: u64 = met[1..].iter().sum();
        let numbers: Vec<String> = self.required.iter().map(|n| format!("{n}: {}", met[*n as usize])).collect();
        let refusals = match (refused, self.empty) {
            (0, 0) => String::new(),
            (0, empty) => format!(", {empty} of them empty"),
            _ => format!(", {refused} of them refused ({})", numbers.join(", ")),
        };
        println!("{}: {} cases{refusals}, {} differences", self.name, self.cases, self.differences);
        self.differences
    }
}
