//! Memory as a call is lent it: between guards, marked where the call may write, and compared as a whole afterwards.
use std::hint::black_box;

/// How far around the lent part memory is looked at.
const GUARD: usize = 8;

/// What lent memory holds.
pub trait Entry: Copy {
    /// What stands at a place before a call that may write there: as far as can be, no result, and not its neighbours' mark.
    fn mark(at: usize) -> Self;
    fn bits(self) -> u64;
    fn of_bits(bits: u64) -> Self;
    fn is_nan(self) -> bool {
        false
    }
    /// One more, of a whole number in whichever form.
    fn more(self) -> Self;
}

impl Entry for f64 {
    /// A signalling NaN of its own: no arithmetic gives one.
    fn mark(at: usize) -> f64 {
        f64::from_bits(0x7FF4_DEAD_BEEF_0000 + at as u64)
    }

    fn bits(self) -> u64 {
        self.to_bits()
    }

    fn of_bits(bits: u64) -> f64 {
        f64::from_bits(bits)
    }

    fn is_nan(self) -> bool {
        self.is_nan()
    }

    fn more(self) -> f64 {
        self + 1.0
    }
}

/// Whole numbers: marks that no count, index, kind or mask is.
macro_rules! whole {
    ($of:ident, $mark:literal) => {
        impl Entry for $of {
            fn mark(at: usize) -> $of {
                $mark + (at % 16) as $of
            }

            fn bits(self) -> u64 {
                self as u64
            }

            fn of_bits(bits: u64) -> $of {
                bits as $of
            }

            fn more(self) -> $of {
                self + 1
            }
        }
    };
}

whole!(u8, 0xA0);
whole!(u32, 0xDEAD_BEE0);
whole!(usize, 0xDEAD_BEEF_DEAD_BEE0);

/// A slice that a call is lent, with its guards.
pub struct Lent<T> {
    memory: Vec<T>,
    before: Vec<T>,
}

impl<T: Entry> Lent<T> {
    /// For so many results.
    pub fn marked(length: usize) -> Lent<T> {
        let memory: Vec<T> = (0..length + 2 * GUARD).map(T::mark).collect();
        Lent { before: memory.clone(), memory }
    }

    /// Values that are only read.
    pub fn holding(values: &[T]) -> Lent<T> {
        let mut lent = Lent::marked(values.len());
        lent.slice_mut().copy_from_slice(values);
        lent.before.copy_from_slice(&lent.memory);
        lent
    }

    pub fn slice(&self) -> &[T] {
        &self.memory[GUARD..self.memory.len() - GUARD]
    }

    pub fn slice_mut(&mut self) -> &mut [T] {
        let end = self.memory.len() - GUARD;
        &mut self.memory[GUARD..end]
    }

    /// A single result.
    pub fn one(&mut self) -> &mut T {
        &mut self.memory[GUARD]
    }

    /// Whether the call left all of it alone.
    pub fn is_untouched(&self) -> bool {
        self.begins_with(&[])
    }

    /// Whether the call wrote these entries at the front, and left the rest and the guards alone. A NaN's bits are free, but an
    /// entry that still is its mark was not written.
    pub fn begins_with(&self, wanted: &[T]) -> bool {
        // The compiler takes memory that is lent to be read for unchanged.
        let now = black_box(&self.memory);
        let wanted_to = GUARD + wanted.len();
        let unchanged = |at: usize| now[at].bits() == self.before[at].bits();
        let is_written = |at: usize| {
            let (x, y) = (now[at], wanted[at - GUARD]);
            x.bits() == y.bits() || x.is_nan() && y.is_nan() && !unchanged(at)
        };
        (0..now.len()).all(|at| if (GUARD..wanted_to).contains(&at) { is_written(at) } else { unchanged(at) })
    }
}

/// Lent memory of any kind, as a planted fault changes it.
pub trait Memory {
    /// How many entries were lent.
    fn length(&self) -> usize;
    /// An entry's bits; places below 0 and past the end are the guards'.
    fn at(&self, place: isize) -> u64;
    fn before(&self, place: isize) -> u64;
    fn set(&mut self, place: isize, bits: u64);
    /// Whether these bits are a NaN's.
    fn is_nan(&self, bits: u64) -> bool;
    /// The bits of one more.
    fn more(&self, bits: u64) -> u64;
}

fn index(place: isize) -> usize {
    (place + GUARD as isize) as usize
}

impl<T: Entry> Memory for Lent<T> {
    fn length(&self) -> usize {
        self.slice().len()
    }

    fn at(&self, place: isize) -> u64 {
        self.memory[index(place)].bits()
    }

    fn before(&self, place: isize) -> u64 {
        self.before[index(place)].bits()
    }

    fn set(&mut self, place: isize, bits: u64) {
        self.memory[index(place)] = T::of_bits(bits);
    }

    fn is_nan(&self, bits: u64) -> bool {
        T::of_bits(bits).is_nan()
    }

    fn more(&self, bits: u64) -> u64 {
        T::of_bits(bits).more().bits()
    }
}
