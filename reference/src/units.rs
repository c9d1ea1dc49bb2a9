//! The two units of the planner: slots and beacon intervals.
//!
//! Each has its own type, and no operator adds one to the other. Their only meeting place is
//! [`Slots::over`], where an amount per interval is taken over a number of intervals.

use std::iter::Sum;
use std::ops::{Add, AddAssign, Mul, Sub, SubAssign};

/// Slots in one time unit.
pub const SLOTS_PER_TIME_UNIT: u64 = 1_024;

/// A number of slots, or a place in an interval counted in slots from its beginning.
///
/// Sixty-four bits are enough for every sum and product made here: no request states more than 32 bits
/// of slots, and the largest product is an interval of 1,024,000 slots taken 65,535 times.
#[derive(Clone, Copy, Debug, Default, PartialEq, Eq, PartialOrd, Ord, Hash)]
pub struct Slots(pub u64);

/// A number of beacon intervals.
#[derive(Clone, Copy, Debug, Default, PartialEq, Eq, PartialOrd, Ord, Hash)]
pub struct Intervals(pub u32);

impl Slots {
    /// No slots at all.
    pub const NONE: Slots = Slots(0);

    /// The slots that a 32-bit word stands for.
    pub fn from_word(word: u32) -> Self {
        Slots(u64::from(word))
    }

    /// The 32-bit word for this many slots. Callers only use it where the ranges keep it within 32 bits.
    pub fn to_word(self) -> u32 {
        u32::try_from(self.0).expect("slots shown in a word stay within 32 bits")
    }

    /// This many slots in each of `count` intervals.
    pub fn over(self, count: Intervals) -> Slots {
        Slots(self.0 * u64::from(count.0))
    }

    /// The difference, or nothing where it would be below 0.
    pub fn checked_sub(self, other: Slots) -> Option<Slots> {
        self.0.checked_sub(other.0).map(Slots)
    }
}

impl Intervals {
    /// No intervals at all.
    pub const NONE: Intervals = Intervals(0);
    /// A single interval.
    pub const ONE: Intervals = Intervals(1);
}

impl Add for Slots {
    type Output = Slots;
    fn add(self, other: Slots) -> Slots {
        Slots(self.0 + other.0)
    }
}

impl Sub for Slots {
    type Output = Slots;
    fn sub(self, other: Slots) -> Slots {
        Slots(self.0 - other.0)
    }
}

impl AddAssign for Slots {
    fn add_assign(&mut self, other: Slots) {
        self.0 += other.0;
    }
}

impl SubAssign for Slots {
    fn sub_assign(&mut self, other: Slots) {
        self.0 -= other.0;
    }
}

/// A plain number of times the same amount of slots.
impl Mul<u32> for Slots {
    type Output = Slots;
    fn mul(self, times: u32) -> Slots {
        Slots(self.0 * u64::from(times))
    }
}

impl Sum for Slots {
    fn sum<I: Iterator<Item = Slots>>(parts: I) -> Slots {
        parts.fold(Slots::NONE, Add::add)
    }
}

impl Sub for Intervals {
    type Output = Intervals;
    fn sub(self, other: Intervals) -> Intervals {
        Intervals(self.0 - other.0)
    }
}

impl SubAssign for Intervals {
    fn sub_assign(&mut self, other: Intervals) {
        self.0 -= other.0;
    }
}
