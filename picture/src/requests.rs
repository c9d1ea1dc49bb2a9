//! The requests that a beacon finds held, and what their running periods have had: read from the calls, their answers and the plans
//! alone, as the words of the guarantee are.

use std::collections::BTreeMap;
use std::ops::RangeInclusive;

/// The most requests that are held at a time, so the most streams of a plan.
pub const MOST_HELD: usize = 32;
/// The periods of a kind 1 stream in an interval, so the most jobs of a stream.
pub const PARTS: RangeInclusive<u64> = 2..=16;

const WHOLE_PERIODS: RangeInclusive<u64> = 1..=255;
const LIVES: RangeInclusive<u64> = 1..=65_535;

/// A request's kind, with its period.
#[derive(Clone, Copy, Debug, PartialEq, Eq)]
pub enum Kind {
    /// Kind 1: so much in each of so many parts of an interval.
    Fraction(u64),
    /// Kind 2: so much in every period of so many intervals.
    Whole(u64),
    /// Kind 3: so much once. Its life ends with its deadline.
    Transfer,
}

impl Kind {
    /// The kind of a number and a period, if `shelf` takes them.
    pub fn of(kind: u64, period: u64, interval: u64) -> Option<Kind> {
        match kind {
            1 if PARTS.contains(&period) && interval.is_multiple_of(period) => Some(Kind::Fraction(period)),
            2 if WHOLE_PERIODS.contains(&period) => Some(Kind::Whole(period)),
            3 if LIVES.contains(&period) => Some(Kind::Transfer),
            _ => None,
        }
    }

    /// The number of jobs in an interval.
    pub fn jobs(self) -> u64 {
        match self {
            Kind::Fraction(parts) => parts,
            Kind::Whole(_) | Kind::Transfer => 1,
        }
    }

    /// Whether `shelf` takes a minimum and a maximum.
    fn takes_slots(self, min: u64, max: u64, interval: u64) -> bool {
        let between = |most| 1 <= min && min <= max && max <= most;
        match self {
            Kind::Fraction(parts) => between(interval / parts),
            Kind::Whole(intervals) => between(intervals * interval),
            Kind::Transfer => min >= 1 && max == 0,
        }
    }

    /// Whether `shelf` takes a life, beside the field of the period.
    fn takes_life(self, period: u64, life: u64) -> bool {
        let fits = match self {
            Kind::Fraction(_) => true,
            Kind::Whole(intervals) => life.is_multiple_of(intervals),
            Kind::Transfer => life == period,
        };
        fits && LIVES.contains(&life)
    }
}

/// A held request, and how far its running period has come.
#[derive(Clone, Debug, PartialEq, Eq)]
pub struct Request {
    /// Its kind and period.
    pub kind: Kind,
    /// The slots that each period is to have: a transfer's amount.
    pub min: u64,
    /// The slots that each period may have: a transfer's amount again, since it gets no more.
    pub max: u64,
    /// The intervals that it still lasts, the coming one included.
    pub life_left: u64,
    /// The intervals of the running period that have passed: none for kind 1, whose periods end within the interval.
    pub passed: u64,
    /// The slots that it had in them.
    pub had: u64,
}

impl Request {
    /// An accepted offer of kind, period, min, max and life, or what `shelf` would have refused in it.
    pub fn admitted([kind, period, min, max, life]: [u64; 5], interval: u64) -> Result<Request, String> {
        let known = Kind::of(kind, period, interval)
            .ok_or_else(|| format!("kind {kind} with period {period} was accepted"))?;
        if !known.takes_slots(min, max, interval) {
            return Err(format!("minimum {min} with maximum {max} was accepted"));
        }
        if !known.takes_life(period, life) {
            return Err(format!("life {life} with period {period} was accepted"));
        }
        let max = if known == Kind::Transfer { min } else { max };
        Ok(Request { kind: known, min, max, life_left: life, passed: 0, had: 0 })
    }

    /// An interval passes that gives it so many slots.
    pub fn pass(&mut self, slots: u64) {
        self.life_left = self.life_left.saturating_sub(1);
        (self.passed, self.had) = match self.kind {
            Kind::Fraction(_) => (0, 0),
            Kind::Whole(intervals) if self.passed + 1 == intervals => (0, 0),
            Kind::Whole(_) | Kind::Transfer => (self.passed + 1, self.had + slots),
        };
    }
}

/// What a beacon finds.
#[derive(Clone, Debug)]
pub struct Table {
    /// The interval's length in slots.
    pub interval: u64,
    /// The held requests by stream.
    pub held: BTreeMap<u64, Request>,
}

#[cfg(test)]
mod tests {
    use super::*;

    fn admitted(fields: [u64; 5]) -> Result<Request, String> {
        Request::admitted(fields, 1_024)
    }

    #[test]
    fn what_shelf_takes_is_admitted() {
        for fields in [
            [1, 2, 1, 512, 65_535],
            [1, 16, 64, 64, 1],
            [2, 255, 1, 255 * 1_024, 510],
            [3, 65_535, u64::from(u32::MAX), 0, 65_535],
        ] {
            assert_eq!(admitted(fields).map(|request| request.life_left), Ok(fields[4]));
        }
        assert_eq!(admitted([3, 2, 7, 0, 2]).map(|request| [request.min, request.max]), Ok([7, 7]));
    }

    #[test]
    fn what_shelf_refuses_is_not_admitted() {
        for (fields, message) in [
            ([4, 2, 1, 1, 1], "kind 4 with period 2"),
            ([1, 3, 1, 1, 1], "kind 1 with period 3"),
            ([1, 17, 1, 1, 1], "kind 1 with period 17"),
            ([2, 256, 1, 1, 256], "kind 2 with period 256"),
            ([3, 0, 1, 0, 0], "kind 3 with period 0"),
            ([1, 2, 0, 1, 1], "minimum 0 with maximum 1"),
            ([1, 2, 3, 2, 1], "minimum 3 with maximum 2"),
            ([1, 2, 1, 513, 1], "minimum 1 with maximum 513"),
            ([2, 2, 1, 2_049, 2], "minimum 1 with maximum 2049"),
            ([3, 2, 1, 1, 2], "minimum 1 with maximum 1"),
            ([1, 2, 1, 1, 65_536], "life 65536 with period 2"),
            ([2, 2, 1, 1, 3], "life 3 with period 2"),
            ([3, 2, 1, 0, 4], "life 4 with period 2"),
        ] {
            assert_eq!(admitted(fields), Err(format!("{message} was accepted")));
        }
    }

    /// Life left, intervals passed and slots had, after intervals that give so many slots.
    fn after(fields: [u64; 5], slots: &[u64]) -> [u64; 3] {
        let mut request = admitted(fields).unwrap();
        slots.iter().for_each(|&slots| request.pass(slots));
        [request.life_left, request.passed, request.had]
    }

    #[test]
    fn a_period_has_what_its_intervals_gave() {
        assert_eq!(after([1, 2, 1, 9, 8], &[4, 6]), [6, 0, 0]);
        assert_eq!(after([2, 3, 1, 9, 6], &[4, 0]), [4, 2, 4]);
        assert_eq!(after([2, 3, 1, 9, 6], &[4, 0, 5]), [3, 0, 0]);
        assert_eq!(after([2, 3, 1, 9, 6], &[4, 0, 5, 1]), [2, 1, 1]);
        assert_eq!(after([2, 1, 1, 9, 6], &[4]), [5, 0, 0]);
        assert_eq!(after([3, 3, 9, 0, 3], &[4, 5]), [1, 2, 9]);
    }
}
