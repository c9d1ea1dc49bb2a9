//! Requests of the three kinds, their ranges, and the entries that hold them in the table.

use std::ops::RangeInclusive;

use crate::refusal::Refusal;
use crate::units::{Intervals, Slots};

/// The stream numbers that may be offered.
pub const STREAMS: RangeInclusive<u32> = 1..=65_535;

/// An offer as it comes in: six words of which nothing is known yet.
#[derive(Clone, Copy, Debug, Default, PartialEq, Eq, Hash)]
pub struct Offer {
    /// Stream number.
    pub stream: u32,
    /// Kind of request.
    pub kind: u32,
    /// Parts of an interval (kind 1), period (kind 2) or deadline (kind 3).
    pub period: u32,
    /// Least number of slots for each period; the amount of a transfer.
    pub min: u32,
    /// Largest number of slots for each period.
    pub max: u32,
    /// Intervals that the request stays.
    pub life: u32,
}

/// Kind 1: a stream with several equal periods in every interval.
#[derive(Clone, Copy, Debug, PartialEq, Eq)]
pub struct Fraction {
    /// Number of periods that share one interval.
    pub parts: u32,
    /// Least slots for each period.
    pub min: Slots,
    /// Largest slots for each period.
    pub max: Slots,
}

impl Fraction {
    /// The number of this kind.
    pub const KIND: u32 = 1;
    /// Allowed numbers of parts; the interval must also divide evenly into them.
    pub const PARTS: RangeInclusive<u32> = 2..=16;
    /// The smallest minimum.
    pub const LEAST_MIN: Slots = Slots(1);
    /// Allowed lives.
    pub const LIFE: RangeInclusive<u32> = 1..=65_535;

    /// The largest maximum, which is the length of one part of the interval.
    pub fn largest_max(parts: u32, interval: Slots) -> Slots {
        Slots(interval.0 / u64::from(parts))
    }

    fn read(offer: &Offer, interval: Slots) -> Result<Self, Refusal> {
        let parts = offer.period;
        if !Self::PARTS.contains(&parts) || !interval.0.is_multiple_of(u64::from(parts)) {
            return Err(Refusal::Period);
        }
        let (min, max) = (Slots::from_word(offer.min), Slots::from_word(offer.max));
        if min < Self::LEAST_MIN || max < min || max > Self::largest_max(parts, interval) {
            return Err(Refusal::Amounts);
        }
        if !Self::LIFE.contains(&offer.life) {
            return Err(Refusal::Life);
        }
        Ok(Fraction { parts, min, max })
    }
}

/// Kind 2: a stream whose period is a number of whole intervals.
#[derive(Clone, Copy, Debug, PartialEq, Eq)]
pub struct Whole {
    /// Intervals in one period.
    pub period: Intervals,
    /// Least slots for each period.
    pub min: Slots,
    /// Largest slots for each period.
    pub max: Slots,
}

impl Whole {
    /// The number of this kind.
    pub const KIND: u32 = 2;
    /// Allowed periods.
    pub const PERIOD: RangeInclusive<u32> = 1..=255;
    /// The smallest minimum.
    pub const LEAST_MIN: Slots = Slots(1);
    /// Allowed lives; a life must also be made of full periods.
    pub const LIFE: RangeInclusive<u32> = 1..=65_535;

    /// The largest maximum, which is every slot of a period.
    pub fn largest_max(period: Intervals, interval: Slots) -> Slots {
        interval.over(period)
    }

    fn read(offer: &Offer, interval: Slots) -> Result<Self, Refusal> {
        if !Self::PERIOD.contains(&offer.period) {
            return Err(Refusal::Period);
        }
        let period = Intervals(offer.period);
        let (min, max) = (Slots::from_word(offer.min), Slots::from_word(offer.max));
        if min < Self::LEAST_MIN || max < min || max > Self::largest_max(period, interval) {
            return Err(Refusal::Amounts);
        }
        if !Self::LIFE.contains(&offer.life) || !offer.life.is_multiple_of(offer.period) {
            return Err(Refusal::Life);
        }
        Ok(Whole { period, min, max })
    }
}

/// Kind 3: a fixed amount that has to be through by a deadline.
#[derive(Clone, Copy, Debug, PartialEq, Eq)]
pub struct Transfer {
    /// Intervals until the amount has to be through.
    pub deadline: Intervals,
    /// Slots to give altogether.
    pub amount: Slots,
}

impl Transfer {
    /// The number of this kind.
    pub const KIND: u32 = 3;
    /// Allowed deadlines.
    pub const DEADLINE: RangeInclusive<u32> = 1..=65_535;
    /// The smallest amount.
    pub const LEAST_AMOUNT: Slots = Slots(1);
    /// The one value that the maximum may have.
    pub const MAX: u32 = 0;

    fn read(offer: &Offer) -> Result<Self, Refusal> {
        if !Self::DEADLINE.contains(&offer.period) {
            return Err(Refusal::Period);
        }
        let amount = Slots::from_word(offer.min);
        if amount < Self::LEAST_AMOUNT || offer.max != Self::MAX {
            return Err(Refusal::Amounts);
        }
        if offer.life != offer.period {
            return Err(Refusal::Life);
        }
        Ok(Transfer { deadline: Intervals(offer.period), amount })
    }
}

/// What a request asks for, by its kind.
#[derive(Clone, Copy, Debug, PartialEq, Eq)]
pub enum Demand {
    /// Kind 1.
    Fraction(Fraction),
    /// Kind 2.
    Whole(Whole),
    /// Kind 3.
    Transfer(Transfer),
}

/// A request whose fields are all in range.
#[derive(Clone, Copy, Debug, PartialEq, Eq)]
pub struct Request {
    /// Stream number.
    pub stream: u32,
    /// What it asks for.
    pub demand: Demand,
    /// Intervals that it stays.
    pub life: Intervals,
}

impl Request {
    /// Checks kind, period, amounts and life, in that order; the name is the table's business.
    pub fn read(offer: &Offer, interval: Slots) -> Result<Self, Refusal> {
        let demand = match offer.kind {
            Fraction::KIND => Demand::Fraction(Fraction::read(offer, interval)?),
            Whole::KIND => Demand::Whole(Whole::read(offer, interval)?),
            Transfer::KIND => Demand::Transfer(Transfer::read(offer)?),
            _ => return Err(Refusal::Kind),
        };
        Ok(Request { stream: offer.stream, demand, life: Intervals(offer.life) })
    }

    /// The six words this request was offered with.
    pub fn to_offer(&self) -> Offer {
        let (kind, period, min, max) = match self.demand {
            Demand::Fraction(f) => (Fraction::KIND, f.parts, f.min.to_word(), f.max.to_word()),
            Demand::Whole(w) => (Whole::KIND, w.period.0, w.min.to_word(), w.max.to_word()),
            Demand::Transfer(t) => (Transfer::KIND, t.deadline.0, t.amount.to_word(), Transfer::MAX),
        };
        Offer { stream: self.stream, kind, period, min, max, life: self.life.0 }
    }
}

/// A request held in the table, with what changes from beacon to beacon.
#[derive(Clone, Copy, Debug, PartialEq, Eq)]
pub struct Entry {
    /// The request as accepted.
    pub request: Request,
    /// Intervals of its life still to come.
    pub life_left: Intervals,
    /// Slots of the minimum still to give in this period; kind 1 has none.
    pub owed: Slots,
    /// Slots given in this period, extras included; kind 1 has none.
    pub given: Slots,
    /// Intervals until the end of this period; kind 1 has none.
    pub left: Intervals,
}

impl Entry {
    /// The entry of a request at the moment of its acceptance.
    pub fn accepted(request: Request) -> Self {
        let (owed, left) = match request.demand {
            Demand::Fraction(_) => (Slots::NONE, Intervals::NONE),
            Demand::Whole(w) => (w.min, w.period),
            Demand::Transfer(t) => (t.amount, t.deadline),
        };
        Entry { request, life_left: request.life, owed, given: Slots::NONE, left }
    }

    /// The place of a kind 2 or 3 entry in the order in which these kinds are served; kind 1 has none.
    ///
    /// Nearest deadline first; then streams before transfers; then by stream number.
    pub fn turn(&self) -> Option<(Intervals, u32, u32)> {
        match self.request.demand {
            Demand::Fraction(_) => None,
            Demand::Whole(_) => Some((self.left, Whole::KIND, self.request.stream)),
            Demand::Transfer(_) => Some((self.left, Transfer::KIND, self.request.stream)),
        }
    }

    /// The slots that a kind 1 entry is sure of in each interval; none for the others.
    pub fn fixed_part(&self) -> Slots {
        match self.request.demand {
            Demand::Fraction(f) => f.min * f.parts,
            Demand::Whole(_) | Demand::Transfer(_) => Slots::NONE,
        }
    }

    /// Begins the next period of a kind 2 entry whose period is over.
    pub fn renew(&mut self) {
        if let Demand::Whole(w) = self.request.demand
            && self.left == Intervals::NONE
        {
            self.owed = w.min;
            self.given = Slots::NONE;
            self.left = w.period;
        }
    }

    /// The entry as plain words.
    pub fn to_words(&self) -> EntryWords {
        EntryWords {
            offer: self.request.to_offer(),
            life_left: self.life_left.0,
            owed: self.owed.to_word(),
            given: self.given.to_word(),
            left: self.left.0,
        }
    }
}

/// A whole entry as plain words; all zeros when there is none to show.
#[derive(Clone, Copy, Debug, Default, PartialEq, Eq, Hash)]
pub struct EntryWords {
    /// The request as it was offered.
    pub offer: Offer,
    /// Intervals of its life still to come.
    pub life_left: u32,
    /// Slots of the minimum still to give in this period.
    pub owed: u32,
    /// Slots given in this period.
    pub given: u32,
    /// Intervals until the end of this period.
    pub left: u32,
}
