//! The proved planner for Rust.
//!
//! A [`Shelf`] owns its table. There is none before an opening that succeeds, and no way into its words, so every
//! call is made on a table that opening and later calls have given: all that the proved calls ask. A Rust slice is
//! what they take for memory lent. Answers are those of the rules: `Ok`, or [`Refused`] with its number.

#![warn(missing_docs)]

mod ffi;

pub use ffi::Entry;

/// The README's program is compiled and run with the tests. All its blocks are fenced with their language: an indented one counts as Rust.
#[cfg(doctest)]
#[doc = include_str!("../../../README.md")]
struct Readme;

/// The least memory that a beacon takes for its plan, in words.
pub const PLAN_WORDS: usize = 4_096;

/// The words of a record: stream, job, start, length.
pub const RECORD_WORDS: usize = 4;

/// The number of the first refusal that applies.
#[derive(Clone, Copy, Debug, PartialEq, Eq, Hash)]
pub struct Refused(pub u32);

/// The fields of an offer: any numbers.
#[derive(Clone, Copy, Debug, Default, PartialEq, Eq, Hash)]
pub struct Offer {
    /// The stream number.
    pub stream: u32,
    /// 1 for a fraction stream, 2 for a whole stream, 3 for a transfer.
    pub kind: u32,
    /// The parts of an interval for kind 1, else intervals.
    pub period: u32,
    /// Slots that each period is to have.
    pub min: u32,
    /// Slots that each period may have; 0 for a transfer.
    pub max: u32,
    /// Intervals that the admission is to last.
    pub life: u32,
}

/// An open table.
#[derive(Clone)]
pub struct Shelf {
    table: ffi::Table,
}

fn answered(number: u32) -> Result<(), Refused> {
    if number == 0 { Ok(()) } else { Err(Refused(number)) }
}

impl Shelf {
    /// Opens a table whose intervals have so many time units. The first slots, as many as `header` says, are the
    /// header's, and no plan gives them.
    pub fn open(units: u32, header: u32) -> Result<Shelf, Refused> {
        let mut table = ffi::Table::ZERO;
        // SAFETY: opening asks nothing of the table's words.
        answered(unsafe { ffi::gelmush_open(&mut table, units, header) })?;
        Ok(Shelf { table })
    }

    /// Opens again in the same place. Refused, the table stays as it is.
    pub fn reopen(&mut self, units: u32, header: u32) -> Result<(), Refused> {
        // SAFETY: as for `open`; either way the table is one that opening and later calls have given.
        answered(unsafe { ffi::gelmush_open(&mut self.table, units, header) })
    }

    /// Offers a request.
    pub fn offer(&mut self, offer: &Offer) -> Result<(), Refused> {
        let Offer { stream, kind, period, min, max, life } = *offer;
        // SAFETY: the table is one that opening and later calls have given.
        answered(unsafe { ffi::gelmush_offer(&mut self.table, stream, kind, period, min, max, life) })
    }

    /// Ends an admission before its time.
    pub fn withdraw(&mut self, stream: u32) -> Result<(), Refused> {
        // SAFETY: the table is one that opening and later calls have given.
        answered(unsafe { ffi::gelmush_withdraw(&mut self.table, stream) })
    }

    /// The whole entry of a held stream.
    pub fn enquire(&self, stream: u32) -> Result<Entry, Refused> {
        // SAFETY: the table is one that opening and later calls have given.
        let found = unsafe { ffi::gelmush_enquire(&self.table, stream) };
        answered(found.answer).map(|()| found.entry)
    }

    /// Writes the plan of the coming interval to the first words lent, and moves the table past that interval. Gives
    /// the number of records.
    pub fn beacon(&mut self, plan: &mut [u32]) -> Result<usize, Refused> {
        // SAFETY: the table is one that opening and later calls have given; the plan is a slice.
        let sent = unsafe { ffi::gelmush_beacon(&mut self.table, plan.as_mut_ptr(), plan.len()) };
        answered(sent.answer).map(|()| sent.count)
    }
}

/// The records of a plan that start at `from` or later, up to just before the first that starts at `until` or later.
pub fn window(plan: &[u32], count: usize, from: u32, until: u32) -> Result<&[u32], Refused> {
    let mut answer = 0;
    // SAFETY: the plan is a slice, and the answer lies elsewhere.
    let place = unsafe { ffi::gelmush_window(plan.as_ptr(), plan.len(), count, from, until, &mut answer) };
    answered(answer).map(|()| &plan[place.first..place.first + place.words])
}
