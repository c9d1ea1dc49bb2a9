//! A radio-time planner for streams and transfers that share beacon intervals.
//!
//! This is a second implementation, written from the rules alone, to compare another one with. It prefers the
//! plainest way that is right: growing lists, wide numbers, checked arithmetic.
//!
//! - [`units`]: slots and intervals, kept apart by type.
//! - [`request`]: the three kinds of request with their ranges, and table entries.
//! - [`table`]: opening, offer, withdrawal, enquiry and beacon.
//! - [`ahead`]: whether a set of entries works out to the end.
//! - [`steps`]: how one interval is divided and how the table moves on.
//! - [`plan`]: who gets which slot, in two separate ways.
//! - [`window`](mod@window): a part of a plan.
//! - [`rows`]: the program's reading and printing.
//! - [`lists`] and [`random`]: made-up input for tests and comparisons.

#![forbid(unsafe_code)]
#![warn(missing_docs)]

pub mod ahead;
pub mod lists;
pub mod plan;
pub mod random;
pub mod refusal;
pub mod request;
pub mod rows;
pub mod steps;
pub mod table;
pub mod units;
pub mod window;

pub use plan::{PLAN_WORDS, Record};
pub use refusal::{Refusal, answer};
pub use request::{Entry, EntryWords, Offer};
pub use table::{BeaconAnswer, EnquiryAnswer, Table};
pub use units::{Intervals, Slots};
pub use window::window;
