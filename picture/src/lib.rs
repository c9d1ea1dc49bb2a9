//! A beacon interval's plan as a picture: what the program `shelf` prints, drawn as an SVG timeline.
//!
//! - [`rows`]: a file cut into rows, fields and numbers.
//! - [`answers`]: the rows that `shelf` prints.
//! - [`calls`]: the rows that `shelf` reads, for what the answers alone do not say.
//! - [`requests`]: what is held, and what its running periods have had.
//! - [`plan`]: one beacon's plan, checked and put into lanes.
//! - [`svg`]: the picture, on a `page`, with a `gauge` for each stream; `words` has what it says.
//! - [`options`]: the command line.

#![forbid(unsafe_code)]
#![warn(missing_docs)]

pub mod answers;
pub mod calls;
mod gauge;
pub mod options;
mod page;
pub mod plan;
pub mod requests;
pub mod rows;
pub mod svg;
mod words;

use plan::{Known, Plan};

/// What is known about the interval besides the answers.
pub enum Source {
    /// Nothing: the axis ends where the last record ends.
    Answers,
    /// The interval's length in slots.
    Length(u64),
    /// The rows that `shelf` answered.
    Calls(Vec<u8>),
}

/// The picture of the plan of an accepted beacon, counted from 1.
pub fn picture(answers: &[u8], source: &Source, beacon: usize) -> Result<String, String> {
    let answers = answers::read(answers)?;
    let records = answers::records_of(&answers, beacon)?;
    let known = match source {
        Source::Answers => Known::Nothing,
        Source::Length(interval) => Known::Length(*interval),
        Source::Calls(bytes) => Known::Table(calls::table_before(bytes, &answers, beacon)?),
    };
    Ok(svg::drawn(&Plan::new(beacon, records, known)?))
}
