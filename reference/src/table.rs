//! The table of requests and the calls on it.

use crate::ahead;
use crate::plan::{self, PLAN_WORDS, RECORD_WORDS, Record};
use crate::refusal::Refusal;
use crate::request::{Entry, EntryWords, Offer, Request, STREAMS};
use crate::steps::{self, Division};
use crate::units::{SLOTS_PER_TIME_UNIT, Slots};

/// The most requests held at one time.
pub const PLACES: usize = 32;
/// The lengths an interval may have, in time units.
pub const TIME_UNITS: std::ops::RangeInclusive<u32> = 1..=1_000;

/// The requests held, the length of the interval they share, and how much of it the beacon header takes.
#[derive(Clone, Debug, PartialEq, Eq)]
pub struct Table {
    interval: Slots,
    header: Slots,
    held: Vec<Entry>,
}

/// What a beacon answers.
#[derive(Clone, Copy, Debug, PartialEq, Eq)]
pub struct BeaconAnswer {
    /// 0 or the number of the refusal.
    pub answer: u32,
    /// Records written; 0 when refused.
    pub count: usize,
}

/// What an enquiry answers.
#[derive(Clone, Copy, Debug, PartialEq, Eq)]
pub struct EnquiryAnswer {
    /// 0 or the number of the refusal.
    pub answer: u32,
    /// The entry; all zeros when refused.
    pub entry: EntryWords,
}

impl Table {
    /// Opens an empty table with intervals of so many time units, of which the first `header` slots are never
    /// planned.
    pub fn open(time_units: u32, header: u32) -> Result<Table, Refusal> {
        if !TIME_UNITS.contains(&time_units) {
            return Err(Refusal::TimeUnits);
        }
        let interval = Slots(SLOTS_PER_TIME_UNIT * u64::from(time_units));
        let header = Slots::from_word(header);
        if header >= interval {
            return Err(Refusal::Header);
        }
        Ok(Table::with_interval(interval).with_header(header))
    }

    /// An empty table with intervals of any length and no header, for tests that want very short ones.
    #[doc(hidden)]
    pub fn with_interval(interval: Slots) -> Table {
        Table { interval, header: Slots::NONE, held: Vec::new() }
    }

    /// The table with a header, which is to be shorter than its interval.
    #[doc(hidden)]
    pub fn with_header(self, header: Slots) -> Table {
        Table { header, ..self }
    }

    /// Slots in one interval.
    pub fn interval(&self) -> Slots {
        self.interval
    }

    /// Slots at the beginning of each interval that are never planned.
    pub fn header(&self) -> Slots {
        self.header
    }

    /// The entries held, in no particular order.
    pub fn held(&self) -> &[Entry] {
        &self.held
    }

    fn place_of(&self, stream: u32) -> Option<usize> {
        self.held.iter().position(|entry| entry.request.stream == stream)
    }

    /// Takes a request in, if everything about it is in order and there is time for it.
    pub fn offer(&mut self, offer: &Offer) -> Result<(), Refusal> {
        if !STREAMS.contains(&offer.stream) {
            return Err(Refusal::StreamNumber);
        }
        if self.place_of(offer.stream).is_some() {
            return Err(Refusal::StreamHeld);
        }
        let request = Request::read(offer, self.interval)?;
        if self.held.len() >= PLACES {
            return Err(Refusal::TableFull);
        }
        self.held.push(Entry::accepted(request));
        if ahead::fits(self.interval, self.header, &self.held) {
            Ok(())
        } else {
            self.held.pop();
            Err(Refusal::NoTime)
        }
    }

    /// Ends an admission before its time.
    pub fn withdraw(&mut self, stream: u32) -> Result<(), Refusal> {
        let place = self.place_of(stream).ok_or(Refusal::NotHeld)?;
        self.held.remove(place);
        Ok(())
    }

    /// Shows the entry of a stream.
    pub fn enquire(&self, stream: u32) -> EnquiryAnswer {
        match self.place_of(stream) {
            Some(place) => EnquiryAnswer { answer: 0, entry: self.held[place].to_words() },
            None => EnquiryAnswer { answer: Refusal::NotHeld.number(), entry: EntryWords::default() },
        }
    }

    /// How the coming interval is divided.
    pub fn division(&self) -> Division {
        Division::of(self.interval, self.header, &self.held)
            .expect("an admitted table never asks kind 1 for too much")
    }

    /// The coming plan, worked out from event to event. The table stays as it is.
    pub fn plan_by_events(&self) -> Vec<Record> {
        plan::by_events(self.interval, self.header, &self.division().jobs(self.interval, &self.held))
    }

    /// The coming plan, worked out slot by slot. The table stays as it is.
    pub fn plan_slot_by_slot(&self) -> Vec<Record> {
        plan::slot_by_slot(self.interval, self.header, &self.division().jobs(self.interval, &self.held))
    }

    /// Writes the plan of the coming interval into `memory` and moves the table past that interval.
    ///
    /// Only the words of the records are written; all words after them stay as they were.
    pub fn beacon(&mut self, memory: &mut [u32]) -> BeaconAnswer {
        if memory.len() < PLAN_WORDS {
            return BeaconAnswer { answer: Refusal::PlanMemory.number(), count: 0 };
        }
        let division = self.division();
        let jobs = division.jobs(self.interval, &self.held);
        let records = plan::by_events(self.interval, self.header, &jobs);
        let words = &mut memory[..RECORD_WORDS * records.len()];
        for (place, record) in words.chunks_exact_mut(RECORD_WORDS).zip(&records) {
            place.copy_from_slice(&record.to_words());
        }
        steps::count_down(&mut self.held, &division.shares);
        steps::turn_over(&mut self.held);
        BeaconAnswer { answer: 0, count: records.len() }
    }
}
