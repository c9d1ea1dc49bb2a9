//! Giving the slots of one interval to jobs, nearest due time first, and the records of the plan.
//!
//! There are two ways here to the same plan. [`slot_by_slot`] asks anew at every slot who is to have it.
//! [`by_events`] asks only when the answer can change: at the end of a job and at a release.

use std::cmp::Reverse;
use std::collections::BinaryHeap;

use crate::units::Slots;

/// The most records that a plan can have.
pub const MOST_RECORDS: usize = 1_024;
/// Words in one record.
pub const RECORD_WORDS: usize = 4;
/// Words that have to be lent for a plan.
pub const PLAN_WORDS: usize = MOST_RECORDS * RECORD_WORDS;

/// Work to be done within one interval.
#[derive(Clone, Copy, Debug, PartialEq, Eq)]
pub struct Job {
    /// The stream it is done for.
    pub stream: u32,
    /// Its number among the jobs of that stream in this interval.
    pub number: u32,
    /// The first slot it may have.
    pub release: Slots,
    /// The slot before which it should be done.
    pub due: Slots,
    /// Slots it takes.
    pub need: Slots,
    /// Settles ties between jobs due at the same time; the lower goes first.
    pub rank: usize,
}

/// A run of slots that all go to the same job.
#[derive(Clone, Copy, Debug, Default, PartialEq, Eq, Hash)]
pub struct Record {
    /// Stream number.
    pub stream: u32,
    /// Job number.
    pub job: u32,
    /// First slot of the run.
    pub start: Slots,
    /// Slots in the run.
    pub length: Slots,
}

impl Record {
    /// The record as it lies in plan memory.
    pub fn to_words(self) -> [u32; RECORD_WORDS] {
        [self.stream, self.job, self.start.to_word(), self.length.to_word()]
    }

    /// The record that lies in four words of plan memory.
    pub fn from_words(words: [u32; RECORD_WORDS]) -> Self {
        let [stream, job, start, length] = words;
        Record { stream, job, start: Slots::from_word(start), length: Slots::from_word(length) }
    }
}

/// Grows the list of records by slots for one job; touching runs of the same job become one record.
struct Runs<'a> {
    jobs: &'a [Job],
    last: Option<usize>,
    records: Vec<Record>,
}

impl<'a> Runs<'a> {
    fn new(jobs: &'a [Job]) -> Self {
        Runs { jobs, last: None, records: Vec::new() }
    }

    fn add(&mut self, job: usize, start: Slots, length: Slots) {
        if let Some(record) = self.records.last_mut()
            && self.last == Some(job)
            && record.start + record.length == start
        {
            record.length += length;
        } else {
            let Job { stream, number, .. } = self.jobs[job];
            self.records.push(Record { stream, job: number, start, length });
            self.last = Some(job);
        }
    }
}

/// The plan, decided at each slot after the header by looking at every job.
pub fn slot_by_slot(interval: Slots, header: Slots, jobs: &[Job]) -> Vec<Record> {
    let mut needs: Vec<Slots> = jobs.iter().map(|job| job.need).collect();
    let mut runs = Runs::new(jobs);
    for slot in (header.0..interval.0).map(Slots) {
        let chosen = (0..jobs.len())
            .filter(|&i| jobs[i].release <= slot && needs[i] > Slots::NONE)
            .min_by_key(|&i| (jobs[i].due, jobs[i].rank));
        if let Some(i) = chosen {
            needs[i] -= Slots(1);
            runs.add(i, slot, Slots(1));
        }
    }
    runs.records
}

/// The plan, decided only where something changes: the job in front keeps its place until it is done or
/// until another job is released. Jobs released before the end of the header wait for it.
pub fn by_events(interval: Slots, header: Slots, jobs: &[Job]) -> Vec<Record> {
    let mut needs: Vec<Slots> = jobs.iter().map(|job| job.need).collect();
    let mut to_come: Vec<usize> = (0..jobs.len()).filter(|&i| needs[i] > Slots::NONE).collect();
    to_come.sort_by_key(|&i| Reverse(jobs[i].release));
    let mut ready = BinaryHeap::new();
    let mut runs = Runs::new(jobs);
    let mut now = header;
    while now < interval {
        while let Some(&i) = to_come.last()
            && jobs[i].release <= now
        {
            to_come.pop();
            ready.push(Reverse((jobs[i].due, jobs[i].rank, i)));
        }
        let next_release = to_come.last().map_or(interval, |&i| jobs[i].release.min(interval));
        let Some(&Reverse((_, _, i))) = ready.peek() else {
            now = next_release;
            continue;
        };
        let length = needs[i].min(next_release - now);
        runs.add(i, now, length);
        needs[i] -= length;
        now += length;
        if needs[i] == Slots::NONE {
            ready.pop();
        }
    }
    runs.records
}
