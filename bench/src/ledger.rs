//! What a planner did, from its calls, answers and plans alone: which periods came out short, and whether an offer could have been served.
//!
//! The exact test is the one that the second implementation's own tests use. It counts demand over windows of intervals, simulates no
//! planner, and is held there to a flow on single slots.

#[path = "../../reference/tests/common/mod.rs"]
pub mod common;

use common::{Admission, Watch};
use reference::Offer;

use crate::records::WORDS;

/// Follows one planner through a day.
pub struct Ledger {
    watch: Watch,
    /// Periods and transfers that ran to their end.
    pub completed: u64,
    /// Those of them that had less than their minimum.
    pub short: u64,
}

fn overlap(record: &[u32], from: u64, until: u64) -> u64 {
    let (start, length) = (u64::from(record[2]), u64::from(record[3]));
    (start + length).min(until).saturating_sub(start.max(from))
}

impl Ledger {
    /// An empty table.
    pub fn new(interval: u64) -> Ledger {
        Ledger { watch: Watch::new(interval, 0), completed: 0, short: 0 }
    }

    /// Whether some assignment of the coming slots serves all that is held and the offered request.
    pub fn is_servable(&self, offer: &Offer) -> bool {
        self.watch.can_serve_by_intervals(offer)
    }

    /// Whether the stream is held.
    pub fn holds(&self, stream: u32) -> bool {
        self.watch.holds(stream)
    }

    /// The number of requests held.
    pub fn held(&self) -> usize {
        self.watch.admissions.len()
    }

    /// The offer was accepted.
    pub fn accepted(&mut self, offer: &Offer) {
        self.watch.accepted(offer);
    }

    /// The withdrawal was accepted.
    pub fn withdrawn(&mut self, stream: u32) {
        self.watch.withdrawn(stream);
    }

    /// An interval passed with this plan.
    pub fn beacon(&mut self, plan: &[u32]) {
        let interval = self.watch.interval;
        for admission in &mut self.watch.admissions {
            let stream = admission.offer.stream;
            let records = plan.chunks_exact(WORDS).filter(|record| record[0] == stream);
            let (completed, short) = pass(admission, interval, records);
            self.completed += completed;
            self.short += short;
        }
        self.watch.admissions.retain(|admission| admission.seen < u64::from(admission.offer.life));
    }
}

/// Moves an admission past an interval with these records of its stream. Gives the periods completed, and how many came out short.
fn pass<'a>(
    admission: &mut Admission,
    interval: u64,
    records: impl Iterator<Item = &'a [u32]> + Clone,
) -> (u64, u64) {
    let (period, min) = (u64::from(admission.offer.period), u64::from(admission.offer.min));
    let had = |from, until| records.clone().map(|record| overlap(record, from, until)).sum::<u64>();
    admission.seen += 1;
    if admission.offer.kind == 1 {
        let part = interval / period;
        return (period, (0..period).filter(|j| had(j * part, (j + 1) * part) < min).count() as u64);
    }
    admission.had += had(0, interval);
    if !admission.seen.is_multiple_of(period) {
        return (0, 0);
    }
    let short = u64::from(admission.had < min);
    admission.had = 0;
    (1, short)
}

#[cfg(test)]
mod tests {
    use super::*;

    fn offer([stream, kind, period, min, max, life]: [u32; 6]) -> Offer {
        Offer { stream, kind, period, min, max, life }
    }

    #[test]
    fn short_periods() {
        let mut ledger = Ledger::new(100);
        ledger.accepted(&offer([1, 1, 2, 10, 20, 2]));
        ledger.accepted(&offer([2, 2, 2, 50, 60, 2]));
        // The second half of stream 1 lacks a slot.
        ledger.beacon(&[1, 0, 0, 10, 2, 0, 10, 30, 1, 1, 60, 9]);
        assert_eq!((ledger.completed, ledger.short), (2, 1));
        // One run over both halves counts for each; stream 2 has 49 by its deadline.
        ledger.beacon(&[1, 0, 40, 20, 2, 0, 60, 19]);
        assert_eq!((ledger.completed, ledger.short), (5, 2));
        assert_eq!(ledger.held(), 0);
    }

    #[test]
    fn servable_to_the_slot() {
        let mut ledger = Ledger::new(100);
        ledger.accepted(&offer([1, 2, 2, 120, 120, 2]));
        assert!(ledger.is_servable(&offer([2, 3, 2, 80, 0, 2])));
        assert!(!ledger.is_servable(&offer([2, 3, 2, 81, 0, 2])));
        // 50 slots idle: they do not come back.
        ledger.beacon(&[1, 0, 0, 50]);
        assert!(ledger.is_servable(&offer([2, 3, 1, 30, 0, 1])));
        assert!(!ledger.is_servable(&offer([2, 3, 1, 31, 0, 1])));
    }
}
