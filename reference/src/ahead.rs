//! Looking ahead: whether a set of entries works out to the end of every life.
//!
//! [`fits`] leaps from one change to the next; [`fits_stepwise`] goes interval by interval and is there to
//! hold the first one to it.

use crate::request::Entry;
use crate::steps::{
    Share, capacity, count_down, passes_header_test, passes_job_by_job, serve, turn_over, turns,
};
use crate::units::{Intervals, Slots};

/// Whether an entry has come to its deadline without the whole of its minimum.
fn missed(entry: &Entry) -> bool {
    entry.turn().is_some() && entry.left == Intervals::NONE && entry.owed > Slots::NONE
}

/// Whether the entries all get their minimum, found by leaps.
///
/// Until the nearest end of a life or of a period nobody comes, nobody goes, and the order of service stays
/// as it is. So the intervals up to there can be served as one, with the capacity of all of them. The header
/// test comes out as before unless a kind 1 entry has left since then, so it is made again only after that.
pub fn fits(interval: Slots, header: Slots, entries: &[Entry]) -> bool {
    let mut entries = entries.to_vec();
    let mut tested = None;
    while !entries.is_empty() {
        let Some(each) = capacity(interval, header, &entries) else { return false };
        let fractions = entries.iter().filter(|entry| entry.turn().is_none()).count();
        if tested != Some(fractions) {
            if !passes_header_test(interval, header, &entries, |_| Slots::NONE) {
                return false;
            }
            tested = Some(fractions);
        }
        let ends = entries.iter().map(|entry| match entry.turn() {
            Some(_) => entry.life_left.min(entry.left),
            None => entry.life_left,
        });
        let leap = ends.min().unwrap_or(Intervals::ONE);
        let mut rest = each.over(leap);
        for i in turns(&entries) {
            let slots = entries[i].owed.min(rest);
            rest -= slots;
            entries[i].owed -= slots;
            entries[i].left -= leap;
        }
        if entries.iter().any(missed) {
            return false;
        }
        for entry in &mut entries {
            entry.life_left -= leap;
        }
        turn_over(&mut entries);
    }
    true
}

/// Whether the entries all get their minimum, found interval by interval with steps A, B and F and the header
/// test, job by job.
pub fn fits_stepwise(interval: Slots, header: Slots, entries: &[Entry]) -> bool {
    let mut entries = entries.to_vec();
    while !entries.is_empty() {
        let Some(capacity) = capacity(interval, header, &entries) else { return false };
        if !passes_job_by_job(interval, header, &entries, |_| Slots::NONE) {
            return false;
        }
        let mut shares = vec![Share::default(); entries.len()];
        serve(&entries, capacity, &mut shares);
        count_down(&mut entries, &shares);
        if entries.iter().any(missed) {
            return false;
        }
        turn_over(&mut entries);
    }
    true
}
