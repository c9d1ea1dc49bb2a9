//! A part of a plan, cut out by slot numbers.

use crate::plan::RECORD_WORDS;
use crate::refusal::Refusal;

/// Hands back the records that start at `from` or later and before the first that starts at `until` or
/// later, as a part of the words lent. The number of the answer goes to `answer`.
///
/// Only the starts of the first `count` records are looked at.
pub fn window<'a>(plan: &'a [u32], count: u32, from: u32, until: u32, answer: &mut u32) -> &'a [u32] {
    match cut(plan, count, from, until) {
        Ok(part) => {
            *answer = 0;
            part
        }
        Err(refusal) => {
            *answer = refusal.number();
            &plan[..0]
        }
    }
}

fn cut(plan: &[u32], count: u32, from: u32, until: u32) -> Result<&[u32], Refusal> {
    if RECORD_WORDS as u64 * u64::from(count) > plan.len() as u64 {
        return Err(Refusal::WindowCount);
    }
    if from > until {
        return Err(Refusal::WindowBounds);
    }
    // The product is not above a slice length here, so it fits.
    let records = &plan[..RECORD_WORDS * count as usize];
    let starts: Vec<u32> = records.chunks_exact(RECORD_WORDS).map(|record| record[2]).collect();
    if starts.windows(2).any(|pair| pair[0] >= pair[1]) {
        return Err(Refusal::WindowStarts);
    }
    let first_at_or_after =
        |slot: u32| starts.iter().position(|&start| start >= slot).unwrap_or(starts.len());
    Ok(&records[RECORD_WORDS * first_at_or_after(from)..RECORD_WORDS * first_at_or_after(until)])
}
