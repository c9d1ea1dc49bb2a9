//! What one interval gives to whom (steps A, B, C), the jobs that follow from it (first half of step D)
//! and how the table moves on afterwards (step F).

use crate::plan::Job;
use crate::request::{Demand, Entry, Fraction};
use crate::units::{Intervals, Slots};

/// What one entry gets in one interval.
#[derive(Clone, Copy, Debug, Default, PartialEq, Eq)]
pub struct Share {
    /// Slots that count towards the minimum (step B); none for kind 1.
    pub base: Slots,
    /// Slots beyond the minimum (step C); for kind 1 each job of the interval gets this many.
    pub extra: Slots,
}

/// How one interval is divided among the entries.
#[derive(Clone, Debug, PartialEq, Eq)]
pub struct Division {
    /// Slots left for kinds 2 and 3 when the header and the minimum of kind 1 are taken off (E).
    pub capacity: Slots,
    /// Slots left after everybody's step B (L).
    pub rest: Slots,
    /// What all streams that took part in the sharing could still take (W); none when there is no rest to
    /// share.
    pub wanted: Slots,
    /// Whether the rest was shared over kind 2 only, since with extras kind 1 fails the header test.
    pub fractions_left_out: bool,
    /// One share for each entry, in the order of the entries.
    pub shares: Vec<Share>,
}

/// Step A. Nothing when the minimum of kind 1 alone is more than the interval has after its header.
pub fn capacity(interval: Slots, header: Slots, entries: &[Entry]) -> Option<Slots> {
    let fixed: Slots = entries.iter().map(Entry::fixed_part).sum();
    interval.checked_sub(header + fixed)
}

/// The length of one of so many equal parts of the interval.
fn part(interval: Slots, parts: u32) -> Slots {
    Slots(interval.0 / u64::from(parts))
}

/// The header test: at each end of a kind 1 period, all kind 1 jobs due by then together need no more slots
/// than there are from the end of the header to that end.
///
/// A job needs its minimum and the extra of its entry, by the entry's place; with extras of none, this is the
/// test with minimums. It is made only where step A, with the same needs, does not fall below 0.
///
/// Here the needs are added up by numbers of parts; [`passes_job_by_job`] looks at every single job and is
/// there to hold this one to it.
pub fn passes_header_test(
    interval: Slots,
    header: Slots,
    entries: &[Entry],
    extra: impl Fn(usize) -> Slots,
) -> bool {
    // The jobs due by t need at most t/B of what kind 1 needs in the interval, which is at most B: E is not
    // below 0, and extras take no more than L. So they need at most t, and without a header that is enough.
    if header == Slots::NONE {
        return true;
    }
    // What one job of each stream needs, together for all streams with the same number of parts.
    let mut sums = [Slots::NONE; *Fraction::PARTS.end() as usize + 1];
    for (i, entry) in entries.iter().enumerate() {
        if let Demand::Fraction(f) = entry.request.demand {
            sums[f.parts as usize] += f.min + extra(i);
        }
    }
    // For each number of parts the next end of a period, the length of a part, and that sum. A minimum is at
    // least 1, so where the sum is 0 there are no streams, and the ends do not count.
    let mut coming: Vec<(Slots, Slots, Slots)> = (0..)
        .zip(sums)
        .filter(|&(_, need)| need > Slots::NONE)
        .map(|(parts, need)| {
            let length = part(interval, parts);
            (length, length, need)
        })
        .collect();
    let mut due = Slots::NONE;
    while let Some(end) = coming.iter().map(|&(next, ..)| next).min()
        && end <= interval
    {
        for (next, length, need) in &mut coming {
            if *next == end {
                due += *need;
                *next += *length;
            }
        }
        // An end inside the header leaves no room at all.
        if end.checked_sub(header).is_none_or(|room| due > room) {
            return false;
        }
    }
    true
}

/// The header test, made with every kind 1 job at the end of every period.
pub fn passes_job_by_job(
    interval: Slots,
    header: Slots,
    entries: &[Entry],
    extra: impl Fn(usize) -> Slots,
) -> bool {
    // When each kind 1 job is due and what it needs. The times when jobs are due are the ends of the periods.
    let mut jobs: Vec<(Slots, Slots)> = Vec::new();
    for (i, entry) in entries.iter().enumerate() {
        let Demand::Fraction(f) = entry.request.demand else { continue };
        for number in 1..=f.parts {
            jobs.push((part(interval, f.parts) * number, f.min + extra(i)));
        }
    }
    jobs.iter().all(|&(end, _)| {
        let needs: Slots = jobs.iter().filter(|&&(due, _)| due <= end).map(|&(_, need)| need).sum();
        // An end inside the header leaves no room at all, not even for needs of 0.
        end.checked_sub(header).is_some_and(|room| needs <= room)
    })
}

/// The places of the kind 2 and 3 entries among `entries`, in the order in which they are served.
pub fn turns(entries: &[Entry]) -> Vec<usize> {
    let mut places: Vec<usize> = (0..entries.len()).filter(|&i| entries[i].turn().is_some()).collect();
    places.sort_by_key(|&i| entries[i].turn());
    places
}

/// Step B: fills in the base of each share and returns what remains of the capacity.
pub fn serve(entries: &[Entry], capacity: Slots, shares: &mut [Share]) -> Slots {
    let mut rest = capacity;
    for i in turns(entries) {
        let base = entries[i].owed.min(rest);
        shares[i].base = base;
        rest -= base;
    }
    rest
}

/// How much more an entry could take in this interval: for each job (kind 1) or in one piece (kind 2).
/// The second number is how many times that is taken. Transfers get nothing beyond their amount.
fn room(entry: &Entry, base: Slots) -> Option<(Slots, u32)> {
    match entry.request.demand {
        Demand::Fraction(f) => Some((f.max - f.min, f.parts)),
        Demand::Whole(w) => Some((w.max - entry.given - base, 1)),
        Demand::Transfer(_) => None,
    }
}

/// Step C over the streams that take part: fills in the extra of each share, none for the others, and returns
/// what those streams together could take.
fn share_among(
    entries: &[Entry],
    rest: Slots,
    shares: &mut [Share],
    takes_part: impl Fn(&Entry) -> bool,
) -> Slots {
    let rooms: Vec<Option<(Slots, u32)>> = entries
        .iter()
        .zip(shares.iter())
        .map(|(entry, share)| if takes_part(entry) { room(entry, share.base) } else { None })
        .collect();
    let wanted: Slots = rooms.iter().flatten().map(|&(slots, times)| slots * times).sum();
    for (share, room) in shares.iter_mut().zip(&rooms) {
        share.extra = match *room {
            Some((slots, _)) if rest >= wanted => slots,
            Some((slots, _)) => proportion(slots, rest, wanted),
            None => Slots::NONE,
        };
    }
    wanted
}

/// Step C: fills in the extra of each share. Returns what all streams that took part could take, and whether
/// kind 1 was left out because its extras do not pass the header test.
pub fn share_rest(
    interval: Slots,
    header: Slots,
    entries: &[Entry],
    rest: Slots,
    shares: &mut [Share],
) -> (Slots, bool) {
    if rest == Slots::NONE {
        return (Slots::NONE, false);
    }
    let wanted = share_among(entries, rest, shares, |_| true);
    if passes_header_test(interval, header, entries, |i| shares[i].extra) {
        return (wanted, false);
    }
    (share_among(entries, rest, shares, |entry| entry.turn().is_some()), true)
}

/// `slots` times `rest` divided by `wanted`, rounded down.
fn proportion(slots: Slots, rest: Slots, wanted: Slots) -> Slots {
    let exact = u128::from(slots.0) * u128::from(rest.0) / u128::from(wanted.0);
    Slots(u64::try_from(exact).expect("a part of the rest is not larger than the rest"))
}

impl Division {
    /// Steps A, B and C. Nothing when step A falls below 0, which no admitted table does.
    pub fn of(interval: Slots, header: Slots, entries: &[Entry]) -> Option<Self> {
        let capacity = capacity(interval, header, entries)?;
        let mut shares = vec![Share::default(); entries.len()];
        let rest = serve(entries, capacity, &mut shares);
        let (wanted, fractions_left_out) = share_rest(interval, header, entries, rest, &mut shares);
        Some(Division { capacity, rest, wanted, fractions_left_out, shares })
    }

    /// The jobs of the interval. Ranks settle ties: kind 1 by stream number, then the pieces by turn.
    pub fn jobs(&self, interval: Slots, entries: &[Entry]) -> Vec<Job> {
        let mut jobs = Vec::new();
        let mut rank = 0;
        let mut fractions: Vec<usize> = (0..entries.len()).filter(|&i| entries[i].turn().is_none()).collect();
        fractions.sort_by_key(|&i| entries[i].request.stream);
        for i in fractions {
            let Demand::Fraction(f) = entries[i].request.demand else { continue };
            let part = part(interval, f.parts);
            for number in 0..f.parts {
                jobs.push(Job {
                    stream: entries[i].request.stream,
                    number,
                    release: part * number,
                    due: part * (number + 1),
                    need: f.min + self.shares[i].extra,
                    rank,
                });
            }
            rank += 1;
        }
        for i in turns(entries) {
            jobs.push(Job {
                stream: entries[i].request.stream,
                number: 0,
                release: Slots::NONE,
                due: interval,
                need: self.shares[i].base + self.shares[i].extra,
                rank,
            });
            rank += 1;
        }
        jobs
    }
}

/// First part of step F: the interval is over, and every entry has had its share.
pub fn count_down(entries: &mut [Entry], shares: &[Share]) {
    for (entry, share) in entries.iter_mut().zip(shares) {
        entry.life_left -= Intervals::ONE;
        if entry.turn().is_some() {
            entry.owed -= share.base;
            entry.given += share.base + share.extra;
            entry.left -= Intervals::ONE;
        }
    }
}

/// Second part of step F: entries at the end of their life leave, then finished periods begin anew.
pub fn turn_over(entries: &mut Vec<Entry>) {
    entries.retain(|entry| entry.life_left > Intervals::NONE);
    for entry in entries {
        entry.renew();
    }
}
