//! The procedure that source 001 publishes as Algorithm 1, EACIAR, as a baseline: admission and allocation on arrays of slots. "Line n"
//! is a line of that algorithm. Kind 1 is its ISO with periods that are a fraction of a beacon interval, kind 2 its ISO with periods of
//! whole intervals, kind 3 its ASYNC.
//!
//! Where the published text leaves something open, the choice here favours the procedure, so that no difference is of our making. Each
//! such place says "Open:". Slots count from 0 here, from 1 there.

use reference::Slots;
use reference::refusal::Refusal;
use reference::request::{Offer, Request, STREAMS};

use crate::planner::Planner;
use crate::records;

/// The most requests held, as for the other planners.
const PLACES: usize = 32;

/// A row of the published Table I. A field that the kind has no use for is 0.
#[derive(Clone, Debug)]
struct Row {
    offer: Offer,
    /// C_op: what each period gets while no transfer is held.
    operational: u64,
    /// C_remain: what the period under way lacks of its minimum; below 0 once it has had more.
    remain: i64,
    /// t_remain_life, in intervals.
    life_left: u64,
    /// D_curr, in intervals.
    deadline: u64,
    /// What the period under way is still to get while no transfer is held.
    todo: u64,
}

impl Row {
    fn accepted(offer: &Offer) -> Row {
        let whole = offer.kind != 1;
        Row {
            offer: *offer,
            operational: u64::from(offer.min),
            remain: if whole { i64::from(offer.min) } else { 0 },
            life_left: u64::from(offer.life),
            deadline: if whole { u64::from(offer.period) } else { 0 },
            todo: 0,
        }
    }

    fn is_stream(&self) -> bool {
        self.offer.kind != 3
    }

    fn min(&self) -> u64 {
        u64::from(self.offer.min)
    }

    /// C_max − C_min.
    fn headroom(&self) -> u64 {
        u64::from(self.offer.max).saturating_sub(self.min())
    }

    /// The period in slots, 1/m of an interval or so many intervals; exact, since m divides the interval.
    fn period(&self, interval: u64) -> u64 {
        let period = u64::from(self.offer.period);
        if self.offer.kind == 1 { interval / period } else { interval * period }
    }

    /// Whether the period under way begins with the coming interval.
    fn is_fresh(&self) -> bool {
        self.deadline == u64::from(self.offer.period) && self.remain == i64::from(self.offer.min)
    }

    /// Section III.D: one interval has passed, in which so many slots were given. Says whether the request stays.
    fn pass(&mut self, given: u64) -> bool {
        self.life_left -= 1;
        if self.offer.kind != 1 {
            self.remain -= given as i64;
            self.todo = self.todo.saturating_sub(given);
            self.deadline -= 1;
        }
        if self.offer.kind == 2 && self.deadline == 0 && self.life_left > 0 {
            self.remain = i64::from(self.offer.min);
            self.deadline = u64::from(self.offer.period);
            self.todo = self.operational;
        }
        self.life_left > 0
    }
}

/// A need for slots from `release` up to just before `due`.
struct Job {
    row: usize,
    release: u64,
    due: u64,
    need: u64,
}

/// Lines 21 to 26, 34 to 39 and 59 to 64: run after run of empty slots is taken, from `release` on, until the need is met. Gives what
/// could not be placed before `due`.
///
/// Open: lines 27 and 65 compare the next empty slot with the deadline even where nothing more is needed, which would turn away each exact
/// fit. Here the deadline counts only for slots that are taken. Open too: the array says only that a slot is taken, but to follow it one
/// must know by whom, so the slot holds the stream's number.
fn place(slots: &mut [u16], stream: u32, release: u64, due: u64, need: u64) -> u64 {
    let (mut at, due) = (release as usize, (due as usize).min(slots.len()));
    let mut rest = need;
    while rest > 0 && at < due {
        let run = slots[at..due].iter().take_while(|&&owner| owner == 0).count().min(rest as usize);
        slots[at..at + run].fill(stream as u16);
        rest -= run as u64;
        at += run;
        at += slots[at..due].iter().take_while(|&&owner| owner != 0).count();
    }
    rest
}

/// `whole` times the smaller of 1 and `share` / `all`. Open: rounded down, so that no slot is handed out that is not there; the small
/// number keeps the rounding of the sums from doing so.
fn proportion(whole: u64, share: f64, all: f64) -> u64 {
    if share >= all { whole } else { (whole as f64 * (share / all) - 1e-9).max(0.0) as u64 }
}

/// The published planner.
#[derive(Clone, Debug)]
pub struct Eaciar {
    interval: u64,
    rows: Vec<Row>,
    /// long_schedule[], from its first interval on; empty while no transfer is held.
    schedule: Vec<u16>,
    /// The intervals of it that have passed.
    passed: usize,
}

impl Eaciar {
    /// An empty table with intervals of any length.
    pub fn with_interval(interval: u64) -> Eaciar {
        Eaciar { interval, rows: Vec::new(), schedule: Vec::new(), passed: 0 }
    }

    /// U_min of line 4. Open: a sum above 1 by no more than its own rounding counts as 1.
    fn is_overloaded(&self) -> bool {
        let used: f64 = self.streams().map(|row| row.min() as f64 / row.period(self.interval) as f64).sum();
        used > 1.0 + 1e-9
    }

    fn streams(&self) -> impl Iterator<Item = &Row> {
        self.rows.iter().filter(|row| row.is_stream())
    }

    /// Lines 6 to 80, from which a departure starts too. Says whether everybody is served.
    fn allocate(&mut self) -> bool {
        (self.schedule, self.passed) = (Vec::new(), 0);
        if self.rows.iter().all(Row::is_stream) {
            self.share_utilization();
            return true;
        }
        let streams_served = self.schedule_streams();
        streams_served && self.schedule_transfers() && {
            self.schedule_surplus();
            true
        }
    }

    /// Lines 7 to 11.
    ///
    /// Open: what a change of C_op means for a whole stream's period under way. The rule of section III.E for the departure of the last
    /// transfer is taken for every change: that period gets what it lacks of the minimum, and C_op counts from the next one.
    fn share_utilization(&mut self) {
        let interval = self.interval;
        let per_slot = |row: &Row, slots: u64| slots as f64 / row.period(interval) as f64;
        let surplus = 1.0 - self.streams().map(|row| per_slot(row, row.min())).sum::<f64>();
        let wanted: f64 = self.streams().map(|row| per_slot(row, row.headroom())).sum();
        for row in &mut self.rows {
            row.operational = row.min() + proportion(row.headroom(), surplus.max(0.0), wanted);
            row.todo = if row.is_fresh() { row.operational } else { row.remain.max(0) as u64 };
        }
    }

    /// Lines 12 to 45: every stream's minimum, interval by interval up to the last deadline of a transfer.
    ///
    /// Open: line 40 stops where an interval is full, although a whole stream may ask more than one interval has. Here the rest waits for
    /// the next interval, as section III.D counts it. Open: lines 27 and 40 print an error and exit; here a minimum missed is a refusal.
    fn schedule_streams(&mut self) -> bool {
        let interval = self.interval as usize;
        let last = self.rows.iter().filter(|row| !row.is_stream()).map(|row| row.deadline).max().unwrap_or(0);
        self.schedule = vec![0; last as usize * interval];
        let mut rows: Vec<Row> = self.streams().cloned().collect();
        let mut served = true;
        for slots in self.schedule.chunks_exact_mut(interval) {
            served &= place_fractions(slots, &rows, |row| row.min());
            served &= place_wholes(slots, &mut rows);
            rows.retain_mut(|row| row.pass(0));
        }
        served
    }

    /// Lines 46 to 66. Open: line 57 has the deadline in intervals where line 65 compares slots; it is taken as its last slot.
    fn schedule_transfers(&mut self) -> bool {
        let mut transfers: Vec<&Row> = self.rows.iter().filter(|row| !row.is_stream()).collect();
        let total: i64 = transfers.iter().map(|row| row.remain).sum();
        let empty = self.schedule.iter().filter(|&&owner| owner == 0).count();
        if total > empty as i64 {
            return false;
        }
        transfers.sort_by_key(|row| (row.deadline, row.offer.stream));
        transfers.into_iter().all(|row| {
            let (due, need) = (row.deadline * self.interval, row.remain.max(0) as u64);
            place(&mut self.schedule, row.offer.stream, 0, due, need) == 0
        })
    }

    /// Lines 67 to 80: what is left goes to the streams' jobs, in proportion (rounded down), as far as it fits before their deadlines.
    fn schedule_surplus(&mut self) {
        let slots = self.schedule.len() as u64;
        let (mut used, mut wanted) = (0, 0);
        for row in self.streams() {
            let jobs = (row.life_left * self.interval).min(slots).div_ceil(row.period(self.interval));
            used += row.min() * jobs;
            wanted += row.headroom() * jobs;
        }
        used += self.rows.iter().filter(|row| !row.is_stream()).map(|row| row.remain as u64).sum::<u64>();
        if used >= slots || wanted == 0 {
            return;
        }
        let mut places: Vec<usize> = (0..self.rows.len()).filter(|&i| self.rows[i].is_stream()).collect();
        places.sort_by_key(|&i| self.rows[i].period(self.interval));
        for row in places.into_iter().map(|i| &self.rows[i]) {
            let extra = if slots - used >= wanted {
                row.headroom()
            } else {
                row.headroom() * (slots - used) / wanted
            };
            let (period, end) = (row.period(self.interval), (row.life_left * self.interval).min(slots));
            // A period under way was released before this schedule begins, so line 79 leaves it out.
            let first = if row.offer.kind == 1 || row.is_fresh() { 0 } else { row.deadline * self.interval };
            for release in (first..end).step_by(period as usize) {
                place(&mut self.schedule, row.offer.stream, release, release + period, extra);
            }
        }
    }

    /// The coming interval by earliest deadline, C_op for each period: what is followed while no transfer is held.
    fn by_deadline(&self) -> Vec<u16> {
        let mut slots = vec![0; self.interval as usize];
        place_fractions(&mut slots, &self.rows, |row| row.operational);
        for i in by_deadline(&self.rows) {
            place(&mut slots, self.rows[i].offer.stream, 0, self.interval, self.rows[i].todo);
        }
        slots
    }

    fn coming(&self) -> Vec<u16> {
        let interval = self.interval as usize;
        let at = self.passed * interval;
        if self.schedule.is_empty() { self.by_deadline() } else { self.schedule[at..at + interval].to_vec() }
    }
}

/// Lines 16 to 28: the jobs of fraction streams in one interval, by deadline. Says whether all are met.
fn place_fractions(slots: &mut [u16], rows: &[Row], need: impl Fn(&Row) -> u64) -> bool {
    let mut jobs: Vec<Job> = Vec::new();
    for (row, fraction) in rows.iter().enumerate().filter(|(_, row)| row.offer.kind == 1) {
        let part = fraction.period(slots.len() as u64);
        jobs.extend((0..u64::from(fraction.offer.period)).map(|j| Job {
            row,
            release: j * part,
            due: (j + 1) * part,
            need: need(fraction),
        }));
    }
    jobs.sort_by_key(|job| (job.due, rows[job.row].offer.stream));
    let mut served = true;
    for job in jobs {
        served &= place(slots, rows[job.row].offer.stream, job.release, job.due, job.need) == 0;
    }
    served
}

/// Lines 29 to 41: what whole streams lack, by deadline. Says whether those due at the end of this interval are met.
fn place_wholes(slots: &mut [u16], rows: &mut [Row]) -> bool {
    let mut served = true;
    for i in by_deadline(rows) {
        let row = &mut rows[i];
        let rest = place(slots, row.offer.stream, 0, slots.len() as u64, row.remain.max(0) as u64);
        if row.remain > 0 {
            row.remain = rest as i64;
        }
        served &= rest == 0 || row.deadline > 1;
    }
    served
}

/// The places of the whole streams, earliest deadline first. Open: ties go to the lower stream number.
fn by_deadline(rows: &[Row]) -> Vec<usize> {
    let mut places: Vec<usize> = (0..rows.len()).filter(|&i| rows[i].offer.kind == 2).collect();
    places.sort_by_key(|&i| (rows[i].deadline, rows[i].offer.stream));
    places
}

impl Planner for Eaciar {
    const NAME: &'static str = "EACIAR";

    fn open(units: u32, header: u32) -> Eaciar {
        assert_eq!(header, 0, "the published procedure has no header");
        Eaciar::with_interval(1_024 * u64::from(units))
    }

    /// The checks of names and fields are those of the other planners; then lines 1 to 5 and all that follows.
    fn offer(&mut self, offer: &Offer) -> u32 {
        let held = self.rows.iter().any(|row| row.offer.stream == offer.stream);
        let refusal = if !STREAMS.contains(&offer.stream) {
            Some(Refusal::StreamNumber)
        } else if held {
            Some(Refusal::StreamHeld)
        } else if let Err(refusal) = Request::read(offer, Slots(self.interval)) {
            Some(refusal)
        } else {
            (self.rows.len() >= PLACES).then_some(Refusal::TableFull)
        };
        if let Some(refusal) = refusal {
            return refusal.number();
        }
        let mut with = Eaciar::with_interval(self.interval);
        with.rows = self.rows.clone();
        with.rows.push(Row::accepted(offer));
        if with.is_overloaded() || !with.allocate() {
            return Refusal::NoTime.number();
        }
        *self = with;
        0
    }

    /// A departure starts at line 6. Open: should somebody not be served there, the schedule is followed as far as it came; on the random
    /// days of this tool that has not happened.
    fn withdraw(&mut self, stream: u32) -> u32 {
        let Some(place) = self.rows.iter().position(|row| row.offer.stream == stream) else {
            return Refusal::NotHeld.number();
        };
        self.rows.remove(place);
        self.allocate();
        0
    }

    /// Section III.D. Open: the sections on requests that leave are read as one departure, whatever the number of those that do.
    fn beacon(&mut self, plan: &mut [u32]) -> usize {
        let slots = self.coming();
        self.passed += 1;
        let mut given = vec![0u64; self.rows.len()];
        let count = records::write(&slots, plan, |stream, length| {
            if let Some(place) = self.rows.iter().position(|row| row.offer.stream == stream) {
                given[place] += length;
            }
        });
        let before = self.rows.len();
        let mut given = given.into_iter();
        self.rows.retain_mut(|row| row.pass(given.next().unwrap_or(0)));
        if self.rows.len() < before {
            self.allocate();
        }
        count
    }
}

#[cfg(test)]
mod tests;
