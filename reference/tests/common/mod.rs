//! Shared by the tests: a watcher that knows only calls, answers and plans, and exact tests of whether a set
//! of demands can be met at all. Nothing here uses the planner's own arithmetic, but for
//! [`fits_but_for_the_test`], which is to say why the planner refuses.

#![allow(dead_code)]

use reference::random::Random;
use reference::steps::{Share, capacity, count_down, serve, turn_over};
use reference::{Entry, Intervals, Offer, PLAN_WORDS, Record, Slots, Table};

/// An admission as the list of calls shows it.
#[derive(Clone, Debug)]
pub struct Admission {
    pub offer: Offer,
    /// Intervals of the admission so far.
    pub seen: u64,
    /// Slots had in the period under way (kinds 2 and 3).
    pub had: u64,
}

/// Something that has to get so many of the coming slots from `release` up to just before `due`.
#[derive(Clone, Copy, Debug)]
pub struct Need {
    pub release: u64,
    pub due: u64,
    pub amount: u64,
}

/// Follows a list of calls from the outside and checks every completed period.
#[derive(Clone, Debug)]
pub struct Watch {
    pub interval: u64,
    pub header: u64,
    pub admissions: Vec<Admission>,
    pub completed: u64,
}

impl Watch {
    pub fn new(interval: u64, header: u64) -> Self {
        Watch { interval, header, admissions: Vec::new(), completed: 0 }
    }

    pub fn accepted(&mut self, offer: &Offer) {
        assert!(!self.holds(offer.stream), "a held stream was accepted again");
        assert!(self.admissions.len() < 32, "more than 32 held");
        self.admissions.push(Admission { offer: *offer, seen: 0, had: 0 });
    }

    pub fn holds(&self, stream: u32) -> bool {
        self.admissions.iter().any(|admission| admission.offer.stream == stream)
    }

    pub fn withdrawn(&mut self, stream: u32) {
        assert!(self.holds(stream));
        self.admissions.retain(|admission| admission.offer.stream != stream);
    }

    /// One interval has passed with this plan.
    pub fn beacon(&mut self, records: &[Record]) {
        self.check_shape(records);
        let interval = self.interval;
        for Admission { offer, seen, had } in &mut self.admissions {
            let (min, max) = (u64::from(offer.min), u64::from(offer.max));
            let period = u64::from(offer.period);
            let mine = records.iter().filter(|record| record.stream == offer.stream);
            *seen += 1;
            if offer.kind == 1 {
                let part = interval / period;
                for j in 0..period {
                    let slots: u64 = mine.clone().map(|r| overlap(r, j * part, (j + 1) * part)).sum();
                    assert!(min <= slots && slots <= max, "period {j} of {offer:?} got {slots}");
                    self.completed += 1;
                }
                continue;
            }
            *had += mine.map(|record| record.length.0).sum::<u64>();
            let most = if offer.kind == 2 { max } else { min };
            assert!(*had <= most, "{offer:?} got {had}");
            if *seen % period == 0 {
                assert!(*had >= min, "{offer:?} got {had}");
                self.completed += 1;
                *had = 0;
            }
        }
        self.admissions.retain(|admission| admission.seen < u64::from(admission.offer.life));
    }

    /// Records rise, do not overlap, are as long as can be, stay in the interval and out of its header, and
    /// belong to held requests.
    fn check_shape(&self, records: &[Record]) {
        assert!(records.len() <= 1_024);
        let mut before: Option<Record> = None;
        for &record in records {
            assert!(record.length.0 >= 1);
            assert!(record.start.0 >= self.header, "a record in the header");
            assert!(record.start.0 + record.length.0 <= self.interval);
            let admission = self.admissions.iter().find(|a| a.offer.stream == record.stream);
            let offer = admission.expect("a record for a stream that is not held").offer;
            if offer.kind == 1 {
                let part = self.interval / u64::from(offer.period);
                let job = u64::from(record.job);
                assert!(job < u64::from(offer.period));
                assert!(record.start.0 >= job * part && record.start.0 + record.length.0 <= (job + 1) * part);
            } else {
                assert_eq!(record.job, 0);
            }
            if let Some(before) = before {
                let end = before.start.0 + before.length.0;
                assert!(end <= record.start.0, "overlap");
                let same_job = before.stream == record.stream && before.job == record.job;
                assert!(!(same_job && end == record.start.0), "one run in two records");
            }
            before = Some(record);
        }
    }

    /// Everything still to be given, slot by slot, with the offered request counted as accepted.
    pub fn needs(&self, offered: &Offer) -> Vec<Need> {
        let b = self.interval;
        let mut needs = Vec::new();
        for Admission { offer, seen, had } in self.with(offered) {
            let coming = u64::from(offer.life) - seen;
            let (period, min) = (u64::from(offer.period), u64::from(offer.min));
            if offer.kind == 1 {
                needs.extend(parts_of(&offer, b, coming));
            } else {
                needs.extend(whole_periods(coming, period, seen, min, had).into_iter().map(|need| Need {
                    release: need.release * b,
                    due: need.due * b,
                    amount: need.amount,
                }));
            }
        }
        needs
    }

    fn with(&self, offered: &Offer) -> Vec<Admission> {
        let mut all = self.admissions.clone();
        all.push(Admission { offer: *offered, seen: 0, had: 0 });
        all
    }

    /// Whether all needs can be met, by counting over every window of whole intervals. Kind 1 is taken off the
    /// capacity of each interval of its life, and has to find room in the interval by itself.
    pub fn can_serve_by_intervals(&self, offered: &Offer) -> bool {
        let all = self.with(offered);
        let coming = |a: &Admission| u64::from(a.offer.life) - a.seen;
        let horizon = all.iter().map(coming).max().unwrap_or(0) as usize;
        // before[i] is the capacity of the first i intervals.
        let mut before = vec![0i128; horizon + 1];
        for i in 0..horizon {
            let taken: i128 = all
                .iter()
                .filter(|a| a.offer.kind == 1 && coming(a) > i as u64)
                .map(|a| i128::from(a.offer.period) * i128::from(a.offer.min))
                .sum();
            let capacity = i128::from(self.interval - self.header) - taken;
            if capacity < 0 {
                return false;
            }
            // Kind 1 requests only leave: where nobody did, the interval is like the one before.
            let leaves = |a: &Admission| a.offer.kind == 1 && coming(a) == i as u64;
            if i > 0 && !all.iter().any(leaves) {
                before[i + 1] = before[i] + capacity;
                continue;
            }
            let fractions = all.iter().filter(|a| a.offer.kind == 1 && coming(a) > i as u64);
            let mut jobs: Vec<Need> = fractions.flat_map(|a| parts_of(&a.offer, self.interval, 1)).collect();
            if !windows_have_room(&mut jobs, |from, until| {
                free_slots(self.interval, self.header, from, until)
            }) {
                return false;
            }
            before[i + 1] = before[i] + capacity;
        }
        let mut needs: Vec<Need> = all
            .iter()
            .filter(|a| a.offer.kind != 1)
            .flat_map(|a| {
                whole_periods(coming(a), u64::from(a.offer.period), a.seen, u64::from(a.offer.min), a.had)
            })
            .collect();
        windows_have_room(&mut needs, |from, until| before[until as usize] - before[from as usize])
    }
}

/// The periods of a kind 1 request in so many coming intervals, in slots from now on.
fn parts_of(offer: &Offer, interval: u64, coming: u64) -> Vec<Need> {
    let (period, amount) = (u64::from(offer.period), u64::from(offer.min));
    let part = interval / period;
    let need = |release| Need { release, due: release + part, amount };
    (0..coming * period).map(|place| need(place * part)).collect()
}

/// The slots from `from` up to just before `until` that lie in no header.
fn free_slots(interval: u64, header: u64, from: u64, until: u64) -> i128 {
    // Up to a slot: the headers of the intervals before its own, and what lies of its own before it.
    let headers = |slot: u64| i128::from(slot / interval * header + header.min(slot % interval));
    i128::from(until) - i128::from(from) - (headers(until) - headers(from))
}

/// The coming periods of a kind 2 or 3 request, in intervals from now on.
fn whole_periods(coming: u64, period: u64, seen: u64, min: u64, had: u64) -> Vec<Need> {
    let mut needs = Vec::new();
    let mut release = 0;
    let mut due = period - seen % period;
    let mut amount = min.saturating_sub(had);
    while due <= coming {
        needs.push(Need { release, due, amount });
        (release, due, amount) = (due, due + period, min);
    }
    needs
}

fn overlap(record: &Record, from: u64, until: u64) -> u64 {
    let start = record.start.0.max(from);
    (record.start.0 + record.length.0).min(until).saturating_sub(start)
}

/// For every window from a release to a due time: what lies wholly inside must not exceed its room.
fn windows_have_room(needs: &mut [Need], room: impl Fn(u64, u64) -> i128) -> bool {
    needs.sort_by_key(|need| need.due);
    let mut releases: Vec<u64> = needs.iter().map(|need| need.release).collect();
    releases.sort_unstable();
    releases.dedup();
    releases.into_iter().all(|from| {
        let mut inside = 0i128;
        needs.iter().filter(|need| need.release >= from).all(|need| {
            inside += i128::from(need.amount);
            inside <= room(from, need.due)
        })
    })
}

/// Whether all needs can be met on single slots outside the headers, by counting over every window.
pub fn can_serve_by_windows(needs: &[Need], interval: u64, header: u64) -> bool {
    windows_have_room(&mut needs.to_vec(), |from, until| free_slots(interval, header, from, until))
}

/// Whether all needs can be met on single slots outside the headers, by looking for a maximum flow: each need
/// sends its amount, one at a time, along a path to a free slot, pushing others aside where that helps.
pub fn can_serve_by_flow(needs: &[Need], interval: u64, header: u64) -> bool {
    let in_header = |slot: usize| (slot as u64) % interval < header;
    let slots = needs.iter().map(|need| need.due).max().unwrap_or(0) as usize;
    if needs.iter().map(|need| u128::from(need.amount)).sum::<u128>() > slots as u128 {
        return false;
    }
    let mut owner: Vec<Option<usize>> = vec![None; slots];
    for (i, need) in needs.iter().enumerate() {
        for _ in 0..need.amount {
            if !push(needs, &mut owner, &in_header, i) {
                return false;
            }
        }
    }
    true
}

/// Breadth-first search for a path from a need over slots and their owners to a slot nobody has.
fn push(
    needs: &[Need],
    owner: &mut [Option<usize>],
    in_header: &impl Fn(usize) -> bool,
    from: usize,
) -> bool {
    // Which need came to a slot, and through which of its own slots a need was found.
    let mut taker: Vec<Option<usize>> = vec![None; owner.len()];
    let mut through: Vec<Option<usize>> = vec![None; needs.len()];
    let mut queue = std::collections::VecDeque::from([from]);
    while let Some(need) = queue.pop_front() {
        for slot in needs[need].release as usize..needs[need].due as usize {
            if taker[slot].is_some() || in_header(slot) {
                continue;
            }
            taker[slot] = Some(need);
            match owner[slot] {
                Some(other) if other == from || through[other].is_some() => {}
                Some(other) => {
                    through[other] = Some(slot);
                    queue.push_back(other);
                }
                None => {
                    // Walk back: each need on the path takes a slot and leaves the one it was found through.
                    let mut free = slot;
                    while let Some(need) = taker[free] {
                        owner[free] = Some(need);
                        match through[need] {
                            Some(left) => free = left,
                            None => return true,
                        }
                    }
                }
            }
        }
    }
    false
}

/// Runs a beacon and gives its records.
pub fn beacon(table: &mut Table) -> Vec<Record> {
    let mut memory = vec![0xdead_beef; PLAN_WORDS + 5];
    let answer = table.beacon(&mut memory);
    assert_eq!(answer.answer, 0);
    assert!(memory[4 * answer.count..].iter().all(|&word| word == 0xdead_beef), "wrote past the records");
    records(&memory, answer.count)
}

/// The records in plan memory.
pub fn records(memory: &[u32], count: usize) -> Vec<Record> {
    memory[..4 * count].chunks(4).map(|w| Record::from_words([w[0], w[1], w[2], w[3]])).collect()
}

/// A header for intervals of so many slots: none, short or of any length that leaves a slot.
pub fn header_below(random: &mut Random, interval: u64) -> u64 {
    match random.between(0, 9) {
        0..=3 => 0,
        4..=6 => random.between(0, interval / 16),
        7..=8 => random.between(0, interval / 3),
        _ => random.between(0, interval - 1),
    }
}

/// How large and how long random requests are.
#[derive(Clone, Copy, Debug)]
pub struct Style {
    pub streams: u32,
    pub life: u32,
    pub thin: u64,
}

/// A random request with all fields in range, for a table with these intervals.
pub fn random_offer(random: &mut Random, interval: u64, style: Style) -> Offer {
    let stream = random.word(1, style.streams);
    let thin = random.between(1, style.thin);
    let amount = |random: &mut Random, most: u64| random.between(1, (most / thin).max(1)) as u32;
    let parts: Vec<u32> =
        (2..=16).filter(|&m| interval.is_multiple_of(u64::from(m)) && interval >= u64::from(m)).collect();
    match random.between(if parts.is_empty() { 2 } else { 1 }, 3) {
        1 => {
            let m = *random.pick(&parts);
            let most = interval / u64::from(m);
            let min = amount(random, most);
            let max = if random.chance(20) { min } else { random.word(min, most as u32) };
            Offer { stream, kind: 1, period: m, min, max, life: random.word(1, style.life) }
        }
        2 => {
            let period = random.word(1, style.life.min(255));
            let most = interval * u64::from(period);
            let min = amount(random, most);
            let max = if random.chance(20) { min } else { random.word(min, most as u32) };
            let life = period * random.word(1, style.life / period);
            Offer { stream, kind: 2, period, min, max, life }
        }
        _ => {
            let deadline = random.word(1, style.life);
            let min = amount(random, interval * u64::from(deadline));
            Offer { stream, kind: 3, period: deadline, min, max: 0, life: deadline }
        }
    }
}

/// Looking ahead with the planner's own steps A, B and F, but without the header test.
pub fn fits_but_for_the_test(interval: Slots, header: Slots, entries: &[Entry]) -> bool {
    let mut entries = entries.to_vec();
    while !entries.is_empty() {
        let Some(capacity) = capacity(interval, header, &entries) else { return false };
        let mut shares = vec![Share::default(); entries.len()];
        serve(&entries, capacity, &mut shares);
        count_down(&mut entries, &shares);
        let missed = |e: &Entry| e.turn().is_some() && e.left == Intervals::NONE && e.owed > Slots::NONE;
        if entries.iter().any(missed) {
            return false;
        }
        turn_over(&mut entries);
    }
    true
}

/// The fewest slots that the kind 1 jobs due by an end of a period leave between the header and that end,
/// with minimums. Nothing where no kind 1 request is held.
pub fn least_room(table: &Table) -> Option<i128> {
    let held: Vec<Offer> = table.held().iter().map(|entry| entry.request.to_offer()).collect();
    let fractions: Vec<&Offer> = held.iter().filter(|offer| offer.kind == 1).collect();
    let (b, h) = (i128::from(table.interval().0), i128::from(table.header().0));
    let ends = fractions.iter().flat_map(|o| {
        let m = i128::from(o.period);
        (1..=m).map(move |k| k * b / m)
    });
    ends.map(|t| {
        let due: i128 = fractions.iter().map(|o| t * i128::from(o.period) / b * i128::from(o.min)).sum();
        t - h - due
    })
    .min()
}
