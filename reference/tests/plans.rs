//! The two ways to a plan agree, and the shares follow the rules. Every second table or so has a header.

mod common;

use std::collections::BTreeMap;

use common::{Style, beacon, header_below, random_offer};
use reference::plan::{Job, by_events, slot_by_slot};
use reference::random::Random;
use reference::{EntryWords, Record, Slots, Table};

/// Fills a table with random requests and runs it for a while; `check` sees it before each beacon.
fn random_run(
    random: &mut Random,
    mut table: Table,
    beacons: u64,
    style: Style,
    mut check: impl FnMut(&Table),
) {
    let interval = table.interval().0;
    for _ in 0..beacons {
        for _ in 0..random.between(0, u64::from(style.streams)) {
            let offer = random_offer(random, interval, style);
            let _ = table.offer(&offer);
        }
        if random.chance(20) {
            let _ = table.withdraw(random.word(1, style.streams));
        }
        check(&table);
        let expected = table.plan_by_events();
        assert_eq!(beacon(&mut table), expected);
    }
}

#[test]
fn same_plan_on_short_intervals() {
    let mut random = Random::new(101);
    let mut plans = 0;
    for _ in 0..6_000 {
        let interval = random.between(1, 96);
        let style = Style {
            streams: random.word(1, 12),
            life: random.word(1, 6),
            thin: *random.pick(&[1, 3, 10, 40]),
        };
        let header = header_below(&mut random, interval);
        let table = Table::with_interval(Slots(interval)).with_header(Slots(header));
        random_run(&mut random, table, 4, style, |table| {
            assert_eq!(table.plan_by_events(), table.plan_slot_by_slot(), "{table:?}");
            plans += 1;
        });
    }
    assert_eq!(plans, 24_000);
}

#[test]
fn same_plan_on_intervals_that_divide_well() {
    let mut random = Random::new(102);
    for _ in 0..400 {
        let interval = *random.pick(&[240, 420, 720, 840]);
        let style = Style { streams: 36, life: random.word(1, 5), thin: *random.pick(&[5, 30, 100]) };
        let header = header_below(&mut random, interval);
        let table = Table::with_interval(Slots(interval)).with_header(Slots(header));
        random_run(&mut random, table, 3, style, |table| {
            assert_eq!(table.plan_by_events(), table.plan_slot_by_slot(), "{table:?}");
        });
    }
}

#[test]
fn same_plan_on_real_intervals() {
    let mut random = Random::new(103);
    for _ in 0..60 {
        let time_units = *random.pick(&[1, 1, 1, 2, 3, 5, 9, 15]);
        let style = Style { streams: 36, life: random.word(1, 5), thin: *random.pick(&[5, 30, 100]) };
        let header = header_below(&mut random, 1_024 * u64::from(time_units)) as u32;
        random_run(&mut random, Table::open(time_units, header).unwrap(), 2, style, |table| {
            assert_eq!(table.plan_by_events(), table.plan_slot_by_slot(), "{table:?}");
        });
    }
    let style = Style { streams: 20, life: 4, thin: 20 };
    random_run(&mut random, Table::open(945, 4_321).unwrap(), 1, style, |table| {
        assert_eq!(table.plan_by_events(), table.plan_slot_by_slot(), "{table:?}");
    });
}

/// Jobs that no table would make: too much work, late releases, no work at all.
#[test]
fn same_plan_for_any_jobs() {
    let mut random = Random::new(104);
    for _ in 0..20_000 {
        let interval = Slots(random.between(0, 40));
        let header = Slots(if random.chance(50) { 0 } else { random.between(0, 45) });
        let jobs: Vec<Job> = (0..random.between(0, 9))
            .map(|place| Job {
                stream: random.word(1, 3),
                number: random.word(0, 2),
                release: Slots(random.between(0, 45)),
                due: Slots(random.between(0, 45)),
                need: Slots(random.between(0, 15)),
                rank: place as usize,
            })
            .collect();
        assert_eq!(
            by_events(interval, header, &jobs),
            slot_by_slot(interval, header, &jobs),
            "{header:?} {jobs:?}"
        );
    }
}

/// What an entry gets in the coming interval, worked out once more from what enquiries show.
struct PlainShare {
    entry: EntryWords,
    base: i128,
    extra: i128,
    /// Whether the extra was cut short because there was not enough for all.
    cut: bool,
    /// Whether the extra is none because kind 1 was left out.
    left_out: bool,
}

/// Whether the kind 1 jobs due by each end of a period have room there behind the header. `extra` is that of
/// the entry at a place.
fn plainly_has_room(table: &Table, entries: &[EntryWords], extra: impl Fn(usize) -> i128) -> bool {
    let (b, h) = (i128::from(table.interval().0), i128::from(table.header().0));
    // By end, what is due there.
    let mut due = BTreeMap::new();
    for (place, entry) in entries.iter().enumerate().filter(|(_, e)| e.offer.kind == 1) {
        let m = i128::from(entry.offer.period);
        for k in 1..=m {
            *due.entry(k * b / m).or_insert(0) += i128::from(entry.offer.min) + extra(place);
        }
    }
    let mut so_far = 0;
    due.into_iter().all(|(t, needs)| {
        so_far += needs;
        so_far <= t - h
    })
}

/// Steps A to C with wide numbers and plain sums. Kind 1 comes first, by stream; then the others by turn.
fn plain_shares(table: &Table, streams: u32) -> Vec<PlainShare> {
    let wide = i128::from;
    let found = (1..=streams).map(|stream| table.enquire(stream)).filter(|found| found.answer == 0);
    let mut entries: Vec<EntryWords> = found.map(|found| found.entry).collect();
    assert_eq!(entries.len(), table.held().len());
    entries.sort_by_key(|e| (e.offer.kind != 1, e.left, e.offer.kind, e.offer.stream));
    let times = |e: &EntryWords| if e.offer.kind == 1 { wide(e.offer.period) } else { 1 };
    let fixed = entries.iter().filter(|e| e.offer.kind == 1).map(|e| times(e) * wide(e.offer.min));
    let mut left = i128::from(table.interval().0) - i128::from(table.header().0) - fixed.sum::<i128>();
    assert!(left >= 0);
    let mut base = vec![0; entries.len()];
    for (place, entry) in entries.iter().enumerate().filter(|(_, e)| e.offer.kind != 1) {
        base[place] = wide(entry.owed).min(left);
        left -= base[place];
    }
    let room = |place: usize| {
        let entry = &entries[place];
        match entry.offer.kind {
            1 => wide(entry.offer.max) - wide(entry.offer.min),
            2 => wide(entry.offer.max) - wide(entry.given) - base[place],
            _ => 0,
        }
    };
    let share_over = |kinds: std::ops::RangeInclusive<u32>| -> Vec<(i128, bool)> {
        let rooms: Vec<i128> = (0..entries.len())
            .map(|place| if kinds.contains(&entries[place].offer.kind) { room(place) } else { 0 })
            .collect();
        assert!(rooms.iter().all(|&room| room >= 0));
        let wanted: i128 = rooms.iter().zip(&entries).map(|(room, entry)| times(entry) * room).sum();
        let share = |&room: &i128| match left {
            0 => (0, false),
            _ if left >= wanted => (room, false),
            _ => (room * left / wanted, room * left / wanted > 0),
        };
        rooms.iter().map(share).collect()
    };
    let mut shares = share_over(1..=2);
    let left_out = !plainly_has_room(table, &entries, |place| shares[place].0);
    if left_out {
        shares = share_over(2..=2);
    }
    let plain = |((entry, base), (extra, cut)): ((EntryWords, i128), (i128, bool))| PlainShare {
        entry,
        base,
        extra,
        cut,
        left_out: left_out && entry.offer.kind == 1,
    };
    entries.into_iter().zip(base).zip(shares).map(plain).collect()
}

/// Every stream's slots in the plan are just its share.
#[test]
fn shares_follow_the_rules() {
    let mut random = Random::new(105);
    let (mut cut, mut left_out, mut cut_alone) = (0, 0, 0);
    for _ in 0..5_000 {
        let time_units = *random.pick(&[1, 2, 3, 45, 500, 1_000]);
        let style = Style { streams: 14, life: random.word(1, 7), thin: *random.pick(&[4, 12, 40]) };
        let header = header_below(&mut random, 1_024 * u64::from(time_units)) as u32;
        random_run(&mut random, Table::open(time_units, header).unwrap(), 5, style, |table| {
            let plan = table.plan_by_events();
            let shares = plain_shares(table, 14);
            let alone = shares.iter().any(|share| share.left_out);
            assert_eq!(table.division().fractions_left_out, alone);
            assert!(header > 0 || !alone, "left out without a header");
            left_out += usize::from(alone);
            for share in shares {
                cut += usize::from(share.cut);
                cut_alone += usize::from(share.cut && alone);
                let offer = share.entry.offer;
                let expected = match offer.kind {
                    1 => i128::from(offer.period) * (i128::from(offer.min) + share.extra),
                    _ => share.base + share.extra,
                };
                let slots = plan.iter().filter(|record| record.stream == offer.stream);
                assert_eq!(slots.map(|record| i128::from(record.length.0)).sum::<i128>(), expected);
            }
        });
    }
    assert!(cut > 1_000, "too few shortened extras: {cut}");
    assert!(left_out > 300, "too few sharings over kind 2 only: {left_out}");
    assert!(cut_alone > 100, "too few shortened extras in them: {cut_alone}");
}

/// The whole plan once more from what enquiries show: for each slot, the first in a sorted list that may and
/// wants to have it.
fn plain_plan(table: &Table, streams: u32) -> Vec<Record> {
    let (b, h) = (i128::from(table.interval().0), i128::from(table.header().0));
    // (due, place among equals, release, still needed, stream, job)
    let mut jobs = Vec::new();
    for (place, share) in plain_shares(table, streams).iter().enumerate() {
        let offer = share.entry.offer;
        if offer.kind == 1 {
            let m = i128::from(offer.period);
            for job in 0..m {
                let need = i128::from(offer.min) + share.extra;
                jobs.push(((job + 1) * b / m, place, job * b / m, need, offer.stream, job as u32));
            }
        } else {
            jobs.push((b, place, 0, share.base + share.extra, offer.stream, 0));
        }
    }
    jobs.sort();
    let mut slots = Vec::new();
    for slot in 0..b {
        let next = jobs.iter_mut().find(|job| h <= slot && job.2 <= slot && job.3 > 0);
        slots.push(next.map(|job| {
            job.3 -= 1;
            (job.4, job.5)
        }));
    }
    assert!(jobs.iter().all(|job| job.3 == 0), "work left over");
    let mut records = Vec::new();
    let mut start = 0;
    for run in slots.chunk_by(|one, other| one == other) {
        if let Some((stream, job)) = run[0] {
            records.push(Record { stream, job, start: Slots(start), length: Slots(run.len() as u64) });
        }
        start += run.len() as u64;
    }
    records
}

#[test]
fn plans_follow_the_rules() {
    let mut random = Random::new(106);
    for _ in 0..3_000 {
        let interval = *random.pick(&[1, 6, 12, 30, 48, 60, 120, 240]);
        let style =
            Style { streams: random.word(1, 36), life: random.word(1, 6), thin: *random.pick(&[3, 12, 40]) };
        let header = header_below(&mut random, interval);
        let table = Table::with_interval(Slots(interval)).with_header(Slots(header));
        random_run(&mut random, table, 4, style, |table| {
            assert_eq!(table.plan_by_events(), plain_plan(table, 36), "{table:?}");
        });
    }
    for _ in 0..100 {
        let time_units = *random.pick(&[1, 3, 9]);
        let style = Style { streams: 36, life: random.word(1, 6), thin: 60 };
        let header = header_below(&mut random, 1_024 * u64::from(time_units)) as u32;
        random_run(&mut random, Table::open(time_units, header).unwrap(), 3, style, |table| {
            assert_eq!(table.plan_by_events(), plain_plan(table, 36), "{table:?}");
        });
    }
}

/// A plan with as many jobs as there can be stays within its memory.
#[test]
fn the_largest_plans() {
    for time_units in [1, 9, 45, 945] {
        let mut table = Table::open(time_units, 0).unwrap();
        let parts: Vec<u32> =
            (9..=16).filter(|&m| table.interval().0.is_multiple_of(u64::from(m))).rev().collect();
        for stream in 1..=32 {
            let m = parts[stream as usize % parts.len()];
            let most = table.interval().0 as u32 / m;
            table
                .offer(&reference::Offer { stream, kind: 1, period: m, min: 1, max: most, life: 2 })
                .unwrap();
        }
        let plan = beacon(&mut table);
        assert!(plan.len() >= 9 * 32 && plan.len() <= 1_024, "{}", plan.len());
    }
}
