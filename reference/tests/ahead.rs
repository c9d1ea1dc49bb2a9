//! Refusal 17 comes exactly when there is no way to serve everybody, by tests that share nothing with looking
//! ahead: counting over windows of slots, counting over windows of intervals, and a flow on single slots. No
//! slot of a header counts for any of them.

mod common;

use common::{Style, Watch, beacon, can_serve_by_flow, can_serve_by_windows, header_below, random_offer};
use reference::ahead::{fits, fits_stepwise};
use reference::random::Random;
use reference::{Entry, Offer, Slots, Table, answer};

struct Counts {
    yes: u64,
    no: u64,
}

/// Random lists of calls; at each offer `exact` says whether there is a way, and the table has to agree.
fn compare(seed: u64, lists: u64, intervals: &[u64], style: Style, exact: impl Fn(&Watch, &Offer) -> bool) {
    let mut random = Random::new(seed);
    let mut counts = Counts { yes: 0, no: 0 };
    for _ in 0..lists {
        let interval = *random.pick(intervals);
        let header = header_below(&mut random, interval);
        let mut table = Table::with_interval(Slots(interval)).with_header(Slots(header));
        let mut watch = Watch::new(interval, header);
        for _ in 0..random.between(1, 18) {
            match random.between(0, 9) {
                0..=5 => {
                    let offer = random_offer(&mut random, interval, style);
                    if watch.holds(offer.stream) {
                        assert_eq!(answer(&table.offer(&offer)), 11);
                        continue;
                    }
                    let possible = exact(&watch, &offer);
                    let expected = if possible { 0 } else { 17 };
                    assert_eq!(answer(&table.offer(&offer)), expected, "{offer:?} to {table:?}");
                    if possible {
                        watch.accepted(&offer);
                        counts.yes += 1;
                    } else {
                        counts.no += 1;
                    }
                }
                6 => {
                    let stream = random.word(1, style.streams);
                    if table.withdraw(stream).is_ok() {
                        watch.withdrawn(stream);
                    }
                }
                _ => watch.beacon(&beacon(&mut table)),
            }
        }
    }
    assert!(counts.yes > lists / 2 && counts.no > lists / 4, "one-sided: {} and {}", counts.yes, counts.no);
}

#[test]
fn by_flow_on_tiny_intervals() {
    let style = Style { streams: 7, life: 4, thin: 3 };
    compare(201, 20_000, &[1, 2, 3, 4, 6, 8, 12], style, |watch, offer| {
        let needs = watch.needs(offer);
        let by_flow = can_serve_by_flow(&needs, watch.interval, watch.header);
        let by_windows = can_serve_by_windows(&needs, watch.interval, watch.header);
        assert_eq!(by_flow, by_windows, "the exact tests differ on {needs:?}");
        assert_eq!(by_flow, watch.can_serve_by_intervals(offer), "the exact tests differ on {needs:?}");
        by_flow
    });
}

#[test]
fn by_windows_of_slots_on_short_intervals() {
    let style = Style { streams: 9, life: 6, thin: 5 };
    compare(202, 12_000, &[2, 5, 12, 24, 48, 60, 120], style, |watch, offer| {
        can_serve_by_windows(&watch.needs(offer), watch.interval, watch.header)
    });
}

#[test]
fn by_windows_of_intervals_on_real_intervals() {
    let style = Style { streams: 40, life: 40, thin: 6 };
    compare(203, 6_000, &[1_024, 3_072, 15_360, 1_024_000], style, Watch::can_serve_by_intervals);
}

#[test]
fn by_windows_of_intervals_on_longer_lives() {
    let style = Style { streams: 20, life: 400, thin: 8 };
    compare(204, 500, &[1_024, 46_080, 1_024_000], style, Watch::can_serve_by_intervals);
}

/// The largest amount that still fits, found by the counting test alone, is accepted; one more is not.
#[test]
fn to_the_very_slot() {
    let mut random = Random::new(205);
    let mut tried = 0;
    for _ in 0..5_000 {
        let interval = *random.pick(&[12, 60, 1_024, 9_216, 1_024_000]);
        let header = header_below(&mut random, interval);
        let style = Style { streams: 12, life: random.word(1, 12), thin: 6 };
        let mut table = Table::with_interval(Slots(interval)).with_header(Slots(header));
        let mut watch = Watch::new(interval, header);
        for _ in 0..random.between(1, 4) {
            for _ in 0..random.between(1, 5) {
                let offer = random_offer(&mut random, interval, style);
                if table.offer(&offer).is_ok() {
                    watch.accepted(&offer);
                }
            }
            watch.beacon(&beacon(&mut table));
        }
        let mut shape = random_offer(&mut random, interval, style);
        shape.stream = 99;
        let most = match shape.kind {
            1 => (interval / u64::from(shape.period)) as u32,
            2 => (interval * u64::from(shape.period)) as u32,
            _ => u32::MAX,
        };
        shape.max = if shape.kind == 3 { 0 } else { most };
        let with = |min: u32| Offer { min, ..shape };
        // Between a minimum that fits (0 stands for none) and one that does not.
        let (mut low, mut high) = (0u64, u64::from(most) + 1);
        while high - low > 1 {
            let middle = low + (high - low) / 2;
            if watch.can_serve_by_intervals(&with(middle as u32)) {
                low = middle;
            } else {
                high = middle;
            }
        }
        if low >= 1 {
            assert_eq!(answer(&table.clone().offer(&with(low as u32))), 0, "{shape:?} {low} {table:?}");
        }
        if high <= u64::from(most) {
            assert_eq!(answer(&table.clone().offer(&with(high as u32))), 17, "{shape:?} {high} {table:?}");
            tried += 1;
        }
    }
    assert!(tried > 2_500, "too few limits met: {tried}");
}

/// Leaps and single intervals come to the same end, on tables admitted or not.
#[test]
fn leaps_and_single_intervals_agree() {
    let mut random = Random::new(206);
    let (mut yes, mut no) = (0, 0);
    for round in 0..12_000 {
        let interval = *random.pick(&[12, 60, 1_024, 3_072, 1_024_000]);
        let life = if round % 60 == 0 { 65_535 } else { random.word(1, 50) };
        let style = Style { streams: 1_000, life, thin: 12 };
        let most = if random.chance(10) { 32 } else { 7 };
        let held = random.between(1, most);
        let mut entries: Vec<Entry> = (0..held)
            .map(|place| {
                let mut offer = random_offer(&mut random, interval, style);
                offer.stream = place as u32 + 1;
                offer.min = (u64::from(offer.min) / (held / 3).max(1)).max(1) as u32;
                let mut one = Table::with_interval(Slots(interval));
                one.offer(&offer).expect("alone, with a part of what it had, it has to fit");
                for _ in 1..offer.life.min(random.word(1, 5)) {
                    beacon(&mut one);
                }
                one.held()[0]
            })
            .collect();
        random.shuffle(&mut entries);
        let header = Slots(header_below(&mut random, interval));
        let answer = fits(Slots(interval), header, &entries);
        assert_eq!(answer, fits_stepwise(Slots(interval), header, &entries), "{header:?} {entries:?}");
        if answer {
            yes += 1;
        } else {
            no += 1;
        }
    }
    assert!(yes > 500 && no > 500, "one-sided: {yes} and {no}");
}

/// The longest lives and deadlines, at the exact limits.
#[test]
fn longest_lives() {
    let ask = |table: &mut Table, words: [u32; 6]| {
        let [stream, kind, period, min, max, life] = words;
        answer(&table.offer(&Offer { stream, kind, period, min, max, life }))
    };
    let mut table = Table::open(1, 0).unwrap();
    assert_eq!(ask(&mut table, [1, 1, 2, 256, 512, 65_535]), 0);
    assert_eq!(ask(&mut table, [2, 2, 1, 256, 512, 65_535]), 0);
    assert_eq!(ask(&mut table, [3, 2, 255, 128 * 255, 512, 65_535]), 14);
    assert_eq!(ask(&mut table, [3, 2, 255, 128 * 255, 128 * 255, 65_535]), 0);
    assert_eq!(ask(&mut table, [4, 3, 65_535, 128 * 65_535 + 1, 0, 65_535]), 17);
    assert_eq!(ask(&mut table, [4, 3, 65_535, 128 * 65_535, 0, 65_535]), 0);
    assert_eq!(ask(&mut table, [5, 3, 65_535, 1, 0, 65_535]), 17);
    assert_eq!(ask(&mut table, [5, 3, 1, 1, 0, 1]), 17);
    beacon(&mut table);
    assert_eq!(ask(&mut table, [5, 3, 65_535, 1_024, 0, 65_535]), 0);
    let mut table = Table::open(1_000, 0).unwrap();
    assert_eq!(ask(&mut table, [1, 3, 4_194, u32::MAX, 0, 4_194]), 17);
    assert_eq!(ask(&mut table, [1, 3, 4_195, u32::MAX, 0, 4_195]), 0);
    for stream in 2..=15 {
        assert_eq!(ask(&mut table, [stream, 3, 65_535, u32::MAX, 0, 65_535]), 0);
    }
    assert_eq!(ask(&mut table, [16, 3, 65_535, u32::MAX, 0, 65_535]), 17);
    assert_eq!(ask(&mut table, [16, 2, 255, 261_120_000, 261_120_000, 255]), 17);
}
