//! Along random lists of calls, every completed period has between its minimum and its maximum, and every
//! transfer that reaches its deadline has just its amount. No plan gives a slot of the header.

mod common;

use common::{Style, Watch, beacon, header_below, random_offer};
use reference::random::Random;
use reference::{Offer, Slots, Table, answer};

/// Arguments that make no sense at all, mixed in.
fn wild_offer(random: &mut Random) -> Offer {
    const WILD: [u32; 12] = [0, 1, 2, 3, 4, 16, 17, 255, 256, 65_535, 65_536, u32::MAX];
    let mut word = || if random.chance(80) { *random.pick(&WILD) } else { random.word(0, u32::MAX) };
    Offer { stream: word(), kind: word(), period: word(), min: word(), max: word(), life: word() }
}

fn history(random: &mut Random, mut table: Table, calls: u64, style: Style) -> u64 {
    let interval = table.interval().0;
    let mut watch = Watch::new(interval, table.header().0);
    for _ in 0..calls {
        match random.between(0, 99) {
            0..=39 => {
                let offer = if random.chance(10) {
                    wild_offer(random)
                } else {
                    random_offer(random, interval, style)
                };
                let before = table.clone();
                let number = answer(&table.offer(&offer));
                if number == 0 {
                    watch.accepted(&offer);
                } else {
                    assert_eq!(table, before);
                    assert!((10..=17).contains(&number));
                    assert_eq!(number == 11, watch.holds(offer.stream), "{offer:?}");
                    assert!(number != 16 || watch.admissions.len() == 32);
                }
            }
            40..=47 => {
                let stream = random.word(0, style.streams + 1);
                let held = watch.holds(stream);
                assert_eq!(answer(&table.withdraw(stream)), if held { 0 } else { 20 });
                if held {
                    watch.withdrawn(stream);
                }
            }
            48 => {
                let before = table.clone();
                assert_eq!(table.beacon(&mut vec![0; random.between(0, 4_095) as usize]).answer, 30);
                assert_eq!(table, before);
            }
            _ => watch.beacon(&beacon(&mut table)),
        }
        assert_eq!(table.held().len(), watch.admissions.len());
        for admission in &watch.admissions {
            let found = table.enquire(admission.offer.stream);
            assert_eq!((found.answer, found.entry.offer), (0, admission.offer));
            assert_eq!(u64::from(found.entry.life_left) + admission.seen, u64::from(admission.offer.life));
            if admission.offer.kind == 1 {
                assert_eq!((found.entry.owed, found.entry.given, found.entry.left), (0, 0, 0));
            } else {
                assert_eq!(u64::from(found.entry.given), admission.had);
                let rest = u64::from(admission.offer.min).saturating_sub(admission.had);
                assert_eq!(u64::from(found.entry.owed), rest);
            }
        }
    }
    watch.completed
}

#[test]
fn short_intervals() {
    let mut random = Random::new(301);
    let mut completed = 0;
    for _ in 0..4_000 {
        let interval = random.between(1, 240);
        let style =
            Style { streams: random.word(1, 40), life: random.word(1, 9), thin: random.between(1, 30) };
        let header = header_below(&mut random, interval);
        let table = Table::with_interval(Slots(interval)).with_header(Slots(header));
        completed += history(&mut random, table, 120, style);
    }
    assert!(completed > 100_000, "{completed}");
}

#[test]
fn real_intervals() {
    let mut random = Random::new(302);
    let mut completed = 0;
    for _ in 0..1_500 {
        let time_units = *random.pick(&[1, 1, 2, 3, 7, 15, 63, 100, 990, 1_000]);
        let style =
            Style { streams: random.word(1, 40), life: random.word(1, 12), thin: *random.pick(&[2, 10, 40]) };
        let header = header_below(&mut random, 1_024 * u64::from(time_units)) as u32;
        completed += history(&mut random, Table::open(time_units, header).unwrap(), 150, style);
    }
    assert!(completed > 50_000, "{completed}");
}

#[test]
fn long_periods() {
    let mut random = Random::new(303);
    for _ in 0..12 {
        let style = Style { streams: 15, life: 300, thin: 8 };
        let header = random.word(0, 100);
        history(&mut random, Table::open(1, header).unwrap(), 2_000, style);
    }
}
