//! Random lists of calls, made on the second implementation and on the proved planner, from Rust and from C: every answer,
//! every record, every word of the memory lent, every held entry and every part of a plan must be the same.

#[path = "../../../reference/tests/common/mod.rs"]
mod common;
mod ways;

use std::collections::BTreeSet;

use common::{Style, random_offer};
use gelmush::{PLAN_WORDS, RECORD_WORDS};
use reference::Offer;
use reference::random::Random;
use ways::{Call, Given, Host, Second, Wrapper};

/// How the proved planner is called.
type Way = fn(&[Call]) -> Vec<Given>;

const WAYS: [(&str, Way); 2] = [("Rust", ways::make_all::<Wrapper>), ("C", ways::program::make_all)];

/// Numbers at the edges of ranges, and any others.
fn wild(random: &mut Random) -> u32 {
    const EDGES: [u32; 14] = [0, 1, 2, 3, 4, 16, 17, 255, 256, 1_024, 65_535, 65_536, u32::MAX - 1, u32::MAX];
    if random.chance(80) { *random.pick(&EDGES) } else { random.word(0, u32::MAX) }
}

/// A list of calls, and what each gave on the second implementation.
#[derive(Default)]
struct List {
    second: Host<Second>,
    calls: Vec<Call>,
    expected: Vec<Given>,
}

impl List {
    fn add(&mut self, call: Call) {
        self.expected.push(self.second.make(&call));
        self.calls.push(call);
    }

    fn of(calls: &[Call]) -> List {
        let mut list = List::default();
        calls.iter().for_each(|call| list.add(call.clone()));
        list
    }

    /// Holds the proved planner to it. Gives the answers that were seen.
    fn compare(&self) -> BTreeSet<u32> {
        for (name, make_all) in WAYS {
            let given = make_all(&self.calls);
            for ((call, given), expected) in self.calls.iter().zip(&given).zip(&self.expected) {
                assert_eq!(given, expected, "from {name}: {call:?}");
            }
            assert_eq!(given.len(), self.calls.len(), "from {name}");
        }
        self.expected.iter().map(|given| given.answer).collect()
    }

    fn random_call(&self, random: &mut Random, style: Style) -> Call {
        match random.between(0, 99) {
            0..=34 => Call::Offer(random_offer(random, self.second.planner.table().interval().0, style)),
            35..=39 => {
                let mut word = || wild(random);
                let (stream, kind, period) = (word(), word(), word());
                Call::Offer(Offer { stream, kind, period, min: word(), max: word(), life: word() })
            }
            40..=46 => Call::Withdraw { stream: random.word(0, style.streams + 1) },
            47 => {
                let units = wild(random) % 1_003;
                Call::Open { units, header: random_header(random, units) }
            }
            48 => {
                let most = PLAN_WORDS as u64 - 1;
                let words = if random.chance(50) { most } else { random.between(0, most) } as usize;
                Call::Beacon { words, seed: random.word(0, u32::MAX) }
            }
            49..=74 => {
                let words = PLAN_WORDS + *random.pick(&[0, 0, 0, 1, 5]);
                Call::Beacon { words, seed: random.word(0, u32::MAX) }
            }
            75..=84 => self.random_window(random),
            85 => Call::Enquire { stream: wild(random) },
            _ => Call::Enquire { stream: random.word(0, style.streams + 1) },
        }
    }

    /// A window over the last plan, whole or damaged.
    fn random_window(&self, random: &mut Random) -> Call {
        let Host { planner, plan, count } = &self.second;
        let mut damage = Vec::new();
        while !plan.is_empty() && damage.len() < 3 && random.chance(25) {
            let last = plan.len().min(RECORD_WORDS * count + 1) as u64 - 1;
            damage.push((random.between(0, last) as usize, wild(random)));
        }
        let count = match random.between(0, 99) {
            0..=7 => wild(random) as usize,
            8..=15 => random.between(0, (plan.len() / RECORD_WORDS) as u64 + 1) as usize,
            // Four times a count past 62 bits is a small number in 64.
            16..=19 => count + (1 << random.between(32, 63)),
            _ => *count,
        };
        let slots = planner.table().interval().0 as u32;
        let mut slot = || if random.chance(20) { wild(random) } else { random.word(0, slots) };
        Call::Window { count, from: slot(), until: slot(), damage }
    }
}

/// None half of the time, else short, long, around the end of the interval, or any number.
fn random_header(random: &mut Random, units: u32) -> u32 {
    let slots = 1_024 * units;
    match random.between(0, 9) {
        0..=4 => 0,
        5 => random.word(0, 64),
        6..=7 => random.word(0, slots),
        8 => (slots + 1).saturating_sub(random.word(0, 3)),
        _ => wild(random),
    }
}

fn random_list(random: &mut Random) -> List {
    let mut list = List::default();
    let units = *random.pick(&[1, 1, 1, 2, 3, 7, 15, 63, 100, 990, 1_000]);
    // The first opening succeeds, so that there is a table.
    let header = random_header(random, units) % (1_024 * units);
    list.add(Call::Open { units, header });
    let (life, thin) = *random.pick(&[(1, 2), (4, 10), (12, 40), (60, 1_000)]);
    let style = Style { streams: random.word(1, 60), life, thin };
    if random.chance(10) {
        // Nearly every place is taken, and hardly any time.
        (101..=131).for_each(|stream| {
            list.add(Call::Offer(Offer { stream, kind: 1, period: 2, min: 1, max: 1, life: 9 }));
        });
    }
    for _ in 0..150 {
        list.add(list.random_call(random, style));
    }
    (0..=style.streams + 1).for_each(|stream| list.add(Call::Enquire { stream }));
    list
}

#[test]
fn random_calls() {
    let mut random = Random::new(701);
    let seen: BTreeSet<u32> = (0..700).flat_map(|_| random_list(&mut random).compare()).collect();
    let every = [0, 1, 10, 11, 12, 13, 14, 15, 16, 17, 20, 30, 40, 41, 42, 61];
    assert_eq!(seen, BTreeSet::from(every));
}

#[test]
fn openings() {
    for units in [0, 1, 2, 999, 1_000, 1_001, 65_536, u32::MAX] {
        for header in [0, 1, 1_023, 1_024, 2_047, 2_048, 1_023_999, 1_024_000, u32::MAX] {
            let seen = List::of(&[Call::Open { units, header }]).compare();
            let answer = match units {
                1..=1_000 if header < 1_024 * units => 0,
                1..=1_000 => 61,
                _ => 1,
            };
            assert_eq!(seen, BTreeSet::from([answer]));
        }
    }
}

#[test]
fn counts_past_32_bits() {
    let offer = Offer { stream: 5, kind: 1, period: 2, min: 100, max: 100, life: 1 };
    let beacon = Call::Beacon { words: PLAN_WORDS, seed: 0 };
    let mut list = List::of(&[Call::Open { units: 1, header: 0 }, Call::Offer(offer), beacon]);
    for (count, answer) in [(2, 0), (1 << 32, 40), ((1 << 32) + 2, 40), ((1 << 62) + 2, 40), (usize::MAX, 40)]
    {
        list.add(Call::Window { count, from: 0, until: 1_024, damage: Vec::new() });
        assert_eq!(list.expected.last().map(|given| given.answer), Some(answer));
    }
    list.compare();
}

#[test]
fn more_words_than_a_plan_and_long_lines() {
    let mut list = List::of(&[Call::Open { units: 1, header: 0 }, Call::Beacon { words: 5_200, seed: 1 }]);
    let damage = (0..1_200).map(|record| (RECORD_WORDS * record + 2, record as u32)).collect();
    list.add(Call::Window { count: 1_200, from: 100, until: 1_024, damage });
    assert_eq!(
        list.expected.last().map(|given| (given.answer, given.words.len())),
        Some((0, RECORD_WORDS * 924))
    );
    list.compare();
}

#[test]
fn from_c_no_call_before_an_opening() {
    let calls = [
        Call::Offer(Offer::default()),
        Call::Withdraw { stream: 1 },
        Call::Enquire { stream: 1 },
        Call::Beacon { words: PLAN_WORDS, seed: 0 },
        Call::Window { count: 0, from: 0, until: 0, damage: Vec::new() },
    ];
    for call in calls {
        let output = ways::program::run(&[Call::Open { units: 0, header: 0 }, call]);
        assert!(!output.status.success());
        assert_eq!(String::from_utf8_lossy(&output.stdout), "1 0 0\n");
        assert_eq!(String::from_utf8_lossy(&output.stderr), "calls: line 2: no table is open\n");
    }
}
