//! Random days: the same calls to every planner, and what each made of them.

use reference::random::Random;
use reference::{Offer, PLAN_WORDS};

use crate::eaciar::Eaciar;
use crate::ledger::Ledger;
use crate::ledger::common::{Style, random_offer};
#[cfg(feature = "ours")]
use crate::planner::Ours;
use crate::planner::{Planner, Second, SumAlone};
use crate::records::WORDS;

/// A call of a day.
#[derive(Clone, Copy, Debug)]
enum Call {
    Offer(Offer),
    Withdraw(u32),
    Beacon,
}

/// A day's calls.
#[derive(Clone, Debug)]
struct Day {
    units: u32,
    calls: Vec<Call>,
}

/// What days are made of.
#[derive(Clone, Copy, Debug)]
pub struct Mix {
    /// Its name in the table.
    pub name: &'static str,
    /// Few whole streams only, each with one to three quarters of its intervals; else all kinds.
    whole: bool,
    /// Withdrawals and beacons among a hundred calls; the others are offers.
    withdrawals: u64,
    beacons: u64,
}

/// Calls of a day. Lives are short, so that many periods end within it.
const CALLS: usize = 60;

/// The days compared. Case 5 of document 01 is one of the third sort: long periods of much time, and departures in the middle.
pub const MIXES: [Mix; 3] = [
    Mix { name: "all kinds, nobody withdraws", whole: false, withdrawals: 0, beacons: 40 },
    Mix { name: "all kinds, with withdrawals", whole: false, withdrawals: 15, beacons: 30 },
    Mix {
        name: "whole streams that fill the time, with withdrawals",
        whole: true,
        withdrawals: 15,
        beacons: 30,
    },
];

impl Mix {
    fn streams(&self) -> u32 {
        if self.whole { 5 } else { 16 }
    }

    fn offer(&self, random: &mut Random, interval: u64) -> Offer {
        if !self.whole {
            return random_offer(random, interval, Style { streams: self.streams(), life: 6, thin: 4 });
        }
        let period = random.word(1, 4);
        let min = (interval / 4) as u32 * period * random.word(1, 3);
        Offer {
            stream: random.word(1, self.streams()),
            kind: 2,
            period,
            min,
            max: min,
            life: period * random.word(1, 3),
        }
    }

    fn day(&self, random: &mut Random) -> Day {
        let units = *random.pick(&[1, 1, 2, 3]);
        let call = |random: &mut Random| match random.between(0, 99) {
            n if n < self.withdrawals => Call::Withdraw(random.word(1, self.streams())),
            n if n < self.withdrawals + self.beacons => Call::Beacon,
            _ => Call::Offer(self.offer(random, 1_024 * u64::from(units))),
        };
        Day { units, calls: (0..CALLS).map(|_| call(random)).collect() }
    }
}

/// What a planner made of its days.
#[derive(Clone, Copy, Debug, Default, PartialEq, Eq)]
pub struct Counts {
    /// Offers that were decided by time: accepted, or refused with 17.
    pub decided: u64,
    /// Those accepted.
    pub accepted: u64,
    /// Those refused, although an assignment serves them and all that the planner holds.
    pub refused_servable: u64,
    /// Those accepted, although none does.
    pub accepted_unservable: u64,
    /// Periods and transfers that ran to their end.
    pub completed: u64,
    /// Those that had less than their minimum.
    pub short: u64,
    /// Days with one of them.
    pub short_days: u64,
}

impl Counts {
    /// Whether time was refused only where there was none, and given only where there was.
    pub fn is_faultless(&self) -> bool {
        self.refused_servable + self.accepted_unservable + self.short == 0
    }
}

/// A planner on its day. Each planner is held to what it holds itself, since the days part with the first difference.
fn run<P: Planner>(day: &Day, counts: &mut Counts) {
    let mut planner = P::open(day.units, 0);
    let mut ledger = Ledger::new(1_024 * u64::from(day.units));
    let mut plan = vec![0; 4 * PLAN_WORDS];
    for call in &day.calls {
        match call {
            Call::Offer(offer) => {
                if ledger.held() < 32 && !ledger.holds(offer.stream) {
                    decide(&mut planner, &mut ledger, offer, counts);
                }
            }
            Call::Withdraw(stream) => {
                if planner.withdraw(*stream) == 0 {
                    ledger.withdrawn(*stream);
                }
            }
            Call::Beacon => {
                let count = planner.beacon(&mut plan);
                ledger.beacon(&plan[..WORDS * count]);
            }
        }
    }
    counts.completed += ledger.completed;
    counts.short += ledger.short;
    counts.short_days += u64::from(ledger.short > 0);
}

fn decide(planner: &mut impl Planner, ledger: &mut Ledger, offer: &Offer, counts: &mut Counts) {
    let servable = ledger.is_servable(offer);
    let answer = planner.offer(offer);
    assert!(answer == 0 || answer == 17, "{offer:?} answered {answer}");
    let accepted = answer == 0;
    counts.decided += 1;
    counts.accepted += u64::from(accepted);
    counts.refused_servable += u64::from(!accepted && servable);
    counts.accepted_unservable += u64::from(accepted && !servable);
    if accepted {
        ledger.accepted(offer);
    }
}

fn counts_of<P: Planner>(days: &[Day]) -> (&'static str, Counts) {
    let mut counts = Counts::default();
    days.iter().for_each(|day| run::<P>(day, &mut counts));
    (P::NAME, counts)
}

/// The counts of each planner on the same days.
pub fn compare(seed: u64, days: usize, mix: Mix) -> Vec<(&'static str, Counts)> {
    let mut random = Random::new(seed);
    let days: Vec<Day> = (0..days).map(|_| mix.day(&mut random)).collect();
    vec![
        #[cfg(feature = "ours")]
        counts_of::<Ours>(&days),
        counts_of::<Second>(&days),
        counts_of::<Eaciar>(&days),
        counts_of::<SumAlone>(&days),
    ]
}

#[cfg(test)]
mod tests {
    use super::*;

    /// The planner that looks ahead makes neither mistake; the other two show that the test can see both.
    #[test]
    fn mistakes_are_seen() {
        let counts = |name, mix| {
            let found = compare(1, 300, mix).into_iter().find(|(planner, _)| *planner == name);
            found.expect("a planner's name").1
        };
        for mix in MIXES {
            let second = counts("second", mix);
            assert!(second.is_faultless());
            assert!(second.accepted > 1_000 && second.accepted < second.decided);
        }
        assert!(counts("EACIAR", MIXES[0]).refused_servable > 0);
        let sum = counts("sum alone", MIXES[2]);
        assert!(sum.accepted_unservable > 0 && sum.short > 0);
    }
}
