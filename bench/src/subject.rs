//! A planner on a table, ready for each call to be measured: by instructions, or by time.

use std::hint::black_box;
use std::sync::atomic::{AtomicU32, Ordering};
use std::time::{Duration, Instant};

use reference::PLAN_WORDS;

use crate::eaciar::Eaciar;
#[cfg(feature = "ours")]
use crate::planner::Ours;
use crate::planner::{Planner, Second};
use crate::settings::{Call, Peers, Setting};

static MARKS: AtomicU32 = AtomicU32::new(0);

/// Callgrind counts from here.
#[inline(never)]
pub fn counting_begins() {
    MARKS.fetch_add(1, Ordering::Relaxed);
}

/// Callgrind writes its count here. The number differs from the one above, or the compiler would make one function of both.
#[inline(never)]
pub fn counting_ends() {
    MARKS.fetch_add(2, Ordering::Relaxed);
}

/// How a call is measured.
pub enum Meter {
    /// Once, between two marks for callgrind.
    Instructions,
    /// As often as it says, each time on a table of its own.
    Time {
        /// How often.
        copies: usize,
        /// What all of them took.
        spent: Duration,
    },
}

impl Meter {
    /// Makes the call on copies of the state. Copies are made and dropped outside of what is measured.
    fn run<S: Clone, T>(&mut self, state: &S, call: impl Fn(&mut S) -> T) {
        match self {
            Meter::Instructions => {
                let mut state = state.clone();
                counting_begins();
                let result = black_box(call(black_box(&mut state)));
                counting_ends();
                drop(result);
            }
            Meter::Time { copies, spent } => {
                let mut states = vec![state.clone(); *copies];
                let start = Instant::now();
                for state in &mut states {
                    black_box(call(black_box(state)));
                }
                *spent = start.elapsed();
            }
        }
    }
}

/// Something that can be measured on its setting.
pub trait Subject {
    /// The planner's name.
    fn name(&self) -> &'static str;
    /// Whether the planner has the call.
    fn has(&self, call: Call) -> bool;
    /// Measures a call.
    fn measure(&self, call: Call, meter: &mut Meter);
}

struct Prepared<P> {
    setting: Setting,
    /// Before and after the setting's offer.
    before: P,
    after: P,
    /// The plan of the interval after it.
    plan: Vec<u32>,
    count: usize,
}

impl<P: Planner> Prepared<P> {
    fn new(setting: &Setting) -> Prepared<P> {
        let mut before = P::open(setting.units, setting.header);
        let accept = |planner: &mut P, offer| assert_eq!(planner.offer(offer), 0, "{offer:?} to {}", P::NAME);
        setting.held.iter().for_each(|offer| accept(&mut before, offer));
        let mut after = before.clone();
        // An offer can be dear to make, and need not be made where it is all that is measured.
        if setting.calls.iter().any(|&call| call != Call::Offer) {
            accept(&mut after, &setting.offered);
        }
        let mut plan = vec![0; PLAN_WORDS];
        let count = after.clone().beacon(&mut plan);
        Prepared { setting: setting.clone(), before, after, plan, count }
    }
}

impl<P: Planner> Subject for Prepared<P> {
    fn name(&self) -> &'static str {
        P::NAME
    }

    fn has(&self, call: Call) -> bool {
        P::READS || call.is_published()
    }

    fn measure(&self, call: Call, meter: &mut Meter) {
        let Setting { units, header, held, offered, .. } = &self.setting;
        let first = held.first().unwrap_or(offered).stream;
        let quarter = 256 * units;
        match call {
            Call::Open => meter.run(&(), |()| P::open(black_box(*units), black_box(*header))),
            Call::Offer => meter.run(&self.before, |planner| planner.offer(black_box(offered))),
            Call::Withdraw => meter.run(&self.after, |planner| planner.withdraw(black_box(first))),
            Call::Enquire => meter.run(&self.after, |planner| planner.enquire(black_box(offered.stream))),
            Call::Beacon => {
                let state = (self.after.clone(), self.plan.clone());
                meter.run(&state, |(planner, plan)| planner.beacon(plan));
            }
            Call::Window => {
                let plan = &self.plan[..];
                meter.run(&(), |()| P::window(black_box(plan), black_box(self.count), quarter, 3 * quarter));
            }
        }
    }
}

/// The planners on a setting: ours first.
pub fn subjects(setting: &Setting) -> Vec<Box<dyn Subject>> {
    let mut all: Vec<Box<dyn Subject>> = Vec::new();
    #[cfg(feature = "ours")]
    all.push(Box::new(Prepared::<Ours>::new(setting)));
    if setting.peers != Peers::Nobody {
        all.push(Box::new(Prepared::<Second>::new(setting)));
    }
    if setting.peers == Peers::Both {
        all.push(Box::new(Prepared::<Eaciar>::new(setting)));
    }
    all
}

/// Measures nothing: what the marks themselves cost.
pub fn measure_nothing() {
    Meter::Instructions.run(&(), |()| ());
}
