//! Ratios of time, from rounds in which the planners take turns: what slows the machine slows all of them.

use std::time::Duration;

use crate::settings::{Call, Setting};
use crate::subject::{Meter, Subject, subjects};

const ROUNDS: usize = 41;

/// Calls of a planner that take long enough to be timed together.
fn copies(subject: &dyn Subject, call: Call) -> usize {
    const ENOUGH: Duration = Duration::from_micros(300);
    let once = time(subject, call, 1).max(Duration::from_nanos(20));
    (ENOUGH.as_nanos() / once.as_nanos()).clamp(1, 2_000) as usize
}

fn time(subject: &dyn Subject, call: Call, copies: usize) -> Duration {
    let mut meter = Meter::Time { copies, spent: Duration::ZERO };
    subject.measure(call, &mut meter);
    match meter {
        Meter::Time { spent, .. } => spent,
        Meter::Instructions => Duration::ZERO,
    }
}

/// The first planner's time as a part of each planner's: the median over rounds.
pub fn ratios(setting: &Setting, call: Call) -> Vec<(&'static str, f64)> {
    let subjects: Vec<_> = subjects(setting).into_iter().filter(|subject| subject.has(call)).collect();
    let copies: Vec<usize> = subjects.iter().map(|subject| copies(&**subject, call)).collect();
    let mut rounds: Vec<Vec<f64>> = vec![Vec::new(); subjects.len()];
    for _ in 0..ROUNDS {
        let each = |i: usize| time(&*subjects[i], call, copies[i]).as_secs_f64() / copies[i] as f64;
        let times: Vec<f64> = (0..subjects.len()).map(each).collect();
        rounds.iter_mut().zip(&times).for_each(|(round, time)| round.push(times[0] / time));
    }
    subjects.iter().map(|subject| subject.name()).zip(rounds.iter_mut().map(|round| median(round))).collect()
}

fn median(values: &mut [f64]) -> f64 {
    values.sort_by(f64::total_cmp);
    values[values.len() / 2]
}

#[cfg(test)]
mod tests {
    use super::*;
    use crate::settings;

    /// The first planner to itself is 1, and every planner that has the call is there.
    #[test]
    fn planners_take_turns() {
        let setting = &settings::of("calls")[0];
        let offer = ratios(setting, Call::Offer);
        assert_eq!(offer[0].1, 1.0);
        assert!(offer.iter().any(|ratio| ratio.0 == "EACIAR" && ratio.1 > 0.0));
        assert!(ratios(setting, Call::Window).iter().all(|ratio| ratio.0 != "EACIAR"));
    }

    #[test]
    fn medians() {
        assert_eq!(median(&mut [3.0, 1.0, 2.0]), 2.0);
    }
}
