//! The planners that are compared, under one set of calls.

use reference::refusal::Refusal;
use reference::request::{Entry, Offer, Request};
use reference::steps::{self, Division};
use reference::{Slots, Table, answer, plan};

/// The planners' calls. Answers are document 01's numbers.
pub trait Planner: Clone {
    /// Its name in tables.
    const NAME: &'static str;
    /// Whether it answers enquiries and cuts windows.
    const READS: bool = false;
    /// Opens a table; time units and header are in range.
    fn open(units: u32, header: u32) -> Self;
    /// Offers a request.
    fn offer(&mut self, offer: &Offer) -> u32;
    /// Ends an admission.
    fn withdraw(&mut self, stream: u32) -> u32;
    /// Writes the plan of the coming interval; gives the number of records.
    fn beacon(&mut self, plan: &mut [u32]) -> usize;
    /// Life left of a held stream, 0 if it is not held.
    fn enquire(&self, _stream: u32) -> u32 {
        0
    }
    /// Words of a part of a plan.
    fn window(_plan: &[u32], _count: usize, _from: u32, _until: u32) -> usize {
        0
    }
}

/// The second implementation.
#[derive(Clone)]
pub struct Second(Table);

impl Planner for Second {
    const NAME: &'static str = "second";
    const READS: bool = true;

    fn open(units: u32, header: u32) -> Second {
        Second(Table::open(units, header).expect("time units and header in range"))
    }

    fn offer(&mut self, offer: &Offer) -> u32 {
        answer(&self.0.offer(offer))
    }

    fn withdraw(&mut self, stream: u32) -> u32 {
        answer(&self.0.withdraw(stream))
    }

    fn beacon(&mut self, plan: &mut [u32]) -> usize {
        self.0.beacon(plan).count
    }

    fn enquire(&self, stream: u32) -> u32 {
        // The whole entry has to be there, not only the word that is read.
        std::hint::black_box(self.0.enquire(stream)).entry.life_left
    }

    fn window(plan: &[u32], count: usize, from: u32, until: u32) -> usize {
        let mut answered = 0;
        reference::window(plan, count as u32, from, until, &mut answered).len()
    }
}

/// The proved planner, through its safe wrapper.
#[cfg(feature = "ours")]
#[derive(Clone)]
pub struct Ours(gelmush::Shelf);

#[cfg(feature = "ours")]
fn number<T>(outcome: Result<T, gelmush::Refused>) -> u32 {
    outcome.err().map_or(0, |refused| refused.0)
}

#[cfg(feature = "ours")]
impl Planner for Ours {
    const NAME: &'static str = "ours";
    const READS: bool = true;

    fn open(units: u32, header: u32) -> Ours {
        Ours(gelmush::Shelf::open(units, header).expect("time units and header in range"))
    }

    fn offer(&mut self, offer: &Offer) -> u32 {
        let Offer { stream, kind, period, min, max, life } = *offer;
        number(self.0.offer(&gelmush::Offer { stream, kind, period, min, max, life }))
    }

    fn withdraw(&mut self, stream: u32) -> u32 {
        number(self.0.withdraw(stream))
    }

    fn beacon(&mut self, plan: &mut [u32]) -> usize {
        self.0.beacon(plan).unwrap_or(0)
    }

    fn enquire(&self, stream: u32) -> u32 {
        std::hint::black_box(self.0.enquire(stream)).map_or(0, |entry| entry.life_left)
    }

    fn window(plan: &[u32], count: usize, from: u32, until: u32) -> usize {
        gelmush::window(plan, count, from, until).map_or(0, <[u32]>::len)
    }
}

/// Admission by the sum of utilizations alone, transfers counted as if they came again and again; service by steps A to F.
#[derive(Clone)]
pub struct SumAlone {
    interval: Slots,
    held: Vec<Entry>,
}

impl SumAlone {
    fn is_overloaded(&self) -> bool {
        let slots = self.interval.0 as f64;
        let used = |offer: Offer| {
            let per_interval = f64::from(offer.min) / slots;
            let periods = f64::from(offer.period);
            if offer.kind == 1 { per_interval * periods } else { per_interval / periods }
        };
        self.held.iter().map(|entry| used(entry.request.to_offer())).sum::<f64>() > 1.0 + 1e-9
    }
}

impl Planner for SumAlone {
    const NAME: &'static str = "sum alone";

    fn open(units: u32, header: u32) -> SumAlone {
        assert_eq!(header, 0, "the sum of utilizations knows no header");
        SumAlone { interval: Slots(1_024 * u64::from(units)), held: Vec::new() }
    }

    /// Only fields in range are offered to it, and never to a full table.
    fn offer(&mut self, offer: &Offer) -> u32 {
        if self.held.iter().any(|entry| entry.request.stream == offer.stream) {
            return Refusal::StreamHeld.number();
        }
        match Request::read(offer, self.interval) {
            Err(refusal) => return refusal.number(),
            Ok(request) => self.held.push(Entry::accepted(request)),
        }
        if self.is_overloaded() {
            self.held.pop();
            return Refusal::NoTime.number();
        }
        0
    }

    fn withdraw(&mut self, stream: u32) -> u32 {
        let before = self.held.len();
        self.held.retain(|entry| entry.request.stream != stream);
        if self.held.len() < before { 0 } else { Refusal::NotHeld.number() }
    }

    fn beacon(&mut self, plan: &mut [u32]) -> usize {
        let division =
            Division::of(self.interval, Slots(0), &self.held).expect("the sum leaves kind 1 its minimum");
        let records = plan::by_events(self.interval, Slots(0), &division.jobs(self.interval, &self.held));
        for (words, record) in plan.chunks_exact_mut(4).zip(&records) {
            words.copy_from_slice(&record.to_words());
        }
        steps::count_down(&mut self.held, &division.shares);
        steps::turn_over(&mut self.held);
        records.len()
    }
}
