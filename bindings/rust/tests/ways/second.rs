//! The second implementation.

use reference::{EntryWords, Offer, Refusal, Table, answer};

use super::{EntryFields, Planner};

#[derive(Default)]
pub struct Second(Option<Table>);

impl Second {
    pub fn table(&self) -> &Table {
        self.0.as_ref().expect("a table was opened")
    }

    fn table_mut(&mut self) -> &mut Table {
        self.0.as_mut().expect("a table was opened")
    }
}

/// The header has a field for each meaning of an offer's period.
fn fields(entry: &EntryWords) -> EntryFields {
    let EntryWords { offer: Offer { stream, kind, period, min, max, life }, life_left, owed, given, left } =
        *entry;
    let (parts, period) = if kind == 1 { (period, 0) } else { (0, period) };
    [stream, kind, parts, period, min, max, life, life_left, owed, given, left]
}

impl Planner for Second {
    fn open(&mut self, units: u32, header: u32) -> u32 {
        let opened = Table::open(units, header);
        let number = answer(&opened);
        self.0 = opened.ok().or(self.0.take());
        number
    }

    fn offer(&mut self, offer: &Offer) -> u32 {
        answer(&self.table_mut().offer(offer))
    }

    fn withdraw(&mut self, stream: u32) -> u32 {
        answer(&self.table_mut().withdraw(stream))
    }

    fn enquire(&self, stream: u32) -> (u32, EntryFields) {
        let found = self.table().enquire(stream);
        (found.answer, fields(&found.entry))
    }

    fn beacon(&mut self, plan: &mut [u32]) -> (u32, usize) {
        let sent = self.table_mut().beacon(plan);
        (sent.answer, sent.count)
    }

    fn window<'a>(&self, plan: &'a [u32], count: usize, from: u32, until: u32) -> (u32, &'a [u32]) {
        // It counts in 32 bits; as many records as that are in no plan.
        let Ok(count) = u32::try_from(count) else { return (Refusal::WindowCount.number(), &plan[..0]) };
        let mut number = u32::MAX;
        let part = reference::window(plan, count, from, until, &mut number);
        (number, part)
    }
}
