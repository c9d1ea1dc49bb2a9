//! The proved planner through the wrapper.

use gelmush::{Entry, Refused, Shelf};
use reference::Offer;

use super::{EntryFields, Planner};

#[derive(Default)]
pub struct Wrapper(Option<Shelf>);

impl Wrapper {
    fn shelf(&mut self) -> &mut Shelf {
        self.0.as_mut().expect("a table was opened")
    }
}

fn number<T>(outcome: &Result<T, Refused>) -> u32 {
    outcome.as_ref().err().map_or(0, |refused| refused.0)
}

fn fields(entry: &Entry) -> EntryFields {
    let Entry { stream, kind, parts, period, min, max, life, life_left, owed, given, left } = *entry;
    [stream, kind, parts, period, min, max, life, life_left, owed, given, left]
}

impl Planner for Wrapper {
    fn open(&mut self, units: u32, header: u32) -> u32 {
        let opened = match &mut self.0 {
            Some(shelf) => shelf.reopen(units, header),
            None => Shelf::open(units, header).map(|shelf| self.0 = Some(shelf)),
        };
        number(&opened)
    }

    fn offer(&mut self, offer: &Offer) -> u32 {
        let Offer { stream, kind, period, min, max, life } = *offer;
        number(&self.shelf().offer(&gelmush::Offer { stream, kind, period, min, max, life }))
    }

    fn withdraw(&mut self, stream: u32) -> u32 {
        number(&self.shelf().withdraw(stream))
    }

    fn enquire(&self, stream: u32) -> (u32, EntryFields) {
        let found = self.0.as_ref().expect("a table was opened").enquire(stream);
        (number(&found), found.map_or([0; _], |entry| fields(&entry)))
    }

    fn beacon(&mut self, plan: &mut [u32]) -> (u32, usize) {
        let sent = self.shelf().beacon(plan);
        (number(&sent), sent.unwrap_or(0))
    }

    fn window<'a>(&self, plan: &'a [u32], count: usize, from: u32, until: u32) -> (u32, &'a [u32]) {
        let part = gelmush::window(plan, count, from, until);
        (number(&part), part.unwrap_or(&plan[..0]))
    }
}
