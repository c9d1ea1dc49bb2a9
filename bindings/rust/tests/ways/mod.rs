//! Calls, what they give, and the ways to make them: on the second implementation, through the wrapper, and from C.

pub mod program;
mod second;
mod wrapper;

pub use second::Second;
pub use wrapper::Wrapper;

use gelmush::RECORD_WORDS;
use reference::Offer;

/// A call with its numbers. A beacon lends so many words, filled from the seed; a window is over the words of the last
/// beacon, with other words at some places.
#[derive(Clone, Debug)]
pub enum Call {
    Open { units: u32, header: u32 },
    Offer(Offer),
    Withdraw { stream: u32 },
    Enquire { stream: u32 },
    Beacon { words: usize, seed: u32 },
    Window { count: usize, from: u32, until: u32, damage: Vec<(usize, u32)> },
}

/// What a call gave.
#[derive(Debug, Default, PartialEq, Eq)]
pub struct Given {
    pub answer: u32,
    /// Words that changed, and that the call is to leave as they were.
    pub changed: usize,
    /// The records of a beacon, or where the part of a window begins.
    pub number: usize,
    /// The words of the records, of the part, or of the entry.
    pub words: Vec<u32>,
}

/// An entry in the order of the header's fields.
pub type EntryFields = [u32; 11];

/// A planner in this process. No call but an opening comes before one that answers 0.
pub trait Planner {
    fn open(&mut self, units: u32, header: u32) -> u32;
    fn offer(&mut self, offer: &Offer) -> u32;
    fn withdraw(&mut self, stream: u32) -> u32;
    fn enquire(&self, stream: u32) -> (u32, EntryFields);
    fn beacon(&mut self, plan: &mut [u32]) -> (u32, usize);
    fn window<'a>(&self, plan: &'a [u32], count: usize, from: u32, until: u32) -> (u32, &'a [u32]);
}

/// A planner and the memory of its last beacon.
#[derive(Default)]
pub struct Host<P> {
    pub planner: P,
    /// The words that were lent.
    pub plan: Vec<u32>,
    /// The records in them.
    pub count: usize,
}

impl<P: Planner> Host<P> {
    pub fn make(&mut self, call: &Call) -> Given {
        let answered = |answer| Given { answer, ..Given::default() };
        match call {
            Call::Open { units, header } => answered(self.planner.open(*units, *header)),
            Call::Offer(offer) => answered(self.planner.offer(offer)),
            Call::Withdraw { stream } => answered(self.planner.withdraw(*stream)),
            Call::Enquire { stream } => {
                let (answer, fields) = self.planner.enquire(*stream);
                Given { words: fields.to_vec(), ..answered(answer) }
            }
            Call::Beacon { words, seed } => self.beacon(*words, *seed),
            Call::Window { count, from, until, damage } => self.window(*count, *from, *until, damage),
        }
    }

    fn beacon(&mut self, words: usize, seed: u32) -> Given {
        // There is room for a record more than is lent.
        let found: Vec<u32> = (0..).map(|place| filled(seed, place)).take(words + RECORD_WORDS).collect();
        let mut memory = found.clone();
        let (answer, count) = self.planner.beacon(&mut memory[..words]);
        let written = RECORD_WORDS * count;
        let changed = differing(&memory[written..], &found[written..]);
        memory.truncate(words);
        (self.plan, self.count) = (memory, count);
        Given { answer, changed, number: count, words: self.plan[..written].to_vec() }
    }

    fn window(&mut self, count: usize, from: u32, until: u32, damage: &[(usize, u32)]) -> Given {
        let mut found = self.plan.clone();
        damage.iter().for_each(|&(place, word)| found[place] = word);
        let plan = found.clone();
        let (answer, part) = self.planner.window(&plan, count, from, until);
        let first = (part.as_ptr().addr() - plan.as_ptr().addr()) / size_of::<u32>();
        // Of a refused window no more is promised than an empty part.
        let number = if answer == 0 { first } else { 0 };
        Given { answer, changed: differing(&plan, &found), number, words: part.to_vec() }
    }
}

fn differing(some: &[u32], others: &[u32]) -> usize {
    some.iter().zip(others).filter(|(one, other)| one != other).count()
}

/// What lies at a place of the memory that a beacon is lent, as `bindings/c/calls.c` fills it.
fn filled(seed: u32, place: u32) -> u32 {
    seed.wrapping_add(place.wrapping_mul(2_654_435_769))
}

/// Makes a list of calls, one after the other.
pub fn make_all<P: Planner + Default>(calls: &[Call]) -> Vec<Given> {
    let mut host = Host::<P>::default();
    calls.iter().map(|call| host.make(call)).collect()
}
