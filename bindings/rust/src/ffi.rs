//! The exported functions, as `bindings/c/gelmush.h` declares them.

/// As many requests as a table has places for.
const PLACES: usize = 32;

/// Words that only the calls read and write: the slots of an interval, and an entry for each place.
#[derive(Clone)]
#[repr(C)]
pub struct Table {
    words: [u32; Table::WORDS],
}

impl Table {
    const WORDS: usize = 2 + PLACES * (size_of::<Entry>() / size_of::<u32>());

    /// No table yet: opening writes every word.
    pub const ZERO: Table = Table { words: [0; Table::WORDS] };
}

/// A held request, every field of it. The period field of its offer is `parts` for kind 1 and `period` for the others;
/// the one not meant is 0.
#[derive(Clone, Copy, Debug, PartialEq, Eq, Hash)]
#[repr(C)]
pub struct Entry {
    /// The stream number.
    pub stream: u32,
    /// 1, 2 or 3.
    pub kind: u32,
    /// Periods in an interval, for kind 1.
    pub parts: u32,
    /// Intervals in a period, or up to the deadline.
    pub period: u32,
    /// Slots that each period is to have.
    pub min: u32,
    /// Slots that each period may have.
    pub max: u32,
    /// Intervals of the admission.
    pub life: u32,
    /// Those still to come.
    pub life_left: u32,
    /// Slots still to give for the minimum.
    pub owed: u32,
    /// Slots given in this period.
    pub given: u32,
    /// Intervals left to the deadline.
    pub left: u32,
}

#[repr(C)]
pub struct Found {
    pub answer: u32,
    pub entry: Entry,
}

#[repr(C)]
pub struct Sent {
    pub answer: u32,
    pub count: usize,
}

#[repr(C)]
pub struct Place {
    pub first: usize,
    pub words: usize,
}

unsafe extern "C" {
    pub fn gelmush_open(table: *mut Table, units: u32, header: u32) -> u32;
    pub fn gelmush_offer(
        table: *mut Table,
        stream: u32,
        kind: u32,
        period: u32,
        min: u32,
        max: u32,
        life: u32,
    ) -> u32;
    pub fn gelmush_withdraw(table: *mut Table, stream: u32) -> u32;
    pub fn gelmush_enquire(table: *const Table, stream: u32) -> Found;
    pub fn gelmush_beacon(table: *mut Table, plan: *mut u32, words: usize) -> Sent;
    pub fn gelmush_window(
        plan: *const u32,
        words: usize,
        count: usize,
        from: u32,
        until: u32,
        answer: *mut u32,
    ) -> Place;
}
