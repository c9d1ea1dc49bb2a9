//! The refusals and their numbers.

/// Why a call was not carried out.
#[derive(Clone, Copy, Debug, PartialEq, Eq, Hash)]
pub enum Refusal {
    /// Opening: the time units are outside their range.
    TimeUnits,
    /// Opening: the header is not shorter than the interval.
    Header,
    /// Offer: the stream number is outside its range.
    StreamNumber,
    /// Offer: the stream number is in use.
    StreamHeld,
    /// Offer: there is no such kind.
    Kind,
    /// Offer: the period is outside the range of its kind.
    Period,
    /// Offer: the minimum or the maximum is outside the range of its kind.
    Amounts,
    /// Offer: the life is outside the range of its kind.
    Life,
    /// Offer: every place is taken.
    TableFull,
    /// Offer: looking ahead finds an interval that does not work out.
    NoTime,
    /// Withdrawal or enquiry: nobody holds that stream number.
    NotHeld,
    /// Beacon: the memory lent for the plan is too short.
    PlanMemory,
    /// Window: more records are claimed than words were lent.
    WindowCount,
    /// Window: its beginning lies after its end.
    WindowBounds,
    /// Window: a record does not start after the one before it.
    WindowStarts,
    /// Program: the row has another form than any call.
    RowForm,
    /// Program: there is no table yet.
    NotOpen,
}

impl Refusal {
    /// The number that stands for this refusal.
    pub const fn number(self) -> u32 {
        match self {
            Refusal::TimeUnits => 1,
            Refusal::StreamNumber => 10,
            Refusal::StreamHeld => 11,
            Refusal::Kind => 12,
            Refusal::Period => 13,
            Refusal::Amounts => 14,
            Refusal::Life => 15,
            Refusal::TableFull => 16,
            Refusal::NoTime => 17,
            Refusal::NotHeld => 20,
            Refusal::PlanMemory => 30,
            Refusal::WindowCount => 40,
            Refusal::WindowBounds => 41,
            Refusal::WindowStarts => 42,
            Refusal::RowForm => 50,
            Refusal::NotOpen => 51,
            Refusal::Header => 61,
        }
    }
}

/// The number a call answers with: 0 when it was carried out, else that of its refusal.
pub fn answer<T>(outcome: &Result<T, Refusal>) -> u32 {
    match outcome {
        Ok(_) => 0,
        Err(refusal) => refusal.number(),
    }
}
