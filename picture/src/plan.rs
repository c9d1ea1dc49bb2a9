//! One beacon's plan: its records checked, and put into a lane for each stream.

use std::collections::BTreeMap;
use std::ops::RangeInclusive;

use crate::answers::Record;
use crate::requests::{MOST_HELD, PARTS, Request, Table};
use crate::rows::fault;

/// The slots of a time unit.
pub const SLOTS_IN_UNIT: u64 = 1_024;
/// The time units of an interval.
pub const UNITS: RangeInclusive<u64> = 1..=1_000;

const LONGEST_INTERVAL: u64 = *UNITS.end() * SLOTS_IN_UNIT;
const STREAMS: RangeInclusive<u64> = 1..=65_535;

/// What is known of the interval besides the plan's records.
pub enum Known {
    /// Nothing.
    Nothing,
    /// Its length in slots.
    Length(u64),
    /// Its length and the held requests.
    Table(Table),
}

/// A stream's line in the picture.
pub struct Lane {
    /// The stream.
    pub stream: u64,
    /// Its request, if the calls are known.
    pub request: Option<Request>,
    /// Its records, by start.
    pub records: Vec<Record>,
}

impl Lane {
    /// The least and the most slots that a running period has had, this interval included. Kind 1 has several periods in an interval, the
    /// others one; where the calls are not known, nothing is.
    pub fn had(&self) -> Option<[u64; 2]> {
        let request = self.request.as_ref()?;
        let slots_of =
            |job| self.records.iter().filter(|record| record.job == job).map(|record| record.length).sum();
        let slots: Vec<u64> = (0..request.kind.jobs()).map(slots_of).collect();
        Some([slots.iter().min()?, slots.iter().max()?].map(|slots| request.had + slots))
    }
}

/// A run of slots that no record has.
#[derive(Debug, PartialEq, Eq)]
pub struct Idle {
    /// The first slot.
    pub start: u64,
    /// The slot after the last one.
    pub end: u64,
}

/// A plan that can be drawn.
pub struct Plan {
    /// Which accepted beacon gave it, from 1.
    pub beacon: usize,
    /// The interval's length in slots, if known.
    pub interval: Option<u64>,
    /// The slot at which the picture ends: that of the interval, or else of the last record.
    pub end: u64,
    /// Whether the lanes have their requests.
    pub has_requests: bool,
    /// The lanes, by stream.
    pub lanes: Vec<Lane>,
    /// The idle runs, by start.
    pub idle: Vec<Idle>,
}

impl Plan {
    /// The plan of a beacon's records, if they could be one.
    pub fn new(beacon: usize, records: &[Record], known: Known) -> Result<Plan, String> {
        let (interval, held) = match known {
            Known::Nothing => (None, None),
            Known::Length(interval) => (Some(interval), None),
            Known::Table(table) => (Some(table.interval), Some(table.held)),
        };
        check_order(records)?;
        check_inside(records, interval)?;
        let end = interval.or(records.last().map(Record::end)).ok_or_else(|| {
            format!("beacon {beacon} has an empty plan: its picture needs --calls, --units or --interval")
        })?;
        let has_requests = held.is_some();
        let lanes = lanes(records, held)?;
        Ok(Plan { beacon, interval, end, has_requests, lanes, idle: idle_runs(records, end) })
    }

    /// The number of records.
    pub fn records(&self) -> usize {
        self.lanes.iter().map(|lane| lane.records.len()).sum()
    }

    /// The number of idle slots.
    pub fn idle_slots(&self) -> u64 {
        self.idle.iter().map(|run| run.end - run.start).sum()
    }
}

/// The message about a record.
fn wrong<T>(record: &Record, what: String) -> Result<T, String> {
    Err(fault("answers", record.row, what))
}

/// Records come by start, and no slot is given twice.
fn check_order(records: &[Record]) -> Result<(), String> {
    for pair in records.windows(2) {
        let (before, record) = (&pair[0], &pair[1]);
        if record.start < before.start {
            return wrong(
                record,
                format!("starts at {}, before the record of row {}", record.start, before.row),
            );
        }
        if record.start < before.end() {
            return wrong(
                record,
                format!("slot {} is also in the record of row {}", record.start, before.row),
            );
        }
    }
    Ok(())
}

/// Records have slots, all of them in the interval.
fn check_inside(records: &[Record], interval: Option<u64>) -> Result<(), String> {
    let limit = interval.unwrap_or(LONGEST_INTERVAL);
    for record in records {
        if record.length == 0 {
            return wrong(record, "a record of no slots".to_string());
        }
        if record.end() > limit {
            return wrong(record, format!("ends at {}, outside the interval of {limit} slots", record.end()));
        }
    }
    Ok(())
}

/// A lane for each held stream or, where the calls are not known, for each stream with a record.
fn lanes(records: &[Record], held: Option<BTreeMap<u64, Request>>) -> Result<Vec<Lane>, String> {
    let mut lanes = BTreeMap::new();
    let only_held = held.is_some();
    for (stream, request) in held.unwrap_or_default() {
        lanes.insert(stream, Lane { stream, request: Some(request), records: Vec::new() });
    }
    for record in records {
        let stream = record.stream;
        if !only_held && STREAMS.contains(&stream) {
            lanes.entry(stream).or_insert(Lane { stream, request: None, records: Vec::new() });
        }
        let Some(lane) = lanes.get_mut(&stream) else {
            return wrong(record, no_lane(stream, only_held));
        };
        let jobs = lane.request.as_ref().map_or(*PARTS.end(), |request| request.kind.jobs());
        if record.job >= jobs {
            return wrong(
                record,
                format!("job {} of a stream with at most {jobs} in an interval", record.job),
            );
        }
        lane.records.push(record.clone());
        if lanes.len() > MOST_HELD {
            return wrong(record, format!("more than {MOST_HELD} streams in one plan"));
        }
    }
    Ok(lanes.into_values().collect())
}

/// Why a record's stream has no lane.
fn no_lane(stream: u64, only_held: bool) -> String {
    match only_held {
        true => format!("stream {stream} is not held by the calls"),
        false => format!("stream {stream} is not in {} to {}", STREAMS.start(), STREAMS.end()),
    }
}

/// The runs of slots between records that are in order.
fn idle_runs(records: &[Record], end: u64) -> Vec<Idle> {
    let mut idle = Vec::new();
    let mut given = 0;
    for record in records {
        if record.start > given {
            idle.push(Idle { start: given, end: record.start });
        }
        given = record.end();
    }
    if end > given {
        idle.push(Idle { start: given, end });
    }
    idle
}

#[cfg(test)]
mod tests {
    use super::*;

    /// Records of stream, job, start and length, in rows from 7 on.
    fn records(numbers: &[[u64; 4]]) -> Vec<Record> {
        let record = |(i, &[stream, job, start, length]): (usize, &[u64; 4])| Record {
            row: i + 7,
            stream,
            job,
            start,
            length,
        };
        numbers.iter().enumerate().map(record).collect()
    }

    fn refused(numbers: &[[u64; 4]], known: Known, message: &str) {
        let plan = Plan::new(1, &records(numbers), known);
        assert_eq!(plan.err(), Some(format!("answers, row {message}")));
    }

    fn table() -> Known {
        let request = |fields| Request::admitted(fields, 1_024).unwrap();
        let mut whole = request([2, 3, 1, 9, 3]);
        whole.pass(7);
        let held =
            BTreeMap::from([(4, request([3, 2, 90, 0, 2])), (5, request([1, 2, 1, 9, 1])), (7, whole)]);
        Known::Table(Table { interval: 1_024, held })
    }

    #[test]
    fn each_stream_has_a_lane() {
        let plan =
            Plan::new(1, &records(&[[9, 0, 0, 10], [5, 0, 10, 5], [9, 0, 15, 1]]), Known::Nothing).unwrap();
        let lanes: Vec<(u64, usize)> =
            plan.lanes.iter().map(|lane| (lane.stream, lane.records.len())).collect();
        assert_eq!(lanes, [(5, 1), (9, 2)]);
        assert_eq!((plan.end, plan.interval, plan.records()), (16, None, 3));
    }

    #[test]
    fn a_held_stream_without_a_record_has_a_lane() {
        let plan = Plan::new(1, &records(&[[5, 1, 512, 3]]), table()).unwrap();
        let lanes: Vec<(u64, usize)> =
            plan.lanes.iter().map(|lane| (lane.stream, lane.records.len())).collect();
        assert_eq!(lanes, [(4, 0), (5, 1), (7, 0)]);
    }

    #[test]
    fn a_period_has_had_its_slots_of_this_interval_too() {
        let had = |numbers: &[[u64; 4]], known| -> Vec<Option<[u64; 2]>> {
            Plan::new(1, &records(numbers), known).unwrap().lanes.iter().map(Lane::had).collect()
        };
        assert_eq!(had(&[], table()), [Some([0, 0]), Some([0, 0]), Some([7, 7])]);
        let plan =
            [[5, 0, 0, 3], [4, 0, 3, 50], [5, 0, 53, 1], [7, 0, 60, 2], [5, 1, 512, 3], [4, 0, 515, 1]];
        assert_eq!(had(&plan, table()), [Some([51, 51]), Some([3, 4]), Some([9, 9])]);
        assert_eq!(had(&[[5, 0, 0, 3]], Known::Length(1_024)), [None]);
    }

    #[test]
    fn idle_runs_are_what_the_records_leave() {
        let idle = |numbers: &[[u64; 4]], known| Plan::new(1, &records(numbers), known).unwrap().idle;
        assert_eq!(
            idle(&[[5, 0, 2, 3], [5, 0, 5, 1], [5, 0, 8, 1]], Known::Nothing),
            [Idle { start: 0, end: 2 }, Idle { start: 6, end: 8 }]
        );
        assert_eq!(idle(&[[5, 0, 0, 1_000]], Known::Length(1_024)), [Idle { start: 1_000, end: 1_024 }]);
        assert_eq!(idle(&[[5, 0, 0, 1_024]], Known::Length(1_024)), []);
        assert_eq!(Plan::new(1, &[], table()).unwrap().idle_slots(), 1_024);
    }

    #[test]
    fn records_out_of_order_are_refused() {
        refused(
            &[[5, 0, 10, 10], [6, 0, 19, 5]],
            Known::Nothing,
            "8: slot 19 is also in the record of row 7",
        );
        refused(
            &[[5, 0, 10, 10], [6, 0, 10, 5]],
            Known::Nothing,
            "8: slot 10 is also in the record of row 7",
        );
        refused(
            &[[5, 0, 10, 10], [6, 0, 2, 5]],
            Known::Nothing,
            "8: starts at 2, before the record of row 7",
        );
    }

    #[test]
    fn records_outside_the_interval_are_refused() {
        let outside = "7: ends at 1025, outside the interval of 1024 slots";
        refused(&[[5, 0, 1_000, 25]], Known::Length(1_024), outside);
        refused(&[[5, 0, 1_000, 25]], table(), outside);
        let most = u64::from(u32::MAX);
        let far = "7: ends at 8589934590, outside the interval of 1024000 slots";
        refused(&[[5, 0, most, most]], Known::Nothing, far);
        refused(&[[5, 0, 3, 0]], Known::Nothing, "7: a record of no slots");
    }

    #[test]
    fn records_of_no_request_are_refused() {
        refused(&[[0, 0, 0, 1]], Known::Nothing, "7: stream 0 is not in 1 to 65535");
        refused(&[[5, 16, 0, 1]], Known::Nothing, "7: job 16 of a stream with at most 16 in an interval");
        refused(&[[6, 0, 0, 1]], table(), "7: stream 6 is not held by the calls");
        refused(&[[5, 2, 0, 1]], table(), "7: job 2 of a stream with at most 2 in an interval");
        refused(&[[4, 1, 0, 1]], table(), "7: job 1 of a stream with at most 1 in an interval");
        let many: Vec<[u64; 4]> = (1..=33).map(|stream| [stream, 0, stream, 1]).collect();
        refused(&many, Known::Nothing, "39: more than 32 streams in one plan");
    }

    #[test]
    fn an_empty_plan_needs_an_interval() {
        let message = "beacon 3 has an empty plan: its picture needs --calls, --units or --interval";
        assert_eq!(Plan::new(3, &[], Known::Nothing).err(), Some(message.to_string()));
    }
}
