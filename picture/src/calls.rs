//! The rows that `shelf` reads, beside their answers: the interval's length and the requests that a beacon finds held.

use std::collections::BTreeMap;

use crate::answers::{Answer, Record, Verb};
use crate::plan::{SLOTS_IN_UNIT, UNITS};
use crate::requests::{MOST_HELD, Request, Table};
use crate::rows::{Row, cut};

/// The table that an accepted beacon, counted from 1, finds. Every call must have its answer, since calls of another run would
/// give a picture of something that never was.
pub fn table_before(bytes: &[u8], answers: &[Answer], beacon: usize) -> Result<Table, String> {
    let calls = cut("calls", bytes);
    if calls.len() != answers.len() {
        return Err(format!("calls: {} rows, but {} rows are answered", calls.len(), answers.len()));
    }
    let mut table = None;
    let mut found = None;
    let mut beacons = 0;
    for (call, answer) in calls.iter().zip(answers) {
        if answer.has_plan() {
            beacons += 1;
            if beacons == beacon {
                found = table.clone();
            }
        }
        advance(&mut table, call, answer)?;
    }
    found.ok_or_else(|| format!("calls: no table that beacon {beacon} finds"))
}

/// Brings the table up to date with one call and its answer. A refused call changes nothing.
fn advance(table: &mut Option<Table>, call: &Row, answer: &Answer) -> Result<(), String> {
    if answer.verb == Verb::Other {
        return Ok(());
    }
    let fields = call.fields::<7>()?;
    if Verb::of(fields[0]) != Some(answer.verb) {
        return Err(call.fault(format!("another verb than its answer's, row {} of the answers", answer.row)));
    }
    let stream = stream_answered(call, fields[1], answer)?;
    if answer.number != 0 {
        return Ok(());
    }
    if answer.verb == Verb::Open {
        *table = Some(opened(call, fields[1])?);
        return Ok(());
    }
    let table = table.as_mut().ok_or_else(|| call.fault("accepted without a table"))?;
    match answer.verb {
        Verb::Offer => hold(table, call, stream, fields),
        Verb::Withdraw => withdraw(table, call, stream),
        _ => {
            pass(table, &answer.records);
            Ok(())
        }
    }
}

/// The stream of a call, held to that of its answer; 0 where the verb has none.
fn stream_answered(call: &Row, field: &[u8], answer: &Answer) -> Result<u64, String> {
    let Some(answered) = answer.stream else { return Ok(0) };
    let stream = call.number_in("stream", field)?;
    match stream == answered {
        true => Ok(stream),
        false => Err(call.fault(format!("stream {stream}, but its answer has stream {answered}"))),
    }
}

/// The empty table of an `open`.
fn opened(call: &Row, units: &[u8]) -> Result<Table, String> {
    let units = call.number_in("time units", units)?;
    match UNITS.contains(&units) {
        true => Ok(Table { interval: units * SLOTS_IN_UNIT, held: BTreeMap::new() }),
        false => Err(call.fault(format!("an interval of {units} time units was accepted"))),
    }
}

/// Adds an accepted offer.
fn hold(table: &mut Table, call: &Row, stream: u64, fields: [&[u8]; 7]) -> Result<(), String> {
    let mut numbers = [0; 5];
    for (i, name) in ["kind", "period", "min", "max", "life"].into_iter().enumerate() {
        numbers[i] = call.number_in(name, fields[i + 2])?;
    }
    let request = Request::admitted(numbers, table.interval).map_err(|what| call.fault(what))?;
    if table.held.insert(stream, request).is_some() {
        return Err(call.fault(format!("stream {stream} was accepted twice")));
    }
    match table.held.len() > MOST_HELD {
        true => Err(call.fault(format!("more than {MOST_HELD} requests are held"))),
        false => Ok(()),
    }
}

/// Takes out a withdrawn stream.
fn withdraw(table: &mut Table, call: &Row, stream: u64) -> Result<(), String> {
    let gone = table.held.remove(&stream);
    gone.map(|_| ()).ok_or_else(|| call.fault(format!("stream {stream} was withdrawn, but is not held")))
}

/// An interval passes with its plan: requests at the end of their life leave.
fn pass(table: &mut Table, records: &[Record]) {
    for (stream, request) in &mut table.held {
        request
            .pass(records.iter().filter(|record| record.stream == *stream).map(|record| record.length).sum());
    }
    table.held.retain(|_, request| request.life_left > 0);
}

#[cfg(test)]
mod tests {
    use super::*;
    use crate::answers::{HEADER, read};

    fn crlf(rows: &str) -> String {
        rows.replace('\n', "\r\n")
    }

    fn table(calls: &str, answers: &str, beacon: usize) -> Result<Table, String> {
        let answers = read(crlf(&format!("{HEADER}\n{answers}")).as_bytes()).unwrap();
        table_before(crlf(calls).as_bytes(), &answers, beacon)
    }

    fn refused(calls: &str, answers: &str, message: &str) {
        assert_eq!(table(calls, answers, 1).unwrap_err(), format!("calls{message}"));
    }

    const CALLS: &str = "nonsense\nopen,2,,,,,\noffer,5,1,4,1,1,2\noffer,6,2,3,5,9,3\noffer,6,3,1,1,0,1\nbeacon,,,,,,\n\
        offer,7,3,1,1,0,1\nbeacon,,,,,,\nwithdraw,6,,,,,\nbeacon,,,,,,";
    const ANSWERS: &str = "row,,,,,50\nopen,,,,,0\noffer,5,,,,0\noffer,6,,,,0\noffer,6,,,,11\nbeacon,,,,,0\n\
        slot,5,0,0,1,\nslot,6,0,1,3,\nslot,6,0,9,5,\noffer,7,,,,0\nbeacon,,,,,0\nwithdraw,6,,,,0\nbeacon,,,,,0\n";

    /// An admitted request after intervals that gave it so many slots.
    fn request(fields: [u64; 5], slots: &[u64]) -> Request {
        let mut request = Request::admitted(fields, 2_048).unwrap();
        slots.iter().for_each(|&slots| request.pass(slots));
        request
    }

    #[test]
    fn the_table_is_that_before_the_beacon() {
        let first = table(CALLS, ANSWERS, 1).unwrap();
        assert_eq!(first.interval, 2_048);
        let held: Vec<(u64, Request)> = first.held.into_iter().collect();
        assert_eq!(held, [(5, request([1, 4, 1, 1, 2], &[])), (6, request([2, 3, 5, 9, 3], &[]))]);
        let second: Vec<(u64, Request)> = table(CALLS, ANSWERS, 2).unwrap().held.into_iter().collect();
        assert_eq!(
            second,
            [
                (5, request([1, 4, 1, 1, 2], &[4])),
                (6, request([2, 3, 5, 9, 3], &[8])),
                (7, request([3, 1, 1, 0, 1], &[]))
            ]
        );
        assert_eq!(second[1].1.had, 8);
        assert_eq!(table(CALLS, ANSWERS, 3).unwrap().held.len(), 0);
    }

    #[test]
    fn a_later_table_replaces_the_first() {
        let calls = "open,1,,,,,\noffer,5,1,4,1,1,2\nopen,0,,,,,\nopen,3,,,,,\nbeacon,,,,,,\n";
        let answers = "open,,,,,0\noffer,5,,,,0\nopen,,,,,1\nopen,,,,,0\nbeacon,,,,,0\n";
        let table = table(calls, answers, 1).unwrap();
        assert_eq!((table.interval, table.held.len()), (3_072, 0));
    }

    #[test]
    fn calls_of_another_run_are_refused() {
        let beacon = "open,,,,,0\nbeacon,,,,,0\n";
        refused("open,1,,,,,\n", beacon, ": 1 rows, but 2 rows are answered");
        refused("open,1,,,,,\nbeacon,,,,,,,\n", beacon, ", row 2: needs 7 fields, has 8");
        refused(
            "open,1,,,,,\nopen,1,,,,,\n",
            beacon,
            ", row 2: another verb than its answer's, row 3 of the answers",
        );
        refused("open,x,,,,,\nbeacon,,,,,,\n", beacon, ", row 1: time units is no number: 'x'");
        refused(
            "open,1001,,,,,\nbeacon,,,,,,\n",
            beacon,
            ", row 1: an interval of 1001 time units was accepted",
        );
        refused("beacon,,,,,,\n", "beacon,,,,,0\n", ", row 1: accepted without a table");
        refused("open,1,,,,,\n", "open,,,,,0\n", ": no table that beacon 1 finds");
    }

    #[test]
    fn offers_that_shelf_refuses_are_refused() {
        let offer = |row: &str, message: &str| {
            refused(
                &format!("open,1,,,,,\n{row}\n"),
                "open,,,,,0\noffer,5,,,,0\n",
                &format!(", row 2: {message}"),
            )
        };
        offer("offer,6,1,2,1,1,1", "stream 6, but its answer has stream 5");
        offer("offer,5,4,2,1,1,1", "kind 4 with period 2 was accepted");
        offer("offer,5,1,2,2,1,1", "minimum 2 with maximum 1 was accepted");
        offer("offer,5,3,2,1,0,1", "life 1 with period 2 was accepted");
        offer("offer,5,1,,1,1,1", "period is no number: ''");
        offer("offer,5,1,2,,1,1", "min is no number: ''");
        offer("offer,5,1,2,1,x,1", "max is no number: 'x'");
        offer("offer,5,1,2,1,1,", "life is no number: ''");
    }

    #[test]
    fn streams_come_and_go_once() {
        let twice = "open,1,,,,,\noffer,5,1,2,1,1,1\noffer,5,1,2,1,1,1\n";
        refused(twice, "open,,,,,0\noffer,5,,,,0\noffer,5,,,,0\n", ", row 3: stream 5 was accepted twice");
        let gone = "open,1,,,,,\nwithdraw,5,,,,,\n";
        let many = |row: &str, end: &str| {
            (1..=33).map(|stream| format!("offer,{stream}{row}{end}")).collect::<String>()
        };
        let calls = format!("open,1,,,,,\n{}", many(",3,1,1,0,1", "\n"));
        let answers = format!("open,,,,,0\n{}", many(",,,,0", "\n"));
        refused(&calls, &answers, ", row 34: more than 32 requests are held");
        refused(gone, "open,,,,,0\nwithdraw,5,,,,0\n", ", row 2: stream 5 was withdrawn, but is not held");
    }
}
