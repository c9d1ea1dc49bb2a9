//! The rows that `shelf` prints: a header, a row for each call, and a plan's records after each accepted beacon.

use crate::rows::{Row, cut};

/// The first row of every output.
pub const HEADER: &str = "row,stream,job,start,length,answer";

/// What a row of the input asked for.
#[derive(Clone, Copy, Debug, PartialEq, Eq)]
pub enum Verb {
    /// A new table.
    Open,
    /// Admission of a request.
    Offer,
    /// The end of an admission.
    Withdraw,
    /// The plan of the next interval.
    Beacon,
    /// Nothing: a row of another form.
    Other,
}

impl Verb {
    /// The verb of a call or of its answer.
    pub fn of(word: &[u8]) -> Option<Verb> {
        match word {
            b"open" => Some(Verb::Open),
            b"offer" => Some(Verb::Offer),
            b"withdraw" => Some(Verb::Withdraw),
            b"beacon" => Some(Verb::Beacon),
            b"row" => Some(Verb::Other),
            _ => None,
        }
    }
}

/// One record of a plan: the stream has the slots from start on.
#[derive(Clone, Debug, PartialEq, Eq)]
pub struct Record {
    /// The number of its row, for messages.
    pub row: usize,
    /// The stream that has the slots.
    pub stream: u64,
    /// The stream's job in the interval.
    pub job: u64,
    /// The first slot.
    pub start: u64,
    /// The number of slots.
    pub length: u64,
}

impl Record {
    /// The slot after the last one.
    pub fn end(&self) -> u64 {
        self.start + self.length
    }
}

/// The answer to one call.
#[derive(Debug)]
pub struct Answer {
    /// The number of its row, for messages.
    pub row: usize,
    /// What was asked.
    pub verb: Verb,
    /// The stream of an offer or a withdrawal.
    pub stream: Option<u64>,
    /// 0, or the number of a refusal.
    pub number: u64,
    /// The plan of an accepted beacon.
    pub records: Vec<Record>,
}

impl Answer {
    /// Whether this is a beacon with a plan.
    pub fn has_plan(&self) -> bool {
        self.verb == Verb::Beacon && self.number == 0
    }
}

/// Reads all answers.
pub fn read(bytes: &[u8]) -> Result<Vec<Answer>, String> {
    let rows = cut("answers", bytes);
    match rows.first() {
        Some(row) if row.text == HEADER.as_bytes() => {}
        _ => return Err(format!("answers, row 1: not shelf's header '{HEADER}' with CR LF")),
    }
    if let Some(row) = rows.iter().find(|row| !row.ended) {
        return Err(row.fault("cut off: no CR LF at its end"));
    }
    let mut answers = Vec::new();
    for row in &rows[1..] {
        if row.text.starts_with(b"slot,") {
            plan_before(&mut answers, row)?.push(record(row)?);
        } else {
            answers.push(answer(row)?);
        }
    }
    Ok(answers)
}

/// The plan that a record's row goes on with.
fn plan_before<'a>(answers: &'a mut [Answer], row: &Row) -> Result<&'a mut Vec<Record>, String> {
    match answers.last_mut() {
        Some(answer) if answer.has_plan() => Ok(&mut answer.records),
        _ => Err(row.fault("a slot row that follows no accepted beacon")),
    }
}

fn record(row: &Row) -> Result<Record, String> {
    let [_, stream, job, start, length, answer] = row.fields::<6>()?;
    row.empty(&[answer])?;
    Ok(Record {
        row: row.number,
        stream: row.number_in("stream", stream)?,
        job: row.number_in("job", job)?,
        start: row.number_in("start", start)?,
        length: row.number_in("length", length)?,
    })
}

fn answer(row: &Row) -> Result<Answer, String> {
    let [word, stream, job, start, length, number] = row.fields::<6>()?;
    let verb = Verb::of(word).ok_or_else(|| {
        row.fault(format!("shelf prints no row '{}'", String::from_utf8_lossy(word).escape_debug()))
    })?;
    row.empty(&[job, start, length])?;
    let stream = match verb {
        Verb::Offer | Verb::Withdraw => Some(row.number_in("stream", stream)?),
        _ => row.empty(&[stream]).map(|()| None)?,
    };
    Ok(Answer {
        row: row.number,
        verb,
        stream,
        number: row.number_in("answer", number)?,
        records: Vec::new(),
    })
}

/// The records of an accepted beacon, counted from 1.
pub fn records_of(answers: &[Answer], beacon: usize) -> Result<&[Record], String> {
    let mut plans = answers.iter().filter(|answer| answer.has_plan());
    let count = plans.clone().count();
    let plan = beacon.checked_sub(1).and_then(|before| plans.nth(before));
    plan.map(|answer| &answer.records[..])
        .ok_or_else(|| format!("answers: no beacon {beacon} among the {count} accepted ones"))
}

#[cfg(test)]
mod tests {
    use super::*;

    fn after_header(rows: &str) -> Result<Vec<Answer>, String> {
        read(format!("{HEADER}\r\n{}", rows.replace('\n', "\r\n")).as_bytes())
    }

    fn refused(rows: &str, message: &str) {
        assert_eq!(after_header(rows).unwrap_err(), format!("answers, row {message}"));
    }

    #[test]
    fn answers_and_their_records_are_read() {
        let answers = after_header(
            "beacon,,,,,51\nopen,,,,,0\noffer,5,,,,17\nrow,,,,,50\nbeacon,,,,,0\nslot,5,1,2,3,\n",
        );
        let answers = answers.unwrap();
        let verbs: Vec<Verb> = answers.iter().map(|answer| answer.verb).collect();
        assert_eq!(verbs, [Verb::Beacon, Verb::Open, Verb::Offer, Verb::Other, Verb::Beacon]);
        assert_eq!((answers[2].row, answers[2].stream, answers[2].number), (4, Some(5), 17));
        assert_eq!(answers[4].records, [Record { row: 7, stream: 5, job: 1, start: 2, length: 3 }]);
    }

    #[test]
    fn beacons_are_counted_among_the_accepted() {
        let answers = after_header("beacon,,,,,51\nbeacon,,,,,0\nslot,5,0,0,3,\nbeacon,,,,,0\n").unwrap();
        assert_eq!(records_of(&answers, 1).unwrap().len(), 1);
        assert_eq!(records_of(&answers, 2).unwrap().len(), 0);
        for none in [0, 3] {
            let message = format!("answers: no beacon {none} among the 2 accepted ones");
            assert_eq!(records_of(&answers, none).unwrap_err(), message);
        }
    }

    #[test]
    fn other_headers_are_refused() {
        for other in ["", "\r\n", "row,stream\r\n", "row,stream,job,start,length,answer\n"] {
            assert!(read(other.as_bytes()).unwrap_err().starts_with("answers, row 1: not shelf's header"));
        }
    }

    #[test]
    fn rows_of_another_form_are_refused() {
        refused("open,,,,0\n", "2: needs 6 fields, has 5");
        refused("open,,,,,0\n\n", "3: needs 6 fields, has 1");
        refused("open,,,,,0\nclose,,,,,0\n", "3: shelf prints no row 'close'");
        refused("open,3,,,,0\n", "2: a field that should be empty is not");
        refused("offer,5,,7,,0\n", "2: a field that should be empty is not");
        refused("offer,,,,,0\n", "2: stream is no number: ''");
        refused("beacon,,,,,\n", "2: answer is no number: ''");
        refused("beacon,,,,,0", "2: cut off: no CR LF at its end");
    }

    #[test]
    fn bad_records_are_refused() {
        refused("slot,5,0,0,3,\n", "2: a slot row that follows no accepted beacon");
        refused("beacon,,,,,51\nslot,5,0,0,3,\n", "3: a slot row that follows no accepted beacon");
        refused("beacon,,,,,0\nslot,5,0,0,3\n", "3: needs 6 fields, has 5");
        refused("beacon,,,,,0\nslot,5,0,0,3,0\n", "3: a field that should be empty is not");
        refused("beacon,,,,,0\nslot,5,x,0,3,\n", "3: job is no number: 'x'");
        refused("beacon,,,,,0\nslot,5,0,-1,3,\n", "3: start is no number: '-1'");
        refused("beacon,,,,,0\nslot,5,0,0,4294967296,\n", "3: length is no number: '4294967296'");
    }
}
