//! What the picture says in words: headings, labels and the text alternative.

use crate::plan::{Lane, Plan, SLOTS_IN_UNIT};
use crate::requests::{Kind, Request};

/// The picture's title.
pub fn title(plan: &Plan) -> String {
    format!("Slot plan of beacon {}", plan.beacon)
}

/// What the plan has in all.
pub fn summary(plan: &Plan) -> String {
    let length = match plan.interval {
        Some(interval) => {
            format!("{} ({})", count(interval, "slot"), count(interval / SLOTS_IN_UNIT, "time unit"))
        }
        None => format!("{} up to the end of the last record", count(plan.end, "slot")),
    };
    let streams = count(plan.lanes.len() as u64, "stream");
    let records = count(plan.records() as u64, "record");
    format!("{length}; {streams}, {records}; idle: {}", count(plan.idle_slots(), "slot"))
}

/// The text alternative: the summary, then each lane in a sentence.
pub fn description(plan: &Plan) -> String {
    let lanes = plan.lanes.iter().map(|lane| format!(" {}", lane_sentence(lane)));
    format!("A timeline with a lane for each stream. {}.{}", summary(plan), lanes.collect::<String>())
}

/// A lane in a sentence: what it has in this interval, and what its running period has had.
pub fn lane_sentence(lane: &Lane) -> String {
    let slots = lane.records.iter().map(|record| record.length).sum();
    let given = format!("{} in {}", count(slots, "slot"), count(lane.records.len() as u64, "record"));
    match (&lane.request, lane.had()) {
        (Some(request), Some(slots)) => format!(
            "Stream {}, {}: {given}; had {}, minimum {}, maximum {}.",
            lane.stream,
            kind_words(request),
            had(slots),
            grouped(request.min),
            grouped(request.max)
        ),
        _ => format!("Stream {}: {given}.", lane.stream),
    }
}

fn kind_words(request: &Request) -> String {
    match request.kind {
        Kind::Fraction(parts) => format!("kind 1 with {parts} periods in the interval"),
        Kind::Whole(intervals) => {
            format!("kind 2, interval {} of {intervals} of its period", request.passed + 1)
        }
        Kind::Transfer => format!("kind 3, due in {}", count(request.life_left, "interval")),
    }
}

/// A request's period in intervals, short enough for a column.
pub fn period(request: &Request) -> String {
    match request.kind {
        Kind::Fraction(parts) => format!("1/{parts}"),
        Kind::Whole(intervals) => format!("{} of {intervals}", request.passed + 1),
        Kind::Transfer => format!("due in {}", request.life_left),
    }
}

/// The slots that a running period has had. The periods of a kind 1 stream have the same, or else from the least to the most.
pub fn had([least, most]: [u64; 2]) -> String {
    match least == most {
        true => grouped(least),
        false => format!("{} to {}", grouped(least), grouped(most)),
    }
}

/// What the legend says without a swatch.
pub fn notes(plan: &Plan) -> &'static [&'static str] {
    match plan.has_requests {
        true => &[
            "Period, in intervals. Kind 1: 1/4 is a quarter of one. Kind 2: 2 of 5 is the second of five. Kind 3: those left to the deadline.",
            "Had: by the end of this interval; for kind 1, in each of its periods. A number in or beside a bar is the job's.",
        ],
        false => &["A number in or beside a bar is the job's."],
    }
}

/// A number with its noun.
fn count(number: u64, noun: &str) -> String {
    format!("{} {noun}{}", grouped(number), if number == 1 { "" } else { "s" })
}

/// A number with a comma before each three digits.
pub fn grouped(number: u64) -> String {
    let digits = number.to_string();
    let mut text = String::new();
    for (i, digit) in digits.chars().enumerate() {
        if i > 0 && (digits.len() - i).is_multiple_of(3) {
            text.push(',');
        }
        text.push(digit);
    }
    text
}

#[cfg(test)]
mod tests {
    use super::*;
    use crate::answers::Record;
    use crate::plan::Known;
    use crate::requests::Table;

    #[test]
    fn numbers_are_grouped() {
        let texts: Vec<String> = [0, 7, 999, 1_000, 12_345, 1_024_000].into_iter().map(grouped).collect();
        assert_eq!(texts, ["0", "7", "999", "1,000", "12,345", "1,024,000"]);
    }

    #[test]
    fn each_kind_has_its_words() {
        let words = |fields| {
            let mut request = Request::admitted(fields, 1_024).unwrap();
            request.pass(1);
            [period(&request), kind_words(&request)]
        };
        assert_eq!(words([1, 4, 1, 1, 9]), ["1/4", "kind 1 with 4 periods in the interval"]);
        assert_eq!(words([2, 5, 1, 1, 5]), ["2 of 5", "kind 2, interval 2 of 5 of its period"]);
        assert_eq!(words([2, 1, 1, 1, 5]), ["1 of 1", "kind 2, interval 1 of 1 of its period"]);
        assert_eq!(words([3, 3, 1, 0, 3]), ["due in 2", "kind 3, due in 2 intervals"]);
        assert_eq!([had([7_000, 7_000]), had([0, 7_000])], ["7,000", "0 to 7,000"]);
    }

    /// A transfer that had 500 slots in the first of its two intervals.
    fn transfer() -> Request {
        let mut request = Request::admitted([3, 2, 3_000, 0, 2], 2_048).unwrap();
        request.pass(500);
        request
    }

    #[test]
    fn the_text_alternative_has_every_lane() {
        let records = [
            Record { row: 3, stream: 9, job: 0, start: 1, length: 1_000 },
            Record { row: 4, stream: 5, job: 0, start: 1_001, length: 1 },
        ];
        let plan = Plan::new(2, &records, Known::Length(2_048)).unwrap();
        let expected = "A timeline with a lane for each stream. 2,048 slots (2 time units); 2 streams, 2 records; \
            idle: 1,047 slots. Stream 5: 1 slot in 1 record. Stream 9: 1,000 slots in 1 record.";
        assert_eq!(description(&plan), expected);
        let held = [(5, Request::admitted([1, 2, 1, 9, 1], 2_048).unwrap()), (9, transfer())].into();
        let table = Plan::new(2, &records, Known::Table(Table { interval: 2_048, held })).unwrap();
        let sentences = "Stream 5, kind 1 with 2 periods in the interval: 1 slot in 1 record; had 0 to 1, minimum 1, maximum 9. \
            Stream 9, kind 3, due in 1 interval: 1,000 slots in 1 record; had 1,500, minimum 3,000, maximum 3,000.";
        assert!(description(&table).ends_with(sentences));
        let open_end = Plan::new(2, &records, Known::Nothing).unwrap();
        assert!(summary(&open_end).starts_with("1,002 slots up to the end of the last record; "));
    }
}
