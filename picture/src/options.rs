//! The command line.

use crate::plan::{SLOTS_IN_UNIT, UNITS};

/// How the program is called.
pub const USAGE: &str =
    "usage: plan-picture [--calls FILE | --interval SLOTS | --units N] [--beacon K] < answers.csv > plan.svg";

/// Where the interval's length comes from.
#[derive(Debug, PartialEq, Eq)]
pub enum Interval {
    /// The last record's end.
    LastRecord,
    /// The length in slots.
    Slots(u64),
    /// The file of the calls.
    Calls(String),
}

/// What the command line asks for.
#[derive(Debug, PartialEq, Eq)]
pub struct Options {
    /// Where the interval's length comes from.
    pub interval: Interval,
    /// The accepted beacon, from 1.
    pub beacon: usize,
}

impl Options {
    /// Reads the arguments after the program's name.
    pub fn read(arguments: &[String]) -> Result<Options, String> {
        let mut interval = None;
        let mut beacon = None;
        for pair in arguments.chunks(2) {
            let [name, value] = pair else { return Err(format!("'{}' needs a value\n{USAGE}", pair[0])) };
            let set_before = match name.as_str() {
                "--calls" => interval.replace(Interval::Calls(value.clone())).is_some(),
                "--interval" => interval.replace(Interval::Slots(slots(value)?)).is_some(),
                "--units" => interval.replace(Interval::Slots(units(value)? * SLOTS_IN_UNIT)).is_some(),
                "--beacon" => beacon.replace(count(value)?).is_some(),
                _ => return Err(format!("no option '{name}'\n{USAGE}")),
            };
            if set_before {
                return Err(format!("'{name}' says again what an option before it says\n{USAGE}"));
            }
        }
        Ok(Options { interval: interval.unwrap_or(Interval::LastRecord), beacon: beacon.unwrap_or(1) })
    }
}

fn units(value: &str) -> Result<u64, String> {
    let units = value.parse().ok().filter(|units| UNITS.contains(units));
    units.ok_or_else(|| format!("an interval has 1 to 1,000 time units, not '{value}'"))
}

fn slots(value: &str) -> Result<u64, String> {
    let is_interval =
        |slots: &u64| slots.is_multiple_of(SLOTS_IN_UNIT) && UNITS.contains(&(slots / SLOTS_IN_UNIT));
    let slots = value.parse().ok().filter(is_interval);
    slots.ok_or_else(|| format!("an interval has 1 to 1,000 times 1,024 slots, not '{value}'"))
}

fn count(value: &str) -> Result<usize, String> {
    let count = value.parse().ok().filter(|&count| count > 0);
    count.ok_or_else(|| format!("beacons are counted from 1, not '{value}'"))
}

#[cfg(test)]
mod tests {
    use super::*;

    fn read(line: &str) -> Result<Options, String> {
        Options::read(&line.split_whitespace().map(str::to_string).collect::<Vec<String>>())
    }

    #[test]
    fn options_are_read_in_any_order() {
        assert_eq!(read(""), Ok(Options { interval: Interval::LastRecord, beacon: 1 }));
        assert_eq!(read("--beacon 3 --units 2"), Ok(Options { interval: Interval::Slots(2_048), beacon: 3 }));
        assert_eq!(
            read("--interval 3072 --beacon 3"),
            Ok(Options { interval: Interval::Slots(3_072), beacon: 3 })
        );
        assert_eq!(
            read("--calls a.csv"),
            Ok(Options { interval: Interval::Calls("a.csv".to_string()), beacon: 1 })
        );
    }

    #[test]
    fn other_options_are_refused() {
        for (line, message) in [
            ("--beacon", "'--beacon' needs a value\n"),
            ("--colour red", "no option '--colour'\n"),
            ("--units 1 --interval 1024", "'--interval' says again what"),
            ("--beacon 1 --beacon 1", "'--beacon' says again what"),
            ("--beacon 0", "beacons are counted from 1, not '0'"),
            ("--beacon x", "beacons are counted from 1, not 'x'"),
            ("--units 0", "an interval has 1 to 1,000 time units, not '0'"),
            ("--units 1001", "an interval has 1 to 1,000 time units, not '1001'"),
            ("--interval 0", "an interval has 1 to 1,000 times 1,024 slots, not '0'"),
            ("--interval 1000", "an interval has 1 to 1,000 times 1,024 slots, not '1000'"),
            ("--interval 1025024", "an interval has 1 to 1,000 times 1,024 slots, not '1025024'"),
        ] {
            assert!(read(line).is_err_and(|found| found.starts_with(message)), "{line}");
        }
    }
}
