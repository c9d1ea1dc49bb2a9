//! Instruction counts: the tool runs itself under callgrind, which writes a count for each measured call, in their order.

use std::path::Path;
use std::process::{Command, Stdio};
use std::{env, fs, io, process};

use crate::settings::{self, Call};
use crate::subject::{Meter, measure_nothing, subjects};

/// The instructions of one call.
#[derive(Clone, Debug, PartialEq, Eq)]
pub struct Count {
    /// The setting's size.
    pub size: u32,
    /// The call's name.
    pub call: String,
    /// The planner's name.
    pub planner: String,
    /// Instructions.
    pub instructions: u64,
}

/// Under callgrind: measures a group's calls, and prints a line for each.
pub fn measure(group: &str) {
    measure_nothing();
    println!("0 nothing marks");
    for setting in settings::of(group) {
        for subject in subjects(&setting) {
            for &call in setting.calls.iter().filter(|&&call| subject.has(call)) {
                subject.measure(call, &mut Meter::Instructions);
                println!("{} {} {}", setting.size, call.name(), subject.name());
            }
        }
    }
}

/// Counts a group's calls.
pub fn count(group: &str) -> io::Result<Vec<Count>> {
    let folder = env::temp_dir().join(format!("gelmush-bench-{}", process::id()));
    fs::create_dir_all(&folder)?;
    let counts = run(group, &folder).and_then(|lines| read(&lines, &folder));
    fs::remove_dir_all(&folder)?;
    counts
}

fn run(group: &str, folder: &Path) -> io::Result<String> {
    let output = Command::new("valgrind")
        .args(["-q", "--tool=callgrind", "--zero-before=*counting_begins*", "--dump-before=*counting_ends*"])
        .arg(format!("--callgrind-out-file={}", folder.join("count").display()))
        .arg(env::current_exe()?)
        .args(["measure", group])
        .stderr(Stdio::inherit())
        .output()?;
    let lines = String::from_utf8_lossy(&output.stdout).into_owned();
    if output.status.success() {
        Ok(lines)
    } else {
        Err(io::Error::other(format!("valgrind: {}", output.status)))
    }
}

/// Pairs the printed lines with the counts written beside them, less what the marks cost.
fn read(lines: &str, folder: &Path) -> io::Result<Vec<Count>> {
    let mut counts = Vec::new();
    for (place, line) in lines.lines().enumerate() {
        let dump = fs::read_to_string(folder.join(format!("count.{}", place + 1)))?;
        let broken = || io::Error::other(format!("no count for {line}"));
        counts.push(parse(line, &dump).ok_or_else(broken)?);
    }
    let marks = counts.first().map_or(0, |count| count.instructions);
    counts.iter_mut().for_each(|count| count.instructions = count.instructions.saturating_sub(marks));
    Ok(counts.into_iter().skip(1).collect())
}

fn parse(line: &str, dump: &str) -> Option<Count> {
    let mut words = line.splitn(3, ' ');
    let (size, call, planner) = (words.next()?.parse().ok()?, words.next()?, words.next()?);
    let summary = dump.lines().find_map(|line| line.strip_prefix("summary: "))?;
    Some(Count {
        size,
        call: call.to_string(),
        planner: planner.to_string(),
        instructions: summary.trim().parse().ok()?,
    })
}

/// The count of a planner's call at a size.
pub fn find(counts: &[Count], size: u32, call: Call, planner: &str) -> Option<u64> {
    let matches =
        |count: &&Count| count.size == size && count.call == call.name() && count.planner == planner;
    counts.iter().find(matches).map(|count| count.instructions)
}

#[cfg(test)]
mod tests {
    use super::*;

    #[test]
    fn counts_are_read() {
        let count = parse("12 offer EACIAR", "version: 1\nsummary: 4711\nfn=x\n").unwrap();
        assert_eq!(find(std::slice::from_ref(&count), 12, Call::Offer, "EACIAR"), Some(4_711));
        assert_eq!(find(&[count], 12, Call::Beacon, "EACIAR"), None);
        assert_eq!(parse("12 offer EACIAR", "version: 1\n"), None);
    }
}
