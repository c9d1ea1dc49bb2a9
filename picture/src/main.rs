//! `plan-picture` draws the plan of one beacon: answers of `shelf` on standard input, an SVG picture on standard output.

use std::io::{self, Read, Write};
use std::process::ExitCode;
use std::{env, fs};

use picture::Source;
use picture::options::{Interval, Options};

fn main() -> ExitCode {
    match work() {
        Ok(()) => ExitCode::SUCCESS,
        Err(message) => {
            // Where standard error is closed as well, the status is all that can be said.
            let _ = writeln!(io::stderr(), "plan-picture: {message}");
            ExitCode::FAILURE
        }
    }
}

fn work() -> Result<(), String> {
    let arguments: Vec<String> =
        env::args_os().skip(1).map(|word| word.to_string_lossy().into_owned()).collect();
    let options = Options::read(&arguments)?;
    let source = match options.interval {
        Interval::LastRecord => Source::Answers,
        Interval::Slots(slots) => Source::Length(slots),
        Interval::Calls(path) => Source::Calls(fs::read(&path).map_err(|error| format!("{path}: {error}"))?),
    };
    let mut answers = Vec::new();
    io::stdin().read_to_end(&mut answers).map_err(|error| format!("standard input: {error}"))?;
    let picture = picture::picture(&answers, &source, options.beacon)?;
    io::stdout().write_all(picture.as_bytes()).map_err(|error| format!("standard output: {error}"))
}
