//! The proved planner from C: `bindings/c/calls.c` reads the calls and prints what each gave.

use std::fmt::Write as _;
use std::io::Write as _;
use std::path::Path;
use std::process::{Command, Output, Stdio};
use std::thread;

use reference::Offer;

use super::{Call, Given};

/// One run of the program, with these calls on its standard input.
pub fn run(calls: &[Call]) -> Output {
    let program = Path::new(env!("CARGO_MANIFEST_DIR")).join("../../target/calls");
    assert!(program.exists(), "{} is missing: run `make bindings`", program.display());
    let input: String = calls.iter().map(line).collect();
    let mut command = Command::new(program);
    command.stdin(Stdio::piped()).stdout(Stdio::piped()).stderr(Stdio::piped());
    let mut child = command.spawn().expect("the program starts");
    let mut to = child.stdin.take().expect("its standard input is a pipe");
    thread::scope(|scope| {
        // A program that ends early shows in its status, so a refused write is no error here.
        scope.spawn(move || to.write_all(input.as_bytes()).is_ok());
        child.wait_with_output().expect("the program ends")
    })
}

/// Makes a list of calls, one after the other.
pub fn make_all(calls: &[Call]) -> Vec<Given> {
    let output = run(calls);
    let (printed, said) = (String::from_utf8_lossy(&output.stdout), String::from_utf8_lossy(&output.stderr));
    assert!(output.status.success(), "{}: {said}", output.status);
    printed.lines().map(|line| given(line).unwrap_or_else(|| panic!("printed: {line}"))).collect()
}

fn line(call: &Call) -> String {
    match call {
        Call::Open { units, header } => format!("open {units} {header}\n"),
        Call::Offer(Offer { stream, kind, period, min, max, life }) => {
            format!("offer {stream} {kind} {period} {min} {max} {life}\n")
        }
        Call::Withdraw { stream } => format!("withdraw {stream}\n"),
        Call::Enquire { stream } => format!("enquire {stream}\n"),
        Call::Beacon { words, seed } => format!("beacon {words} {seed}\n"),
        Call::Window { count, from, until, damage } => {
            let mut line = format!("window {count} {from} {until}");
            for (place, word) in damage {
                write!(line, " {place} {word}").expect("a string takes it");
            }
            line + "\n"
        }
    }
}

fn given(line: &str) -> Option<Given> {
    let mut fields = line.split(' ');
    Some(Given {
        answer: fields.next()?.parse().ok()?,
        changed: fields.next()?.parse().ok()?,
        number: fields.next()?.parse().ok()?,
        words: fields.map(str::parse).collect::<Result<_, _>>().ok()?,
    })
}
