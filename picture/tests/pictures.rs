//! The stored pictures, byte for byte; the program's status and messages; damaged input.

use std::fs;
use std::io::Write;
use std::path::PathBuf;
use std::process::{Command, Output, Stdio};

use picture::{Source, picture};

fn path(name: &str) -> PathBuf {
    PathBuf::from(env!("CARGO_MANIFEST_DIR")).join(name)
}

fn stored(name: &str) -> Vec<u8> {
    fs::read(path(name)).unwrap()
}

/// Runs the program on answers.
fn run(arguments: &[&str], answers: &[u8]) -> Output {
    let mut program = Command::new(env!("CARGO_BIN_EXE_plan-picture"))
        .args(arguments)
        .stdin(Stdio::piped())
        .stdout(Stdio::piped())
        .stderr(Stdio::piped())
        .spawn()
        .unwrap();
    // A program that refuses its arguments ends before it reads.
    let _ = program.stdin.take().unwrap().write_all(answers);
    program.wait_with_output().unwrap()
}

/// Holds the program to a stored picture.
fn held_to(picture: &str, calls: &str, answers: &str, beacon: &str) {
    let calls = path(calls);
    let output = run(&["--calls", calls.to_str().unwrap(), "--beacon", beacon], &stored(answers));
    assert_eq!(String::from_utf8_lossy(&output.stderr), "");
    assert!(output.status.success());
    assert!(output.stdout == stored(picture), "{picture} differs");
}

#[test]
fn case_1_is_as_stored() {
    held_to("data/case1.svg", "data/case1.csv", "data/case1.out", "1");
}

#[test]
fn the_plan_of_the_schools_day_is_as_stored() {
    held_to("../docs/plan.svg", "../reference/data/school.in", "../reference/data/school.out", "22");
}

/// The picture of the top README has a request of every kind, each with slots.
#[test]
fn the_stored_plan_has_every_kind() {
    let picture = String::from_utf8(stored("../docs/plan.svg")).unwrap();
    for fill in ["#fff2cc", "#b4d2ee", "#c8743c"] {
        let bars = picture.lines().filter(|line| line.contains(fill) && line.contains("<title>stream"));
        assert!(bars.count() > 0, "{fill}");
    }
}

#[test]
fn every_plan_of_the_schools_day_is_drawn() {
    let calls = Source::Calls(stored("../reference/data/school.in"));
    let answers = stored("../reference/data/school.out");
    let mut drawn = 0;
    while picture(&answers, &calls, drawn + 1).is_ok() {
        drawn += 1;
    }
    let accepted = String::from_utf8(answers).unwrap().matches("beacon,,,,,0\r\n").count();
    assert_eq!(drawn, accepted);
}

#[test]
fn the_length_may_be_given_in_slots_or_units() {
    let answers = stored("data/case1.out");
    let by_units = run(&["--units", "2"], &answers);
    let by_slots = run(&["--interval", "2048"], &answers);
    assert!(by_units.status.success() && by_units.stdout == by_slots.stdout);
    let text = String::from_utf8(by_units.stdout).unwrap();
    assert!(text.contains("<title>idle, slots 1024 to 2047</title>"));
    let alone = String::from_utf8(run(&[], &answers).stdout).unwrap();
    assert!(alone.contains("1,024 slots up to the end of the last record"));
}

/// Holds the program to a message on standard error, an empty standard output and a status that is not 0.
fn refused(arguments: &[&str], answers: &[u8], message: &str) {
    let output = run(arguments, answers);
    assert_eq!(output.status.code(), Some(1));
    assert_eq!(output.stdout, b"");
    let said = String::from_utf8(output.stderr).unwrap();
    assert!(said.starts_with(&format!("plan-picture: {message}")), "{said}");
}

#[test]
fn bad_input_gets_a_message_and_a_status() {
    let good = stored("data/case1.out");
    let text = String::from_utf8(good.clone()).unwrap();
    let changed = |from: &str, to: &str| text.replace(from, to).into_bytes();
    let calls = path("data/case1.csv");
    let with_calls = ["--calls", calls.to_str().unwrap()];
    refused(&[], b"", "answers, row 1: not shelf's header");
    refused(&[], &changed("slot,9,0,100,300,", "slot,9,0,100,300"), "answers, row 8: needs 6 fields, has 5");
    refused(&[], &changed("slot,9,0,100,300,", "slot,9,0,x,300,"), "answers, row 8: start is no number: 'x'");
    refused(
        &[],
        &changed("slot,9,0,100,", "slot,9,0,99,"),
        "answers, row 8: slot 99 is also in the record of row 7",
    );
    refused(&["--beacon", "2"], &good, "answers: no beacon 2 among the 1 accepted ones");
    refused(
        &with_calls,
        &changed("612,412", "612,413"),
        "answers, row 11: ends at 1025, outside the interval of 1024",
    );
    refused(
        &with_calls,
        &changed("offer,9", "offer,8"),
        "calls, row 4: stream 9, but its answer has stream 8",
    );
    refused(&["--calls", "no/such/file"], &good, "no/such/file: ");
    refused(&["--colour", "red"], &good, "no option '--colour'");
}

/// Draws without a panic: a whole picture, or a message that names the file or the beacon.
fn picture_or_message(answers: &[u8], source: &Source) {
    match picture(answers, source, 1) {
        Ok(picture) => assert!(picture.ends_with("</svg>\n")),
        Err(message) => {
            assert!(["answers", "calls", "beacon"].iter().any(|word| message.starts_with(word)), "{message}")
        }
    }
}

#[test]
fn damaged_input_gives_a_picture_or_a_message() {
    let (calls, answers) = (stored("data/case1.csv"), stored("data/case1.out"));
    let damages: [fn(&mut Vec<u8>, usize); 6] = [
        |bytes, i| bytes[i] = b'9',
        |bytes, i| bytes[i] = b',',
        |bytes, i| bytes[i] = 0xff,
        |bytes, i| bytes[i] = b'\n',
        |bytes, i| bytes.truncate(i),
        |bytes, i| bytes.insert(i, b'1'),
    ];
    for damage in damages {
        for i in 0..answers.len() {
            let mut damaged = answers.clone();
            damage(&mut damaged, i);
            picture_or_message(&damaged, &Source::Answers);
            picture_or_message(&damaged, &Source::Calls(calls.clone()));
        }
        for i in 0..calls.len() {
            let mut damaged = calls.clone();
            damage(&mut damaged, i);
            picture_or_message(&answers, &Source::Calls(damaged));
        }
    }
}
