//! The program where reads and writes fail, wait or come in parts: docs/shelf.md, "Failures". No contract can say what was read or
//! written, so this is tested, on the proved program itself. The gate builds that after the other tests of this package, so these are
//! ignored unless asked for: `make failures`.

mod running;

use std::fs::{self, File};
use std::io::{self, PipeReader, Read, Write};
use std::os::fd::OwnedFd;
use std::os::unix::net::UnixStream;
use std::os::unix::process::ExitStatusExt;
use std::path::{Path, PathBuf};
use std::process::{Command, Stdio};
use std::thread;
use std::time::Duration;

use reference::rows::{HEADER, run_bytes};
use running::{Action, Running, SIGPIPE, SIGXFSZ, at_signal, file_limit, program};

const WRITING_FAILED: &str = "shelf: writing failed\n";
const READING_FAILED: &str = "shelf: reading failed\n";

/// Where a list of the second implementation is stored. The answers to `mix` are more than a pipe holds, and more than one write.
fn stored(name: &str) -> PathBuf {
    Path::new(env!("CARGO_MANIFEST_DIR")).join("../reference/data").join(name).with_extension("in")
}

fn list(name: &str) -> Vec<u8> {
    fs::read(stored(name)).expect("the list is stored")
}

/// The beginning of an input up to its last CR LF: the rows that can be answered before more of it comes.
fn whole_rows(input: &[u8]) -> &[u8] {
    let end = input.windows(2).rposition(|two| two == b"\r\n").map_or(0, |at| at + 2);
    &input[..end]
}

/// The program with a stored list as its input.
fn serving(name: &str, output: impl Into<Stdio>) -> Command {
    let mut command = program();
    command.stdin(File::open(stored(name)).expect("the list is stored")).stdout(output);
    command
}

/// A run with this input, and the pipe that it writes to.
fn answering(input: impl Into<Stdio>) -> (Running, PipeReader) {
    let (from, to) = io::pipe().expect("a pipe");
    let mut command = program();
    command.stdin(input).stdout(to);
    (Running::start(command), from)
}

fn all_of(mut from: PipeReader) -> Vec<u8> {
    let mut output = Vec::new();
    from.read_to_end(&mut output).expect("a pipe can be read");
    output
}

fn assert_same(found: &[u8], expected: &[u8]) {
    let right = found.iter().zip(expected).take_while(|(a, b)| a == b).count();
    assert!(found == expected, "{} bytes for {}, of which {right} are right", found.len(), expected.len());
}

/// The run ends by itself with status 0, and has said this alone.
fn assert_ends(run: Running, message: &str) {
    let (status, said) = run.end();
    assert_eq!((status.code(), said.as_str()), (Some(0), message));
}

/// The run is ended by this signal, and has said nothing.
fn assert_ended_by(run: Running, number: i32) {
    let (status, said) = run.end();
    assert_eq!((status.signal(), said.as_str()), (Some(number), ""));
}

#[test]
#[ignore = "needs target/bin/shelf"]
fn an_output_that_takes_nothing() {
    let full = File::options().write(true).open("/dev/full").expect("a device that is full");
    let read_only = File::open("/dev/null").expect("a device");
    for output in [full, read_only] {
        assert_ends(Running::start(serving("school", output)), WRITING_FAILED);
    }
}

/// A run whose output is a file that may have so many bytes, and what is in the file in the end.
fn cut_off(limit: usize, action: Action, assert_end: impl FnOnce(Running)) -> Vec<u8> {
    let path = Path::new(env!("CARGO_TARGET_TMPDIR")).join("part.csv");
    let mut command = serving("mix", File::create(&path).expect("a file"));
    file_limit(at_signal(&mut command, SIGXFSZ, action), limit as u64);
    assert_end(Running::start(command));
    fs::read(&path).expect("the file")
}

#[test]
#[ignore = "needs target/bin/shelf"]
fn an_output_that_takes_a_part() {
    let expected = run_bytes(&list("mix"));
    let whole = expected.len();
    for limit in [0, 1, HEADER.len(), HEADER.len() + 1, 5_000, 200_000, whole - 1] {
        let part = cut_off(limit, Action::Ignore, |run| assert_ends(run, WRITING_FAILED));
        assert_same(&part, &expected[..limit]);
        let part = cut_off(limit, Action::Default, |run| assert_ended_by(run, SIGXFSZ));
        assert_same(&part, &expected[..limit]);
    }
    assert_same(&cut_off(whole, Action::Ignore, |run| assert_ends(run, "")), &expected);
}

/// A run whose reader takes so many bytes and goes away.
fn left_after(bytes: usize, action: Action) -> Running {
    let (mut from, to) = io::pipe().expect("a pipe");
    let mut command = serving("mix", to);
    at_signal(&mut command, SIGPIPE, action);
    let run = Running::start(command);
    let mut taken = vec![0; bytes];
    from.read_exact(&mut taken).expect("so many bytes");
    assert_same(&taken, &run_bytes(&list("mix"))[..bytes]);
    run
}

#[test]
#[ignore = "needs target/bin/shelf"]
fn a_reader_that_goes_away() {
    for bytes in [0, 1, HEADER.len(), 100_000] {
        assert_ends(left_after(bytes, Action::Ignore), WRITING_FAILED);
        // The kit's runtime ignores the signal from the start, whatever the host chose.
        assert_ends(left_after(bytes, Action::Default), WRITING_FAILED);
    }
}

#[test]
#[ignore = "needs target/bin/shelf"]
fn an_input_that_gives_nothing() {
    let directory = File::open("/").expect("a directory");
    let write_only = File::options().write(true).open("/dev/null").expect("a device");
    for input in [directory, write_only] {
        let (run, from) = answering(input);
        assert_same(&all_of(from), HEADER);
        assert_ends(run, READING_FAILED);
    }
}

/// A socket that gives these bytes and then fails, since its peer went away with a byte unread.
fn failing_after(bytes: &[u8]) -> OwnedFd {
    let (mut ours, mut peer) = UnixStream::pair().expect("two sockets");
    ours.write_all(b"?").expect("room for a byte");
    peer.write_all(bytes).expect("room for a list");
    ours.into()
}

#[test]
#[ignore = "needs target/bin/shelf"]
fn an_input_that_gives_a_part() {
    let input = list("school");
    let row_end = whole_rows(&input[..5_000]).len();
    // A row without its CR LF is whole at the end of the input alone, and this is no end.
    for part in [&input[..0], &input[..row_end], &input[..row_end - 2]] {
        let (run, from) = answering(failing_after(part));
        assert_same(&all_of(from), &run_bytes(whole_rows(part)));
        assert_ends(run, READING_FAILED);
    }
}

#[test]
#[ignore = "needs target/bin/shelf"]
fn a_slow_reader_and_a_program_that_is_stopped() {
    let (mut from, to) = io::pipe().expect("a pipe");
    let run = Running::start(serving("mix", to));
    let mut output = Vec::new();
    for turn in 0.. {
        let mut few = vec![0; 1 + turn % 97];
        match from.read(&mut few).expect("a pipe can be read") {
            0 => break,
            count => output.extend_from_slice(&few[..count]),
        }
        thread::sleep(Duration::from_micros(50));
        // A write that waits for the reader ends early where the program is stopped, and the rest of it has to follow.
        if turn % 64 == 63 {
            run.interrupt();
        }
    }
    assert_same(&output, &run_bytes(&list("mix")));
    assert_ends(run, "");
}

#[test]
#[ignore = "needs target/bin/shelf"]
fn an_input_in_two_parts() {
    let input = list("school");
    let row_end = whole_rows(&input[..5_000]).len();
    // After a row, between its CR and its LF, and within the next row.
    for cut in [row_end, row_end - 1, row_end + 5] {
        let (first, second) = input.split_at(cut);
        let (run, mut from) = answering(Stdio::piped());
        let mut to = run.input();
        to.write_all(first).expect("the program reads");
        let mut answers = vec![0; run_bytes(whole_rows(first)).len()];
        from.read_exact(&mut answers).expect("the answers come before the second part is sent");
        thread::sleep(Duration::from_millis(20));
        to.write_all(second).expect("the program reads");
        drop(to);
        answers.extend(all_of(from));
        assert_same(&answers, &run_bytes(&input));
        assert_ends(run, "");
    }
}
