//! The stored lists: made by the generator, answered as stored, and with every refusal the program can give.

use std::collections::BTreeSet;
use std::fs;
use std::path::PathBuf;
use std::process::{Command, Stdio};

use reference::lists;
use reference::rows::run_bytes;

fn stored(name: &str, ending: &str) -> PathBuf {
    PathBuf::from(env!("CARGO_MANIFEST_DIR")).join("data").join(format!("{name}.{ending}"))
}

fn read(name: &str, ending: &str) -> Vec<u8> {
    fs::read(stored(name, ending)).unwrap()
}

#[test]
fn inputs_are_those_of_the_generator() {
    for name in lists::NAMES {
        let made = lists::make(name, lists::STORED_SEED, lists::usual_size(name)).unwrap();
        assert!(made == read(name, "in"), "{name}.in differs");
    }
}

#[test]
fn outputs_are_as_stored() {
    for name in lists::NAMES {
        assert!(run_bytes(&read(name, "in")) == read(name, "out"), "{name}.out differs");
    }
}

#[test]
fn the_program_gives_the_stored_outputs() {
    for name in lists::NAMES {
        let input = fs::File::open(stored(name, "in")).unwrap();
        let output =
            Command::new(env!("CARGO_BIN_EXE_shelf-reference")).stdin(Stdio::from(input)).output().unwrap();
        assert!(output.status.success());
        assert!(output.stderr.is_empty());
        assert!(output.stdout == read(name, "out"), "{name}.out differs");
    }
}

#[test]
fn every_refusal_appears() {
    let mut seen = BTreeSet::new();
    let mut bytes = 0;
    for name in lists::NAMES {
        let output = String::from_utf8(read(name, "out")).unwrap();
        bytes += output.len() + read(name, "in").len();
        for line in output.split_terminator("\r\n").skip(1) {
            let (_, answer) = line.rsplit_once(',').unwrap();
            if !answer.is_empty() {
                seen.insert(answer.parse::<u32>().unwrap());
            }
        }
    }
    let expected: BTreeSet<u32> = [0, 1, 10, 11, 12, 13, 14, 15, 16, 17, 20, 50, 51, 61].into();
    assert_eq!(seen, expected);
    assert!(bytes < 2_000_000, "{bytes} bytes of stored data");
}

#[test]
fn the_generator_program_repeats_itself() {
    let make = |arguments: &[&str]| {
        let output = Command::new(env!("CARGO_BIN_EXE_make-rows")).args(arguments).output().unwrap();
        (output.status.success(), output.stdout)
    };
    assert_eq!(make(&["mix", "3", "50"]), (true, lists::make("mix", 3, 50).unwrap()));
    assert_eq!(make(&["school", "9"]), (true, lists::make("school", 9, 1).unwrap()));
    assert_eq!(make(&["headed-mix", "3", "50"]), (true, lists::make("headed-mix", 3, 50).unwrap()));
    assert_ne!(make(&["headed-mix", "3", "50"]), make(&["mix", "3", "50"]));
    assert_ne!(make(&["mix", "4", "50"]), make(&["mix", "3", "50"]));
    for wrong in [
        &[][..],
        &["mix"],
        &["nothing", "1"],
        &["headed-long", "1"],
        &["mix", "x"],
        &["mix", "1", "x"],
        &["mix", "1", "2", "3"],
    ] {
        assert_eq!(make(wrong), (false, Vec::new()));
    }
}
