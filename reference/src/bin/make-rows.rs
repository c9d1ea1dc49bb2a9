//! Writes made-up input rows for the planner programs.
//!
//! `make-rows NAME SEED [SIZE]` prints one list; `make-rows all SEED FOLDER` writes every list that is stored
//! into a folder, as NAME.in. The same arguments always give the same bytes.

use std::io::{self, Write};
use std::path::Path;
use std::process::ExitCode;
use std::{env, fs};

use reference::lists;

const USAGE: &str = "usage: make-rows NAME SEED [SIZE] | make-rows all SEED FOLDER";

fn main() -> ExitCode {
    match work(&env::args().skip(1).collect::<Vec<String>>()) {
        Ok(()) => ExitCode::SUCCESS,
        Err(message) => {
            eprintln!("make-rows: {message}");
            ExitCode::FAILURE
        }
    }
}

fn work(arguments: &[String]) -> Result<(), String> {
    let [name, seed, more @ ..] = arguments else {
        return Err(format!("{USAGE}\nnames: {}", names()));
    };
    let seed: u64 = seed.parse().map_err(|_| format!("the seed is not a number: {seed}"))?;
    match (name.as_str(), more) {
        ("all", [folder]) => {
            for name in lists::NAMES {
                let rows = lists::make(name, seed, lists::usual_size(name)).ok_or("no such list")?;
                let path = Path::new(folder).join(format!("{name}.in"));
                fs::write(&path, rows).map_err(|error| format!("{}: {error}", path.display()))?;
            }
            Ok(())
        }
        (name, []) => print(name, seed, lists::usual_size(name)),
        (name, [size]) => {
            print(name, seed, size.parse().map_err(|_| format!("the size is not a number: {size}"))?)
        }
        _ => Err(USAGE.to_string()),
    }
}

fn names() -> String {
    [&lists::NAMES[..], &lists::HEADED, &[lists::DIGITS]].concat().join(" ")
}

fn print(name: &str, seed: u64, size: usize) -> Result<(), String> {
    let rows =
        lists::make(name, seed, size).ok_or_else(|| format!("no list named {name}; names: {}", names()))?;
    let mut output = io::stdout().lock();
    output.write_all(&rows).and_then(|()| output.flush()).map_err(|error| error.to_string())
}
