//! `bench calls`, `bench growth FOLDER`, `bench headers`, `bench worst` and `bench days DAYS SEED` print tables; growth writes its plots to
//! FOLDER too.
//! `bench all FOLDER` does all of them. `bench measure GROUP` is what the tool runs under callgrind.

use std::io;
use std::path::Path;
use std::process::ExitCode;
use std::{env, fs};

use bench::{counting, report};

const DAYS: usize = 5_000;
const SEED: u64 = 1;

fn main() -> ExitCode {
    let arguments: Vec<String> = env::args().skip(1).collect();
    let words: Vec<&str> = arguments.iter().map(String::as_str).collect();
    match work(&words) {
        Ok(()) => ExitCode::SUCCESS,
        Err(error) => {
            eprintln!("bench: {error}");
            ExitCode::FAILURE
        }
    }
}

fn work(words: &[&str]) -> io::Result<()> {
    match words {
        ["measure", group] => counting::measure(group),
        ["calls"] => print!("{}", report::calls()?),
        ["growth", folder] => growth(Path::new(folder))?,
        ["headers"] => print!("{}", report::headers()?),
        ["worst"] => print!("{}", report::worst()?),
        ["days", days, seed] => print!("{}", report::days(number(days)? as usize, number(seed)?)?),
        ["all", folder] => {
            print!("{}\n{}\n{}\n", report::calls()?, report::headers()?, report::worst()?);
            growth(Path::new(folder))?;
            print!("\n{}", report::days(DAYS, SEED)?);
        }
        _ => {
            return Err(io::Error::other(
                "usage: bench calls | growth FOLDER | headers | worst | days DAYS SEED | all FOLDER",
            ));
        }
    }
    Ok(())
}

fn number(word: &str) -> io::Result<u64> {
    word.parse().map_err(|_| io::Error::other(format!("not a number: {word}")))
}

fn growth(folder: &Path) -> io::Result<()> {
    for growth in report::GROWTHS {
        let (table, plots) = report::growth(&growth)?;
        println!("{table}");
        for (name, svg) in plots {
            let path = folder.join(name);
            fs::write(&path, svg)?;
            eprintln!("wrote {}", path.display());
        }
    }
    Ok(())
}
