//! `compare PROGRAM ROWS [SEED]` compares PROGRAM with the second implementation on at least ROWS made-up rows. Without a seed, the
//! time of day gives one; it is printed, so that a run can be made again.

use std::path::Path;
use std::process::ExitCode;
use std::time::{SystemTime, UNIX_EPOCH};
use std::{env, fs};

fn main() -> ExitCode {
    match work(&env::args().skip(1).collect::<Vec<String>>()) {
        Ok(true) => ExitCode::SUCCESS,
        Ok(false) => ExitCode::FAILURE,
        Err(message) => {
            eprintln!("compare: {message}");
            ExitCode::FAILURE
        }
    }
}

fn work(arguments: &[String]) -> Result<bool, String> {
    let [program, rows, more @ ..] = arguments else {
        return Err("usage: compare PROGRAM ROWS [SEED]".to_string());
    };
    let rows: usize = rows.parse().map_err(|_| format!("not a number of rows: {rows}"))?;
    let seed = match more {
        [] => SystemTime::now().duration_since(UNIX_EPOCH).map_err(|error| error.to_string())?.as_secs(),
        [seed] => seed.parse().map_err(|_| format!("not a seed: {seed}"))?,
        _ => return Err("usage: compare PROGRAM ROWS [SEED]".to_string()),
    };
    println!("seed {seed}");
    match compare::fuzz(Path::new(program), seed, rows).map_err(|error| format!("{program}: {error}"))? {
        Ok(tally) => {
            println!("{} rows in {} lists, {} runs: the same bytes", tally.rows, tally.lists, tally.runs);
            Ok(true)
        }
        Err(difference) => {
            let kept = env::temp_dir().join("compare-failed.in");
            fs::write(&kept, &difference.input).map_err(|error| error.to_string())?;
            println!("list {}, packets {:?}: input kept in {}", difference.list, difference.packet, kept.display());
            println!("expected {}\nfound    {}", difference.expected, difference.found);
            Ok(false)
        }
    }
}
