//! Reads rows of calls from standard input and prints rows of answers and plans to standard output.

use std::io;
use std::process::ExitCode;

fn main() -> ExitCode {
    match reference::rows::run(io::stdin().lock(), io::stdout().lock()) {
        Ok(()) => ExitCode::SUCCESS,
        Err(error) => {
            eprintln!("shelf-reference: {error}");
            ExitCode::FAILURE
        }
    }
}
