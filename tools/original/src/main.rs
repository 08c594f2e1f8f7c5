//! What the Rust crate cfgrammar 0.15.0 returns for rows (docs/ROWS.md), printed as the program of rows prints it, and
//! how long each of its phases takes.
//!
//!     original answers MILLISECONDS FILE..   its answers to each row in these files of rows, each in a separate
//!                                            process, which is killed after so many milliseconds
//!     original row MILLISECONDS              the same for the single row on standard input
//!     original time FILE PHASE..             how many microseconds each of these phases takes on this grammar, read as
//!                                            `original-noaction`

mod answers;
mod costs;
mod grammar;
mod limit;
mod lines;
mod marks;
mod row;
mod section;
mod syntax;
mod time;
mod written;

use std::io::{self, Read};
use std::process::ExitCode;
use std::time::Duration;

fn main() -> ExitCode {
    let arguments: Vec<String> = std::env::args().skip(1).collect();
    let arguments: Vec<&str> = arguments.iter().map(String::as_str).collect();
    let done = match arguments.as_slice() {
        ["answers", limit, files @ ..] => answers::write_files(limit, files),
        ["row", limit] => answer(limit),
        ["time", file, phases @ ..] => time::run(file, phases),
        _ => Err(io::Error::other("usage: original answers|row|time ..")),
    };
    match done {
        Ok(()) => ExitCode::SUCCESS,
        Err(error) => {
            eprintln!("original: {error}");
            ExitCode::from(2)
        }
    }
}

/// Prints the answers to the row on standard input.
fn answer(milliseconds: &str) -> io::Result<()> {
    let limit = Duration::from_millis(milliseconds.parse().map_err(io::Error::other)?);
    let mut spelled = String::new();
    io::stdin().read_to_string(&mut spelled)?;
    std::panic::set_hook(Box::new(|_| {}));
    for row in row::rows(&spelled)? {
        answers::write_row(&row, limit);
    }
    Ok(())
}
