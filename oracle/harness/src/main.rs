//! `oracle`: document 01's lines on standard input, the published code's
//! answers on standard output.

use harness::{answer_lines, Oracle, Start};
use std::env;
use std::io;
use std::process::ExitCode;

const USAGE: &str = "usage: oracle [--count NINE NUMBERS] < LINES";

fn main() -> ExitCode {
    match run() {
        Ok(()) => ExitCode::SUCCESS,
        Err(problem) => {
            eprintln!("oracle: {problem}");
            ExitCode::from(2)
        }
    }
}

fn run() -> Result<(), String> {
    let start = start(&mut env::args().skip(1))?;
    let mut oracle = Oracle::new(start);
    answer_lines(&mut oracle, io::stdin().lock(), io::stdout().lock())
        .map_err(|error| error.to_string())
}

/// Where the counters start: at the nine numbers after `--count`, else at 0.
fn start(arguments: &mut impl Iterator<Item = String>) -> Result<Start, String> {
    let start = match arguments.next().as_deref() {
        None => return Ok(Start::default()),
        Some("--count") => Start::from_arguments(arguments)?,
        Some(_) => return Err(USAGE.to_owned()),
    };
    match arguments.next() {
        None => Ok(start),
        Some(_) => Err(USAGE.to_owned()),
    }
}
