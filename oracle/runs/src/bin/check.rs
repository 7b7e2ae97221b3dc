//! `check PROGRAM`: document 01's worked example, edges and traps, and Job 1's cases.

use runs::cases::{cases, Case};
use runs::options::WITHOUT_NUMBERS;
use runs::Program;
use std::env;
use std::process::ExitCode;

const USAGE: &str = "usage: check [--without-numbers] PROGRAM [ARGUMENT...]";

fn main() -> ExitCode {
    match run() {
        Ok(0) => ExitCode::SUCCESS,
        Ok(_) => ExitCode::FAILURE,
        Err(problem) => {
            eprintln!("check: {problem}");
            ExitCode::from(2)
        }
    }
}

/// Run every case and say how it went; the number of cases that failed.
fn run() -> Result<usize, String> {
    let mut arguments = env::args().skip(1).peekable();
    let without_numbers = arguments.next_if_eq(WITHOUT_NUMBERS).is_some();
    let program =
        Program::new(arguments.collect()).map_err(|problem| format!("{problem}; {USAGE}"))?;
    let mut cases = cases();
    if without_numbers {
        cases = cases.into_iter().map(Case::without_numbers).collect();
    }
    let mut failed = 0;
    for case in &cases {
        match case.fault(&program)? {
            None => println!("ok      {}", case.name),
            Some(fault) => {
                failed += 1;
                println!("FAILED  {}: {}", case.name, fault.trim_end());
            }
        }
    }
    println!("{} passed, {failed} failed", cases.len() - failed);
    Ok(failed)
}
