//! `damaged`: damaged sheets, each judged by a program and by the model.

use runs::damaged::{Search, Sheets};
use runs::Program;
use std::env;
use std::process::ExitCode;
use std::str::FromStr;
use std::time::Instant;

const USAGE: &str =
    "usage: damaged [--sheets FROM TO | --changed] [--lines N] -- PROGRAM [ARGUMENT...]";

fn main() -> ExitCode {
    match run() {
        Ok(true) => ExitCode::SUCCESS,
        Ok(false) => ExitCode::FAILURE,
        Err(problem) => {
            eprintln!("damaged: {problem}");
            ExitCode::from(2)
        }
    }
}

/// Judge the sheets that the command line asks for; false on a difference.
fn run() -> Result<bool, String> {
    let search = read(env::args().skip(1)).map_err(|problem| format!("{problem}; {USAGE}"))?;
    let started = Instant::now();
    let (searched, found) = search.run()?;
    print!("{searched}");
    if let Some(found) = &found {
        print!("{found}");
    }
    println!(
        "{} sheets, {} taken, {} refused, {} lines, {} differences, {} s",
        searched.sheets,
        searched.taken,
        searched.sheets - searched.taken,
        searched.lines,
        usize::from(found.is_some()),
        started.elapsed().as_secs()
    );
    Ok(found.is_none())
}

fn read(mut arguments: impl Iterator<Item = String>) -> Result<Search, String> {
    let (from, to) = (1, 1_000_000);
    let (mut sheets, mut lines) = (Sheets::Numbered { from, to }, 12);
    while let Some(argument) = arguments.next() {
        match argument.as_str() {
            "--sheets" => {
                let from = number("FROM", arguments.next())?;
                let to = number("TO", arguments.next())?;
                if from > to {
                    return Err(format!("FROM {from} is above TO {to}"));
                }
                sheets = Sheets::Numbered { from, to };
            }
            "--changed" => sheets = Sheets::Changed,
            "--lines" => lines = number("--lines", arguments.next())?,
            "--" => break,
            _ => return Err(format!("{argument:?} is no option")),
        }
    }
    Ok(Search {
        program: Program::new(arguments.collect())?,
        sheets,
        lines,
    })
}

fn number<T: FromStr>(what: &str, word: Option<String>) -> Result<T, String> {
    let word = word.ok_or_else(|| format!("{what} needs a number"))?;
    word.parse()
        .map_err(|_| format!("{what}: {word:?} is no fitting number"))
}
