//! `sheets`: searches a program's runs for equal sheets with unequal futures,
//! and for unequal sheets that no probe separates.

use runs::options::WITHOUT_NUMBERS;
use runs::sheets::{Found, Search, Searched};
use runs::{Program, Spoil};
use std::env;
use std::process::ExitCode;

const USAGE: &str = "usage: sheets [--pairs N] [--seed N] [--spoil NAME] [--without-numbers] \
    -- PROGRAM [ARGUMENT...]";

fn main() -> ExitCode {
    match run() {
        Ok(true) => ExitCode::SUCCESS,
        Ok(false) => ExitCode::FAILURE,
        Err(problem) => {
            eprintln!("sheets: {problem}");
            ExitCode::from(2)
        }
    }
}

/// Make both searches, or the one that a spoilt sheet must fail: a sheet that
/// leaves something out the first, one that adds something the second. False if
/// something was found.
fn run() -> Result<bool, String> {
    let search = read(env::args().skip(1)).map_err(|problem| format!("{problem}; {USAGE}"))?;
    let adds = search.spoil.map(Spoil::adds);
    if adds != Some(true) && equal(&search)? {
        return Ok(false);
    }
    if adds != Some(false) && unequal(&search)? {
        return Ok(false);
    }
    Ok(true)
}

/// Search equal sheets and say what came of it; true if something was found.
fn equal(search: &Search) -> Result<bool, String> {
    let (searched, found) = search.equal()?;
    let Searched {
        pairs,
        lines,
        unlike,
        ..
    } = searched;
    println!(
        "equal sheets: {pairs} pairs, {unlike} of them unlike in what no sheet shows, \
         {lines} lines: {} with unequal futures",
        usize::from(found.is_some())
    );
    Ok(show(found))
}

/// Search unequal sheets and say what came of it; true if something was found.
fn unequal(search: &Search) -> Result<bool, String> {
    let (searched, found) = search.unequal()?;
    let Searched {
        pairs,
        lines,
        parts,
        ..
    } = searched;
    for (part, pairs) in parts {
        println!("{pairs:>12}  {part}");
    }
    println!(
        "unequal sheets: {pairs} pairs, by the part whose probe told them apart, \
         {lines} lines: {} that no probe separates",
        usize::from(found.is_some())
    );
    Ok(show(found))
}

fn show(found: Option<Found>) -> bool {
    if let Some(found) = &found {
        print!("{found}");
    }
    found.is_some()
}

fn read(mut arguments: impl Iterator<Item = String>) -> Result<Search, String> {
    let (mut pairs, mut seed, mut spoil, mut settle_numbers) = (100_000, 1, None, true);
    while let Some(argument) = arguments.next() {
        match argument.as_str() {
            "--pairs" => pairs = number("--pairs", arguments.next())? as usize,
            "--seed" => seed = number("--seed", arguments.next())?,
            "--spoil" => spoil = Some(Spoil::named(&arguments.next().unwrap_or_default())?),
            WITHOUT_NUMBERS => settle_numbers = false,
            "--" => break,
            _ => return Err(format!("{argument:?} is no option")),
        }
    }
    Ok(Search {
        program: Program::new(arguments.collect())?,
        pairs,
        seed,
        spoil,
        settle_numbers,
    })
}

fn number(what: &str, word: Option<String>) -> Result<u64, String> {
    let word = word.ok_or_else(|| format!("{what} needs a number"))?;
    word.parse()
        .map_err(|_| format!("{what}: {word:?} is no fitting number"))
}
