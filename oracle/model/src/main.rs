//! `model`: reads lines from standard input and prints the model's answers. With FILE it starts
//! from the driver that the sheet in FILE shows.

use model::{Driver, Fault, FAULTS, LONGEST_SHEET};
use std::env;
use std::ffi::{OsStr, OsString};
use std::fs::File;
use std::io::{self, BufWriter, Read, Write};
use std::process::ExitCode;

const USAGE: &str =
    "usage: model [--fault NAME] [--count NINE NUMBERS | FILE] < LINES, or model --faults";

fn main() -> ExitCode {
    match run() {
        Ok(()) => ExitCode::SUCCESS,
        Err(problem) => {
            eprintln!("model: {problem}");
            ExitCode::from(2)
        }
    }
}

fn run() -> Result<(), String> {
    let mut count = None;
    let mut fault = None;
    let mut files = Vec::new();
    let mut arguments = env::args_os().skip(1);
    while let Some(argument) = arguments.next() {
        match argument.to_str() {
            Some("--faults") => {
                FAULTS.iter().for_each(|(_, name)| println!("{name}"));
                return Ok(());
            }
            Some("--fault") => fault = Some(named_fault(arguments.next())?),
            Some("--count") => count = Some(nine_numbers(&mut arguments)?),
            Some(option) if option.starts_with("--") => return Err(USAGE.to_owned()),
            _ => files.push(argument),
        }
    }
    let driver = match (count, files.as_slice()) {
        (count, []) => Some(Driver::new(count.unwrap_or_default(), fault)),
        (Some(_), _) => return Err(USAGE.to_owned()),
        (None, [file]) => read(file)
            .ok()
            .and_then(|bytes| Driver::from_sheet(&bytes, fault).ok()),
        (None, _) => None,
    };
    answer(driver).map_err(|error| error.to_string())
}

/// Answer standard input, or say that no sheet was taken.
fn answer(driver: Option<Driver>) -> io::Result<()> {
    let mut output = BufWriter::with_capacity(1 << 16, io::stdout().lock());
    match driver {
        Some(mut driver) => driver.answer_lines(io::stdin().lock(), output),
        None => {
            output.write_all(b"(refused 5)\n")?;
            output.flush()
        }
    }
}

/// What FILE holds, up to one byte more than any sheet has. A name that is no UTF-8 names none.
fn read(file: &OsStr) -> io::Result<Vec<u8>> {
    let file = file.to_str().ok_or(io::ErrorKind::InvalidInput)?;
    let mut bytes = Vec::new();
    let most = LONGEST_SHEET as u64 + 1;
    File::open(file)?.take(most).read_to_end(&mut bytes)?;
    Ok(bytes)
}

fn named_fault(name: Option<OsString>) -> Result<Fault, String> {
    let name = name.unwrap_or_default();
    let known = FAULTS.iter().find(|(_, known)| name == **known);
    known
        .map(|(fault, _)| *fault)
        .ok_or_else(|| format!("no fault is named {name:?}: model --faults lists them"))
}

fn nine_numbers(arguments: &mut impl Iterator<Item = OsString>) -> Result<[u64; 9], String> {
    let mut numbers = [0; 9];
    for number in &mut numbers {
        let word = arguments.next().unwrap_or_default();
        *number = word
            .to_str()
            .and_then(|word| word.parse().ok())
            .ok_or("--count needs nine numbers from 0 to 2^64 - 1")?;
    }
    Ok(numbers)
}
