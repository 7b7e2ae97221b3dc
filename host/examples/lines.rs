//! The program headscript, made of the library: lines on standard input, answers on standard
//! output, `(sheet)` answered with the sheet. With FILE it starts from the sheet in FILE, or prints
//! `(refused 5)` and nothing else where that is not taken.
//!
//! It is an example of a host without threads; and the programs of `oracle/`, which try any program
//! that reads such lines, try the library by it.

use std::env;
use std::ffi::OsString;
use std::fs;
use std::io::{self, BufRead, Write};
use temsroi::Driver;

fn main() -> io::Result<()> {
    let files: Vec<OsString> = env::args_os().skip(1).collect();
    let mut output = io::stdout().lock();
    match driver(&files) {
        Some(driver) => answer(driver, io::stdin().lock(), output),
        None => writeln!(output, "(refused 5)"),
    }
}

/// A new driver, or the one that the sheet in the file gives.
fn driver(files: &[OsString]) -> Option<Driver> {
    match files {
        [] => Some(Driver::new()),
        [file] => Driver::from_sheet(fs::read(file).ok()?).ok(),
        _ => None,
    }
}

/// Answer every line; the last may lack its line feed.
fn answer(mut driver: Driver, mut input: impl BufRead, mut output: impl Write) -> io::Result<()> {
    let mut line = Vec::new();
    while input.read_until(b'\n', &mut line)? > 0 {
        let call = line.strip_suffix(b"\n").unwrap_or(&line);
        let answer = driver.call_text(call).map_err(io::Error::other)?;
        if call == b"(sheet)" {
            write!(output, "{}", driver.sheet())?;
        } else {
            writeln!(output, "{answer}")?;
        }
        line.clear();
    }
    output.flush()
}
