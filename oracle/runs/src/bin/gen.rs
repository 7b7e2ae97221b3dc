//! `gen SEED`: the random script of a seed on standard output.

use runs::generate;
use runs::options::Generation;
use std::env;
use std::io::{self, Write};
use std::process::ExitCode;

const USAGE: &str =
    "usage: gen SEED [--lines N] [--malformed IN_A_THOUSAND] [--count NINE NUMBERS]";

fn main() -> ExitCode {
    match run() {
        Ok(()) => ExitCode::SUCCESS,
        Err(problem) => {
            eprintln!("gen: {problem}");
            ExitCode::from(2)
        }
    }
}

fn run() -> Result<(), String> {
    let Generation { seed, recipe } =
        Generation::read(env::args().skip(1)).map_err(|problem| format!("{problem}; {USAGE}"))?;
    let (script, _) = generate(seed, &recipe);
    let written = io::stdout().write_all(script.text());
    written.map_err(|error| error.to_string())
}
