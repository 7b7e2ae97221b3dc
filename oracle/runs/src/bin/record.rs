//! `record FOLDER`: the recording for `crates/replay` and what it holds.

use runs::recording::{recording, Recording};
use std::env;
use std::fs;
use std::path::Path;
use std::process::ExitCode;

const USAGE: &str = "usage: record FOLDER";

fn main() -> ExitCode {
    match run() {
        Ok(()) => ExitCode::SUCCESS,
        Err(problem) => {
            eprintln!("record: {problem}");
            ExitCode::from(2)
        }
    }
}

fn run() -> Result<(), String> {
    let mut arguments = env::args().skip(1);
    let (Some(folder), None) = (arguments.next(), arguments.next()) else {
        return Err(USAGE.to_owned());
    };
    let Recording { text, summary } = recording();
    for (name, bytes) in [("runs", text.as_slice()), ("tally", summary.as_bytes())] {
        let path = Path::new(&folder).join(name);
        fs::write(&path, bytes).map_err(|error| format!("{}: {error}", path.display()))?;
    }
    Ok(())
}
