//! `restart`: a program that is started anew from its own sheet after every tenth line, beside the
//! published code or a second program in one unbroken run.

use runs::options::Comparison;
use runs::progress::Progress;
use runs::restart::Restarts;
use std::env;
use std::process::ExitCode;

const USAGE: &str = "usage: restart (--seeds FROM TO | --changed) [--lines N] \
    [--malformed IN_A_THOUSAND] [--count NINE NUMBERS] [--beside SECOND] -- PROGRAM [ARGUMENT...]";

fn main() -> ExitCode {
    match run() {
        Ok(true) => ExitCode::SUCCESS,
        Ok(false) => ExitCode::FAILURE,
        Err(problem) => {
            eprintln!("restart: {problem}");
            ExitCode::from(2)
        }
    }
}

/// Run what the command line asks for; false on a difference.
fn run() -> Result<bool, String> {
    let asked =
        Comparison::read(env::args().skip(1)).map_err(|problem| format!("{problem}; {USAGE}"))?;
    let mut restarts = Restarts::new(&asked.sides, asked.recipe.start)?;
    let mut progress = Progress::default();
    let (mut scripts, mut lines, mut differences) = (0, 0, 0);
    for case in asked.scripts.cases(asked.recipe) {
        scripts += 1;
        let place = format!("{scripts} of {} scripts", asked.scripts.count());
        progress.show(&place, lines);
        lines += case.script.len();
        if let Some(difference) = restarts.compare(&case.script, case.answers)? {
            progress.clear();
            differences += 1;
            print!("{}: {difference}", case.name);
            break;
        }
    }
    progress.clear();
    println!(
        "{scripts} scripts, {lines} lines, {} restarts, {differences} differences, {} s",
        restarts.done(),
        progress.elapsed().as_secs()
    );
    Ok(differences == 0)
}
