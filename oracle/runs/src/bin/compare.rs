//! `compare`: a program beside the published code, or beside a second program, script by script,
//! until the first difference.

use runs::compare::Difference;
use runs::options::Comparison;
use runs::progress::Progress;
use runs::Tally;
use std::env;
use std::process::ExitCode;

const USAGE: &str = "usage: compare (--seeds FROM TO | --short | --changed) [--lines N] \
    [--malformed IN_A_THOUSAND] [--count NINE NUMBERS] [--beside SECOND] -- PROGRAM [ARGUMENT...]";

fn main() -> ExitCode {
    match run() {
        Ok(true) => ExitCode::SUCCESS,
        Ok(false) => ExitCode::FAILURE,
        Err(problem) => {
            eprintln!("compare: {problem}");
            ExitCode::from(2)
        }
    }
}

/// What was compared so far.
#[derive(Default)]
struct Totals {
    scripts: usize,
    lines: usize,
    tally: Tally,
}

/// Compare what the command line asks for; false on a difference.
fn run() -> Result<bool, String> {
    let mut asked =
        Comparison::read(env::args().skip(1)).map_err(|problem| format!("{problem}; {USAGE}"))?;
    asked.sides = asked.sides.starting_at(asked.recipe.start);
    let mut progress = Progress::default();
    let mut totals = Totals::default();
    let difference = first_difference(&asked, &mut totals, &mut progress)?;
    progress.clear();
    let Totals {
        scripts,
        lines,
        tally,
    } = totals;
    if let Some((name, found)) = difference {
        println!("{name} differs at line {}; shrinking", found.line() + 1);
        print!("{}", found.shrunk(&asked.sides, asked.recipe.start)?);
        println!("{scripts} scripts, {lines} lines, 1 difference");
        return Ok(false);
    }
    let seconds = progress.elapsed().as_secs();
    print!("{tally}");
    println!("{scripts} scripts, {lines} lines, 0 differences, {seconds} s");
    Ok(true)
}

/// The first script on which the program differs, by its name.
fn first_difference(
    asked: &Comparison,
    totals: &mut Totals,
    progress: &mut Progress,
) -> Result<Option<(String, Difference)>, String> {
    for case in asked.scripts.cases(asked.recipe) {
        totals.scripts += 1;
        let place = format!("{} of {} scripts", totals.scripts, asked.scripts.count());
        progress.show(&place, totals.lines);
        totals.lines += case.script.len();
        totals.tally.add(case.answers.tally());
        if let Some(found) = asked.sides.compare(case.script, case.answers)? {
            return Ok(Some((case.name, found)));
        }
    }
    Ok(None)
}
