//! `faults MODEL`: how many lines the generator needs to find each fault that can be planted in the
//! model, beside the published code or, where that has no settle numbers to differ in, beside the
//! model without a fault; and how many damaged sheets find each fault in reading sheets.

use runs::compare::Sides;
use runs::damaged::{Search, Sheets};
use runs::{Case, Program, Recipe, Scripts};
use std::env;
use std::process::{Command, ExitCode};

const USAGE: &str = "usage: faults MODEL";

/// Seeds tried for each fault before it counts as not found.
const SEEDS: u64 = 100;

/// Damaged sheets tried for each fault in reading sheets.
const SHEETS: u64 = 20_000;

/// Lines that follow a damaged sheet that is taken.
const AFTER_A_SHEET: usize = 12;

/// How the names of the faults in reading sheets begin.
const OF_SHEETS: &str = "sheet-";

/// Every second seed starts here, so that counters reach their end: the sum of
/// all calls of a script is greater than what is left.
const NEAR_THE_END: [u64; 9] = [u64::MAX - 20; 9];

fn main() -> ExitCode {
    match run() {
        Ok(true) => ExitCode::SUCCESS,
        Ok(false) => ExitCode::FAILURE,
        Err(problem) => {
            eprintln!("faults: {problem}");
            ExitCode::from(2)
        }
    }
}

/// Print a line for each fault; false if one was not found.
fn run() -> Result<bool, String> {
    let mut arguments = env::args().skip(1);
    let (Some(model), None) = (arguments.next(), arguments.next()) else {
        return Err(USAGE.to_owned());
    };
    let faults = names(&model)?;
    let mut found = 0;
    for fault in &faults {
        let program = Program::new(vec![model.clone(), "--fault".to_owned(), fault.clone()])?;
        let until_found = if fault.starts_with(OF_SHEETS) {
            sheets_until_found(program)?
        } else {
            let published = Sides {
                program,
                beside: None,
            };
            let second = Sides {
                beside: Some(Program::new(vec![model.clone()])?),
                ..published.clone()
            };
            lines_until_found([published, second])?
        };
        match until_found {
            Some((count, how)) => {
                found += 1;
                println!("{count:>9}  {fault}{how}");
            }
            None => println!("not found  {fault}"),
        }
    }
    println!("{found} of {} faults found", faults.len());
    Ok(found == faults.len())
}

/// The faults that the model has.
fn names(model: &str) -> Result<Vec<String>, String> {
    let listed = Command::new(model).arg("--faults").output();
    let listed = listed.map_err(|error| format!("{model} cannot be started: {error}"))?;
    let text = String::from_utf8(listed.stdout).map_err(|error| error.to_string())?;
    Ok(text.lines().map(str::to_owned).collect())
}

/// What stands behind a fault by the side on which it was found.
const HOW: [&str; 2] = ["", ", beside the model"];

/// The number of damaged sheets up to the first that the model with the fault judges otherwise or
/// goes on from otherwise.
fn sheets_until_found(program: Program) -> Result<Option<(usize, &'static str)>, String> {
    let search = Search {
        program,
        sheets: Sheets::Numbered {
            from: 1,
            to: SHEETS,
        },
        lines: AFTER_A_SHEET,
    };
    let (searched, found) = search.run()?;
    Ok(found.map(|_| (searched.sheets, ", damaged sheets")))
}

/// The number of lines up to the first that differs, scripts before it with, and how it was found:
/// each script is tried on the first sides, then on the second.
fn lines_until_found(sides: [Sides; 2]) -> Result<Option<(usize, &'static str)>, String> {
    let mut lines = 0;
    for seed in 1..=SEEDS {
        let recipe = Recipe {
            start: if seed % 2 == 0 {
                NEAR_THE_END.into()
            } else {
                [0; 9].into()
            },
            ..Recipe::default()
        };
        let sides = sides.clone().map(|sides| sides.starting_at(recipe.start));
        for Case {
            script, answers, ..
        } in (Scripts::Seeds {
            from: seed,
            to: seed,
        })
        .cases(recipe)
        {
            for (sides, how) in sides.iter().zip(HOW) {
                if let Some(difference) = sides.compare(script.clone(), answers.clone())? {
                    return Ok(Some((lines + difference.line() + 1, how)));
                }
            }
            lines += script.len();
        }
    }
    Ok(None)
}
