//! The command lines of `gen`, `compare` and `restart`, and an option of `check` and `sheets`.

use crate::compare::Sides;
use crate::generator::Recipe;
use crate::program::Program;
use crate::scripts::Scripts;
use harness::Start;
use std::num::NonZeroUsize;
use std::str::FromStr;

/// The program writes no settle numbers, as the published code does not.
pub const WITHOUT_NUMBERS: &str = "--without-numbers";

/// What `compare` or `restart` was asked.
pub struct Comparison {
    pub scripts: Scripts,
    pub recipe: Recipe,
    pub sides: Sides,
}

/// What `gen` was asked.
pub struct Generation {
    pub seed: u64,
    pub recipe: Recipe,
}

impl Generation {
    /// Read `SEED [--lines N] [--malformed N] [--count NINE NUMBERS]`.
    ///
    /// # Errors
    ///
    /// One line that says what is wrong.
    pub fn read(mut arguments: impl Iterator<Item = String>) -> Result<Self, String> {
        let mut seed = None;
        let mut recipe = Recipe::default();
        while let Some(argument) = arguments.next() {
            if !recipe_option(&mut recipe, &argument, &mut arguments)? {
                seed = Some(number("SEED", Some(argument))?);
            }
        }
        let seed = seed.ok_or("no SEED is given")?;
        Ok(Self { seed, recipe })
    }
}

impl Comparison {
    /// Read `--seeds FROM TO`, `--short` or `--changed`, `--beside SECOND`, the options of `gen`,
    /// and after `--` the program.
    ///
    /// # Errors
    ///
    /// One line that says what is wrong.
    pub fn read(mut arguments: impl Iterator<Item = String>) -> Result<Self, String> {
        let mut scripts = None;
        let mut beside = None;
        let mut recipe = Recipe::default();
        while let Some(argument) = arguments.next() {
            match argument.as_str() {
                "--seeds" => {
                    let from = number("FROM", arguments.next())?;
                    let to = number("TO", arguments.next())?;
                    if from > to {
                        return Err(format!("FROM {from} is above TO {to}"));
                    }
                    scripts = Some(Scripts::Seeds { from, to });
                }
                "--short" => scripts = Some(Scripts::Short),
                "--changed" => scripts = Some(Scripts::Changed),
                "--beside" => {
                    let second = arguments.next().ok_or("--beside needs a program")?;
                    beside = Some(Program::new(vec![second])?);
                }
                "--" => break,
                _ if recipe_option(&mut recipe, &argument, &mut arguments)? => {}
                _ => return Err(format!("{argument:?} is no option")),
            }
        }
        let program = Program::new(arguments.collect())?;
        Ok(Self {
            scripts: scripts.ok_or("one of --seeds FROM TO, --short, --changed is needed")?,
            recipe,
            sides: Sides { program, beside },
        })
    }
}

/// Read an option of `gen`; false if `argument` is none.
fn recipe_option(
    recipe: &mut Recipe,
    argument: &str,
    arguments: &mut impl Iterator<Item = String>,
) -> Result<bool, String> {
    match argument {
        "--lines" => recipe.lines = number::<NonZeroUsize>(argument, arguments.next())?.get(),
        "--malformed" => recipe.malformed = number(argument, arguments.next())?,
        "--count" => recipe.start = Start::from_arguments(arguments)?,
        _ => return Ok(false),
    }
    Ok(true)
}

fn number<T: FromStr>(what: &str, word: Option<String>) -> Result<T, String> {
    let word = word.ok_or_else(|| format!("{what} needs a number"))?;
    word.parse()
        .map_err(|_| format!("{what}: {word:?} is no fitting number"))
}
