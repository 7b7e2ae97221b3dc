//! The families of scripts that are compared.

use crate::forms::{changed_scripts, short_scripts, CHANGED_SCRIPTS, SHORT_SCRIPTS};
use crate::generator::{generate, Recipe};
use crate::script::{Script, Transcript};
use harness::Start;

/// A family of scripts.
#[derive(Clone, Copy, Debug)]
pub enum Scripts {
    /// The random scripts of the seeds from one to another, both with.
    Seeds {
        from: u64,
        to: u64,
    },
    Short,
    Changed,
}

/// A script with its name and its answers.
pub struct Case {
    pub name: String,
    pub script: Script,
    pub answers: Transcript,
}

impl Scripts {
    /// How many scripts the family has.
    #[must_use]
    pub const fn count(&self) -> usize {
        match self {
            Self::Seeds { from, to } => to.saturating_sub(*from).saturating_add(1) as usize,
            Self::Short => SHORT_SCRIPTS,
            Self::Changed => CHANGED_SCRIPTS,
        }
    }

    /// What one script of the family is called.
    const fn name(&self) -> &'static str {
        match self {
            Self::Seeds { .. } => "seed",
            Self::Short => "short script",
            Self::Changed => "changed form",
        }
    }

    /// The scripts, each made when it is asked for.
    #[must_use]
    pub fn cases(self, recipe: Recipe) -> Box<dyn Iterator<Item = Case>> {
        match self {
            Self::Seeds { from, to } => Box::new((from..=to).map(move |seed| {
                let (script, answers) = generate(seed, &recipe);
                self.case(seed, script, answers)
            })),
            Self::Short => self.counted(short_scripts(), recipe.start),
            Self::Changed => self.counted(changed_scripts(), recipe.start),
        }
    }

    fn counted(
        self,
        scripts: impl Iterator<Item = Script> + 'static,
        start: Start,
    ) -> Box<dyn Iterator<Item = Case>> {
        Box::new((1..).zip(scripts).map(move |(number, script)| {
            let answers = script.answers(start);
            self.case(number, script, answers)
        }))
    }

    fn case(&self, number: u64, script: Script, answers: Transcript) -> Case {
        Case {
            name: format!("{} {number}", self.name()),
            script,
            answers,
        }
    }
}
