//! One script on both sides.

use crate::filter::without_numbers;
use crate::program::{Failure, Program, Run};
use crate::script::{Script, Transcript};
use crate::shrink::shrink;
use harness::Start;
use std::fmt::{self, Display, Formatter};

/// The most lines of a text that are shown.
const MOST_SHOWN: usize = 200;

/// A program and what its answers are held against.
#[derive(Clone)]
pub struct Sides {
    pub program: Program,
    /// A second program, which the first must equal byte for byte. Without one it is the published
    /// code, which has no settle numbers, so they are struck out of the program's answers.
    pub beside: Option<Program>,
}

/// A script on which a program differs from what it is held against.
pub struct Difference {
    /// What the two sides are called.
    names: [&'static str; 2],
    script: Script,
    expected: Transcript,
    run: Run,
    line: usize,
}

impl Sides {
    /// The two programs told to start from `start`.
    #[must_use]
    pub fn starting_at(self, start: Start) -> Self {
        Self {
            program: self.program.starting_at(start),
            beside: self.beside.map(|beside| beside.starting_at(start)),
        }
    }

    /// Run both sides on a script that the published code answers so.
    ///
    /// # Errors
    ///
    /// One line, if a program cannot be started or the second ends badly.
    pub fn compare(
        &self,
        script: Script,
        published: Transcript,
    ) -> Result<Option<Difference>, String> {
        let mut run = self.program.run(script.text(), published.text().len())?;
        run.output = self.comparable(run.output);
        let expected = self.expected(&script, published)?;
        let names = self.names();
        let line = expected.first_difference(&run.output);
        let ended_badly = run
            .failure
            .is_some()
            .then(|| script.len().saturating_sub(1));
        Ok(line.or(ended_badly).map(|line| Difference {
            names,
            script,
            expected,
            run,
            line,
        }))
    }

    /// What the program must answer to a script that the published code answers so.
    pub(crate) fn expected(
        &self,
        script: &Script,
        published: Transcript,
    ) -> Result<Transcript, String> {
        let Some(beside) = &self.beside else {
            return Ok(published);
        };
        let text = printed(beside, script, &published)?;
        Ok(published.printed_by_another(text))
    }

    /// The part of the program's output that is compared.
    pub(crate) fn comparable(&self, output: Vec<u8>) -> Vec<u8> {
        match self.beside {
            Some(_) => output,
            None => without_numbers(&output),
        }
    }

    /// What the two sides are called.
    pub(crate) const fn names(&self) -> [&'static str; 2] {
        match self.beside {
            Some(_) => ["beside", "program"],
            None => ["oracle", "program, without settle numbers"],
        }
    }
}

/// What the second program prints on a script.
fn printed(beside: &Program, script: &Script, published: &Transcript) -> Result<Vec<u8>, String> {
    let run = beside.run(script.text(), published.text().len())?;
    match run.failure {
        None => Ok(run.output),
        Some(failure) => Err(format!("{beside} ended badly: {failure}")),
    }
}

impl Difference {
    /// The line of the script, counted from 0, whose answers differ first.
    #[must_use]
    pub const fn line(&self) -> usize {
        self.line
    }

    /// The difference on as few lines as shrinking reaches. A run that had to be
    /// ended stays as it is, since shrinking would wait for many more of them.
    ///
    /// # Errors
    ///
    /// One line, if the program cannot be started any more.
    pub fn shrunk(self, sides: &Sides, start: Start) -> Result<Self, String> {
        if matches!(self.run.failure, Some(Failure::EndedByLimit)) {
            return Ok(self);
        }
        let script = shrink(&self.script, start, |script| {
            let expected = script.answers(start);
            let difference = sides.compare(script.clone(), expected);
            difference.map(|difference| difference.is_some())
        })?;
        let expected = script.answers(start);
        Ok(sides.compare(script, expected)?.unwrap_or(self))
    }
}

impl Display for Difference {
    fn fmt(&self, f: &mut Formatter) -> fmt::Result {
        writeln!(
            f,
            "script of {} lines, first difference at line {}:",
            self.script.len(),
            self.line + 1
        )?;
        put_text(f, self.script.text())?;
        writeln!(f, "{}:", self.names[0])?;
        put_text(f, self.expected.text())?;
        writeln!(f, "{}:", self.names[1])?;
        put_text(f, &self.run.output)?;
        match &self.run.failure {
            Some(failure) => writeln!(f, "program ended badly: {failure}"),
            None => Ok(()),
        }
    }
}

/// Indented lines, with bytes that do not print written as escapes.
pub(crate) fn put_text(f: &mut Formatter, text: &[u8]) -> fmt::Result {
    let mut lines = text.split_inclusive(|byte| *byte == b'\n');
    for line in lines.by_ref().take(MOST_SHOWN) {
        let (line, feed) = match line.strip_suffix(b"\n") {
            Some(line) => (line, ""),
            None => (line, " [no line feed]"),
        };
        writeln!(f, "  {}{feed}", line.escape_ascii())?;
    }
    match lines.count() {
        0 => Ok(()),
        more => writeln!(f, "  and {more} more lines"),
    }
}
