//! A program started anew from its own sheet, again and again, beside one unbroken run.

use crate::compare::{put_text, Sides};
use crate::program::Program;
use crate::script::{Script, Transcript};
use crate::sheet_file::SheetFile;
use harness::{Start, COUNTERS};
use std::fmt::{self, Display, Formatter};
use std::ops::Range;

/// The program is started anew after so many lines.
pub const STRETCH: usize = 10;

const SHEET: &[u8] = b"(sheet)\n";

/// How a sheet begins, which no other answer does.
const BEGIN: &[u8] = b"(count ";

/// A program that is started anew, and what its answers are held against.
pub struct Restarts {
    sides: Sides,
    /// The sheet that the first process starts from, if it does not start as a new driver.
    first: Option<Vec<u8>>,
    file: SheetFile,
    done: usize,
}

/// Lines after which a program that was started anew differs from the unbroken run.
pub struct Difference {
    line: usize,
    what: String,
    names: [&'static str; 2],
    /// The sheet that the process started from.
    sheet: Option<Vec<u8>>,
    lines: Vec<u8>,
    expected: Vec<u8>,
    printed: Vec<u8>,
}

impl Restarts {
    /// Runs from `start`. The program gets its counters by a sheet, the second program by its
    /// option.
    ///
    /// # Errors
    ///
    /// One line, if there is no place for a file.
    pub fn new(sides: &Sides, start: Start) -> Result<Self, String> {
        let beside = sides.beside.clone();
        let sides = Sides {
            program: sides.program.clone(),
            beside: beside.map(|beside| beside.starting_at(start)),
        };
        Ok(Self {
            sides,
            first: (start != Start::default()).then(|| counted(start)),
            file: SheetFile::new()?,
            done: 0,
        })
    }

    /// How often the program was started anew from its own sheet.
    #[must_use]
    pub const fn done(&self) -> usize {
        self.done
    }

    /// Run a script that the published code answers so, up to the first difference.
    ///
    /// # Errors
    ///
    /// One line, if a program cannot be started or the second ends badly.
    pub fn compare(
        &mut self,
        script: &Script,
        published: Transcript,
    ) -> Result<Option<Difference>, String> {
        let expected = self.sides.expected(script, published)?;
        let mut sheet = self.first.clone();
        for from in (0..script.len()).step_by(STRETCH) {
            let lines = from..script.len().min(from + STRETCH);
            let last = lines.end == script.len();
            match self.stretch(script, &expected, lines, sheet.take())? {
                Ok(written) => sheet = Some(written),
                Err(difference) => return Ok(Some(difference)),
            }
            self.done += usize::from(!last);
        }
        Ok(None)
    }

    /// Run some lines of the script in a process of their own, started from `sheet`. What it writes
    /// as its sheet at their end, or the difference.
    fn stretch(
        &self,
        script: &Script,
        expected: &Transcript,
        lines: Range<usize>,
        sheet: Option<Vec<u8>>,
    ) -> Result<Result<Vec<u8>, Difference>, String> {
        let from = lines.start;
        let last = lines.end == script.len();
        let text: Vec<u8> = lines
            .clone()
            .flat_map(|line| script.whole(line))
            .copied()
            .collect();
        let answers: Vec<u8> = lines
            .flat_map(|line| expected.answer(line))
            .copied()
            .collect();
        let asked_first = if sheet.is_some() { SHEET } else { b"" };
        let asked_last = if last { b"".as_slice() } else { SHEET };
        let input = [asked_first, &text, asked_last].concat();
        let run = self
            .program(sheet.as_deref())?
            .run(&input, input.len() + answers.len())?;
        let printed = run.output;
        let difference = |what, printed| Difference {
            line: from,
            what,
            names: self.sides.names(),
            sheet: sheet.clone(),
            lines: text.clone(),
            expected: answers.clone(),
            printed,
        };
        if let Some(failure) = run.failure {
            let what = format!("the program ended badly: {failure}");
            return Ok(Err(difference(what, printed)));
        }
        let Some(rest) = printed.strip_prefix(sheet.as_deref().unwrap_or_default()) else {
            return Ok(Err(difference(
                "the sheet is not written again".to_owned(),
                printed,
            )));
        };
        let end = if last { rest.len() } else { sheet_at(rest) };
        let (heard, written) = rest.split_at(end);
        let heard = self.sides.comparable(heard.to_vec());
        if heard != answers {
            return Ok(Err(difference("answers differ".to_owned(), heard)));
        }
        if !last && written.is_empty() {
            return Ok(Err(difference("no sheet is written".to_owned(), printed)));
        }
        Ok(Ok(written.to_vec()))
    }

    /// The program told to start from the sheet.
    fn program(&self, sheet: Option<&[u8]>) -> Result<Program, String> {
        let Some(sheet) = sheet else {
            return Ok(self.sides.program.clone());
        };
        self.file.put(sheet)?;
        Ok(self.sides.program.starting_from(self.file.path()))
    }
}

/// The sheet of a driver that made no call, with these counters.
fn counted(start: Start) -> Vec<u8> {
    let counters: [u64; COUNTERS] = start.into();
    let counters = counters.map(|counter| counter.to_string()).join(" ");
    let absent = "(current none)\n(superseded none)\n(installed none)\n(previous none)\n";
    format!("(count {counters})\n{absent}").into_bytes()
}

/// Where the last sheet of an output begins; its end, if there is none.
fn sheet_at(output: &[u8]) -> usize {
    let mut at = output.len();
    for line in output.split_inclusive(|byte| *byte == b'\n').rev() {
        at -= line.len();
        if line.starts_with(BEGIN) {
            return at;
        }
    }
    output.len()
}

impl Display for Difference {
    fn fmt(&self, f: &mut Formatter) -> fmt::Result {
        writeln!(f, "{}, after line {}", self.what, self.line)?;
        match &self.sheet {
            Some(sheet) => {
                writeln!(f, "started from the sheet:")?;
                put_text(f, sheet)?;
            }
            None => writeln!(f, "started as a new driver")?,
        }
        writeln!(f, "lines:")?;
        put_text(f, &self.lines)?;
        let [expected, printed] = self.names;
        writeln!(f, "{expected}:")?;
        put_text(f, &self.expected)?;
        writeln!(f, "{printed}:")?;
        put_text(f, &self.printed)
    }
}

#[cfg(test)]
mod tests {
    use super::*;

    #[test]
    fn the_last_sheet_is_found() {
        assert_eq!(sheet_at(b"(done)\n(count 1)\n(x)\n(count 2)\n(y)\n"), 21);
        assert_eq!(sheet_at(b"(count 2)\n(y)\n"), 0);
        assert_eq!(sheet_at(b"(done)\n"), 7);
        assert_eq!(sheet_at(b""), 0);
    }

    #[test]
    fn the_first_sheet_shows_the_counters() {
        let sheet = counted(Start::from([1, 2, 3, 4, 5, 6, 7, 8, 9]));
        let taken = model::Model::from_sheet(&sheet, None).ok();
        let shown = taken.map(|model| model.shown());
        assert_eq!(shown.map(|shown| shown.epoch), Some(9));
        assert_eq!(
            shown.map(|shown| shown.counters),
            Some([1, 2, 3, 4, 5, 6, 7, 8])
        );
    }
}
