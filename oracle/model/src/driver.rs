//! A driver that answers lines.

use crate::fault::Fault;
use crate::read::{Bad, Place, Reader};
use crate::rebuild::NotTaken;
use crate::state::{Answer, Model};
use crate::write::Lines;
use std::io::{self, BufRead, Write};

pub struct Driver {
    pub model: Model,
    reader: Reader,
}

impl Driver {
    /// A new driver with its eight counters and its epoch at `count`.
    #[must_use]
    pub fn new(count: [u64; 9], fault: Option<Fault>) -> Self {
        Self {
            model: Model::new(count, fault),
            reader: line_reader(fault),
        }
    }

    /// The driver that the sheet shows.
    ///
    /// # Errors
    ///
    /// Why the bytes are not taken.
    pub fn from_sheet(bytes: &[u8], fault: Option<Fault>) -> Result<Self, NotTaken> {
        Ok(Self {
            model: Model::from_sheet(bytes, fault)?,
            reader: line_reader(fault),
        })
    }

    /// What `(sheet)` answers.
    #[must_use]
    pub fn sheet(&self) -> Vec<u8> {
        self.model.shown().to_string().into_bytes()
    }

    /// Answer the lines of the input.
    ///
    /// # Errors
    ///
    /// If the input cannot be read or an answer cannot be written.
    pub fn answer_lines(
        &mut self,
        mut input: impl BufRead,
        mut output: impl Write,
    ) -> io::Result<()> {
        let mut line = Vec::new();
        while input.read_until(b'\n', &mut line)? > 0 {
            let whole = line.strip_suffix(b"\n");
            if whole.is_some() || !self.model.has(Fault::LastLineLost) {
                self.answer_line(whole.unwrap_or(&line), &mut output)?;
            }
            line.clear();
        }
        output.flush()
    }

    /// Answer one line.
    ///
    /// # Errors
    ///
    /// If the answer cannot be written.
    pub fn answer_line(&mut self, line: &[u8], output: &mut impl Write) -> io::Result<()> {
        if line.is_empty() && self.model.has(Fault::EmptyLineSilent) {
            return Ok(());
        }
        if line.len() > 512 && self.model.has(Fault::LongLineSplit) {
            self.answer_line(&line[..512], output)?;
            return self.answer_line(&line[512..], output);
        }
        let answer = match self.reader.call(line) {
            Ok(call) => self.model.step(call),
            Err(Bad::WaiterNumber) if self.model.has(Fault::OverflowIsThree) => Answer::Refused(3),
            Err(Bad::Line | Bad::WaiterNumber) => Answer::Refused(1),
        };
        let lines = Lines(&self.model, &answer).to_string();
        output.write_all(&self.spoilt(&answer, lines).into_bytes())
    }

    /// The answer as it is, but for the faults in how hashes are written.
    fn spoilt(&self, answer: &Answer, lines: String) -> String {
        let on_sheet = matches!(answer, Answer::Sheet);
        match self.model.fault {
            Some(Fault::CaseCompared) => lines.to_ascii_lowercase(),
            Some(Fault::BareWritten) => lines.replace("0x", ""),
            Some(Fault::CapitalXWritten) => lines.replace("0x", "0X"),
            Some(Fault::SheetWrittenBare) if on_sheet => lines.replace("0x", ""),
            Some(Fault::SheetWrittenInCapitals) if on_sheet => in_capitals(&lines),
            _ => lines,
        }
    }
}

const fn line_reader(fault: Option<Fault>) -> Reader {
    let place = Place::Line;
    Reader { fault, place }
}

/// The text with the digits of its hashes in capitals.
fn in_capitals(text: &str) -> String {
    let mut parts = text.split("0x");
    let mut capital = parts.next().unwrap_or_default().to_owned();
    for part in parts {
        let (digits, rest) = part.split_at(64);
        capital += &format!("0x{}{rest}", digits.to_ascii_uppercase());
    }
    capital
}
