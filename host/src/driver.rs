//! A driver that owns its sheet.

use crate::answer::Answer;
use crate::{raw, ANSWER_BYTES, SHEET_BYTES};
use std::error::Error;
use std::fmt::{self, Display, Formatter};

/// A head driver.
///
/// It is its sheet, in a buffer of [`SHEET_BYTES`]. The buffer is boxed, so that a driver can be
/// moved, into a lock or to a thread, without 4,096 bytes going along; that is the one allocation,
/// and [`call`](Driver::call) makes no other.
///
/// # Equal drivers
///
/// Two drivers are equal where their sheets are. Equal drivers give equal answers to all further
/// calls, however many. The other way round it holds where no counter of either stands at
/// 2^64 - 1: unequal ones then have a list of calls that they answer differently. (docs/PROVED.md,
/// "The sheet rule over lines".)
#[derive(Clone, PartialEq, Eq)]
pub struct Driver {
    /// The sheet, and zeros behind it.
    sheet: Box<[u8; SHEET_BYTES]>,
}

impl Driver {
    /// A driver to which nothing was delivered.
    ///
    /// # Panics
    ///
    /// With an archive that is not the one it should be.
    #[must_use]
    pub fn new() -> Self {
        let mut sheet = Box::new([0; SHEET_BYTES]);
        let number = raw::new(&mut *sheet);
        assert_eq!(
            number,
            raw::DONE,
            "the buffer is long enough: the archive is not the one it should be"
        );
        Self { sheet }
    }

    /// The driver that a sheet gives.
    ///
    /// # Errors
    ///
    /// [`CallError::SheetNotTaken`] if the bytes are no sheet that is taken: docs/HEADSCRIPT.md,
    /// "Putting a box back". A zero byte anywhere is none of a sheet's, and no sheet has more than
    /// [`SHEET_BYTES`]. Another error only with an archive that is not the one it should be.
    pub fn from_sheet(sheet: impl AsRef<[u8]>) -> Result<Self, CallError> {
        let given = sheet.as_ref();
        let mut sheet = Box::new([0; SHEET_BYTES]);
        // In the buffer a zero byte would end the sheet, and what follows would be lost.
        if given.len() > SHEET_BYTES || given.contains(&0) {
            return Err(CallError::SheetNotTaken);
        }
        sheet[..given.len()].copy_from_slice(given);
        // A call that changes nothing asks whether the sheet is taken.
        CallError::check(raw::call(b"(stats)", &mut *sheet, &mut [0; ANSWER_BYTES]))?;
        Ok(Self { sheet })
    }

    /// The state sheet: its lines, each with its line feed.
    ///
    /// # Panics
    ///
    /// If it were no ASCII, which no sheet of the library is.
    #[must_use]
    pub fn sheet(&self) -> &str {
        std::str::from_utf8(raw::sheet_in(&*self.sheet)).expect("a sheet is ASCII")
    }

    /// Make the call that the line is, given without its line feed.
    ///
    /// A refusal is an answer, [`Answer::Refused`]. `(sheet)` answers [`Answer::Done`]; the sheet
    /// is [`Driver::sheet`].
    ///
    /// # Errors
    ///
    /// Only with an archive that is not the one it should be: see [`CallError`].
    pub fn call(&mut self, line: impl AsRef<[u8]>) -> Result<Answer, CallError> {
        self.answered(line.as_ref(), |text| {
            let unreadable = |_| CallError::Unreadable(text.to_owned());
            text.parse().map_err(unreadable)
        })
    }

    /// As [`Driver::call`], but the answer is its line as text, without its line feed.
    ///
    /// # Errors
    ///
    /// Only with an archive that is not the one it should be: see [`CallError`].
    pub fn call_text(&mut self, line: impl AsRef<[u8]>) -> Result<String, CallError> {
        self.answered(line.as_ref(), |text| Ok(text.to_owned()))
    }

    /// Make a call, and read its answer line without its line feed.
    fn answered<T>(
        &mut self,
        line: &[u8],
        read: impl FnOnce(&str) -> Result<T, CallError>,
    ) -> Result<T, CallError> {
        let mut answer = [0; ANSWER_BYTES];
        CallError::check(raw::call(line, &mut *self.sheet, &mut answer))?;
        read(answer_line(&answer)?)
    }
}

/// The line at the front of the buffer, without its line feed.
fn answer_line(answer: &[u8]) -> Result<&str, CallError> {
    let unreadable = || CallError::Unreadable(String::from_utf8_lossy(answer).into_owned());
    let line = raw::answer_in(answer).ok_or_else(unreadable)?;
    std::str::from_utf8(line).map_err(|_| unreadable())
}

impl Default for Driver {
    fn default() -> Self {
        Self::new()
    }
}

/// Shows the sheet.
impl fmt::Debug for Driver {
    fn fmt(&self, f: &mut Formatter) -> fmt::Result {
        let lines: Vec<&str> = self.sheet().lines().collect();
        f.debug_struct("Driver").field("sheet", &lines).finish()
    }
}

/// What a call came to that has no answer.
///
/// [`Driver::from_sheet`] gives [`SheetNotTaken`](CallError::SheetNotTaken) for bytes that are no
/// sheet. All else comes only with an archive that is not the one it should be: a driver's buffers
/// are long enough, every sheet that the library writes is taken, and every answer is one of the
/// manual's.
#[derive(Clone, PartialEq, Eq)]
pub enum CallError {
    /// The library says that a buffer is too short: its number 4.
    ShortBuffer,
    /// The bytes are no sheet that is taken: the library's number 5.
    SheetNotTaken,
    /// The library returned a number that it does not have.
    Number(u64),
    /// The call was made, but what the answer buffer holds is no answer of the manual.
    Unreadable(String),
}

impl CallError {
    /// What a number that the library returned says.
    fn check(number: u64) -> Result<(), Self> {
        match number {
            raw::DONE => Ok(()),
            raw::SHORT_BUFFER => Err(Self::ShortBuffer),
            raw::SHEET_NOT_TAKEN => Err(Self::SheetNotTaken),
            number => Err(Self::Number(number)),
        }
    }
}

impl Display for CallError {
    fn fmt(&self, f: &mut Formatter) -> fmt::Result {
        match self {
            Self::ShortBuffer => f.write_str("refused 4: a buffer is too short"),
            Self::SheetNotTaken => f.write_str(
                "refused 5: the bytes are no sheet that is taken. Usual causes: a hash without 0x, \
                 line ends other than a line feed, the last line feed missing, a zero byte. See \
                 docs/HEADSCRIPT.md, \"Putting a box back\"",
            ),
            Self::Number(number) => {
                write!(f, "the library returned {number}, which is no number of it")
            }
            Self::Unreadable(text) => write!(f, "the call was made, but {text:?} is no answer"),
        }
    }
}

/// The text of [`Display`], since that is what a `main` that returns an error prints.
impl fmt::Debug for CallError {
    fn fmt(&self, f: &mut Formatter) -> fmt::Result {
        Display::fmt(self, f)
    }
}

impl Error for CallError {}
