//! A line read as nested forms, and a form read as a call.

use crate::fault::Fault;
use crate::state::{Anchor, Call, Skip};

/// A word, or a bracketed row of forms.
pub(crate) enum Form<'a> {
    Word(&'a [u8]),
    Row(Vec<Form<'a>>),
}

/// What is wrong with a line.
pub enum Bad {
    Line,
    /// A waiter number above 2^64 - 1, told apart for one planted fault only.
    WaiterNumber,
}

/// Where the text stands that is read.
#[derive(Clone, Copy, PartialEq, Eq)]
pub enum Place {
    Line,
    Sheet,
}

#[derive(Clone, Copy)]
pub struct Reader {
    pub fault: Option<Fault>,
    pub place: Place,
}

/// The words with letters that are no hash, for planted faults only.
const WORDS: [&[u8]; 35] = [
    b"deliver",
    b"claim",
    b"release",
    b"apply",
    b"snapshot",
    b"wait",
    b"resume",
    b"completion",
    b"link",
    b"report",
    b"stats",
    b"heads",
    b"sheet",
    b"no-hash",
    b"rpc",
    b"decode",
    b"count",
    b"current",
    b"superseded",
    b"installed",
    b"previous",
    b"unclaimed",
    b"preparing",
    b"settled",
    b"open",
    b"abandoned",
    b"ended",
    b"carried",
    b"cold",
    b"ready",
    b"no-parent",
    b"not-consecutive",
    b"hash-unknown",
    b"hash-mismatch",
    b"parked",
];

impl Reader {
    pub(crate) fn has(&self, fault: Fault) -> bool {
        self.fault == Some(fault)
    }

    pub fn call(&self, line: &[u8]) -> Result<Call, Bad> {
        if line.len() > 512 {
            return Err(Bad::Line);
        }
        self.row(&self.bracketed(line).ok_or(Bad::Line)?)
    }

    /// The forms of the one row that the text is.
    pub(crate) fn bracketed<'a>(&self, text: &'a [u8]) -> Option<Vec<Form<'a>>> {
        match self.form(text)? {
            (Form::Row(row), b"") => Some(row),
            _ => None,
        }
    }

    /// The form at the front of `text`, and the text after it.
    fn form<'a>(&self, text: &'a [u8]) -> Option<(Form<'a>, &'a [u8])> {
        let Some(mut rest) = text.strip_prefix(b"(") else {
            let stop = |byte: &u8| matches!(byte, b'(' | b')') || self.is_space(*byte);
            let length = text.iter().position(stop).unwrap_or(text.len());
            let (word, rest) = text.split_at(length);
            return (length > 0).then(|| (Form::Word(self.word(word)), rest));
        };
        let mut row = Vec::new();
        loop {
            let (form, after) = self.form(rest)?;
            row.push(form);
            match after.split_first()? {
                (b')', after) => return Some((Form::Row(row), after)),
                (byte, after) if self.is_space(*byte) => rest = after,
                _ => return None,
            }
        }
    }

    /// The word as it stands, but for the faults that let its case go.
    fn word<'a>(&self, word: &'a [u8]) -> &'a [u8] {
        let (any_case, any_none) = match self.place {
            Place::Line => (Fault::KeywordAnyCase, Fault::NoneAnyCase),
            Place::Sheet => (Fault::SheetKeywordAnyCase, Fault::SheetNoneAnyCase),
        };
        if self.has(any_none) && word.eq_ignore_ascii_case(b"none") {
            return b"none";
        }
        let known = |known: &&&[u8]| word.eq_ignore_ascii_case(known);
        match WORDS.iter().find(known) {
            Some(known) if self.has(any_case) => known,
            _ => word,
        }
    }

    fn is_space(&self, byte: u8) -> bool {
        byte == b' ' || (byte == b'\t' && self.has(Fault::TabIsSpace))
    }

    fn row(&self, row: &[Form]) -> Result<Call, Bad> {
        let Some((Form::Word(name), parts)) = row.split_first() else {
            return Err(Bad::Line);
        };
        if let (b"wait" | b"resume", Some(Form::Word(word))) = (*name, parts.first()) {
            if word.iter().all(u8::is_ascii_digit) && self.number(&parts[0]).is_none() {
                return Err(Bad::WaiterNumber);
            }
        }
        self.parts(name, parts).ok_or(Bad::Line)
    }

    fn parts(&self, name: &[u8], parts: &[Form]) -> Option<Call> {
        Some(match (name, parts) {
            (b"deliver", [a, p, h]) => {
                Call::Deliver(self.anchor(a)?, self.hash(p)?, self.number(h)?)
            }
            (b"claim", [a, seq]) => Call::Claim(self.anchor(a)?, self.number(seq)?),
            (b"release", [seq, epoch]) => Call::Release(self.number(seq)?, self.number(epoch)?),
            (b"apply", [a, seq, list, x, h, c, report]) => Call::Apply {
                anchor: self.anchor(a)?,
                seq: self.number(seq)?,
                list: self.anchor(list)?,
                skip: self.skip(x)?,
                handle: self.number(h)?,
                carried: self.number(c)?,
                report: self.number(report)?,
            },
            (b"snapshot", [a, h]) => Call::Snapshot(self.anchor(a)?, self.number(h)?),
            (b"wait", [n, a, h]) => Call::Wait(self.number(n)?, self.anchor(a)?, self.number(h)?),
            (b"resume", [n, h]) => Call::Resume(self.number(n)?, self.number(h)?),
            (b"completion", [a]) => Call::Completion(self.anchor(a)?),
            (b"link", [Form::Word(b"none"), a, p]) => {
                Call::Link(None, self.anchor(a)?, self.hash(p)?)
            }
            (b"link", [parent, a, p]) => {
                Call::Link(Some(self.anchor(parent)?), self.anchor(a)?, self.hash(p)?)
            }
            (b"report", []) => Call::Report,
            (b"stats", []) => Call::Stats,
            (b"heads", []) => Call::Heads,
            (b"sheet", []) => Call::Sheet,
            _ => return None,
        })
    }

    pub(crate) fn anchor(&self, form: &Form) -> Option<Anchor> {
        let Form::Row(row) = form else {
            return None;
        };
        let [number, hash] = row.as_slice() else {
            return None;
        };
        let hash = match hash {
            Form::Word(b"none") => None,
            hash => Some(self.hash(hash)?),
        };
        Some(Anchor {
            number: self.number(number)?,
            hash,
        })
    }

    pub(crate) fn number(&self, form: &Form) -> Option<u64> {
        let Form::Word(word) = form else {
            return None;
        };
        if !word.iter().all(u8::is_ascii_digit) {
            return None;
        }
        if word.len() > 1 && word[0] == b'0' && !self.has(Fault::LeadingZero) {
            return None;
        }
        let text = std::str::from_utf8(word).ok()?;
        if self.has(Fault::NumberWraps) {
            // The low 64 bits of a number of up to 38 digits.
            return text.parse::<u128>().ok().map(|number| number as u64);
        }
        text.parse().ok()
    }

    pub(crate) fn skip(&self, form: &Form) -> Option<Skip> {
        match form {
            Form::Word(b"none") => Some(Skip::None),
            Form::Word(b"no-hash") => Some(Skip::NoHash),
            Form::Row(row) => match row.as_slice() {
                [Form::Word(b"rpc"), number] => Some(Skip::Rpc(self.number(number)?)),
                [Form::Word(b"decode"), number] => Some(Skip::Decode(self.number(number)?)),
                _ => None,
            },
            Form::Word(_) => None,
        }
    }
}
