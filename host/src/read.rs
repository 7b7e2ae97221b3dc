//! Answers read from their lines, and anchors and hashes as answers have them.

use crate::answer::{
    Anchor, Answer, Cold, End, Hash, Heads, Link, Outcome, Readiness, Refusal, Report, Skip,
    Source, Stats, View,
};
use std::error::Error;
use std::fmt::{self, Display, Formatter};
use std::str::FromStr;

/// A text is no answer of the manual, or no anchor or hash as answers have them.
#[derive(Clone, Copy, Debug, PartialEq, Eq)]
pub struct ParseError;

impl Display for ParseError {
    fn fmt(&self, f: &mut Formatter) -> fmt::Result {
        f.write_str("the text is not written as the manual's answers are")
    }
}

impl Error for ParseError {}

/// Reads a line without its line feed, if it has one of the manual's forms, byte for byte. What
/// the parts of a form say together is not asked.
impl FromStr for Answer {
    type Err = ParseError;

    fn from_str(line: &str) -> Result<Self, ParseError> {
        whole(line, Reader::answer)
    }
}

/// Reads `(NUMBER HASH)` or `(NUMBER none)`, byte for byte as answers have it.
impl FromStr for Anchor {
    type Err = ParseError;

    fn from_str(text: &str) -> Result<Self, ParseError> {
        whole(text, Reader::anchor)
    }
}

/// Reads `0x` and 64 lowercase digits, as answers have it. A call may have capitals; here they are
/// an error.
impl FromStr for Hash {
    type Err = ParseError;

    fn from_str(text: &str) -> Result<Self, ParseError> {
        whole(text, Reader::hash)
    }
}

/// What is read from a text, if nothing stands behind it.
fn whole<'a, T>(
    text: &'a str,
    read: impl FnOnce(&mut Reader<'a>) -> Option<T>,
) -> Result<T, ParseError> {
    let mut reader = Reader { rest: text };
    match read(&mut reader) {
        Some(value) if reader.rest.is_empty() => Ok(value),
        _ => Err(ParseError),
    }
}

/// Reads parts from the front of a text. A part that is not there is none, and then the whole text
/// is an error: nothing is read again.
struct Reader<'a> {
    rest: &'a str,
}

impl Reader<'_> {
    fn answer(&mut self) -> Option<Answer> {
        self.text("(")?;
        let answer = match self.word() {
            "ticket" => Answer::Ticket(self.part(Self::number)?),
            "claimed" => Answer::Claimed(self.part(Self::number)?),
            "done" => Answer::Done,
            "settled" => Answer::Settled(self.part(Self::outcome)?),
            "view" => Answer::View(self.view()?),
            "parked" => Answer::Parked,
            "completion" => Answer::Completion(self.part(Self::end)?),
            "link" => Answer::Link(self.part(Self::link)?),
            "report" => Answer::Report(self.part(|r| r.or_none(Self::report))?),
            "stats" => Answer::Stats(self.stats()?),
            "heads" => Answer::Heads(self.heads()?),
            "refused" => Answer::Refused(self.refusal()?),
            _ => return None,
        };
        self.text(")")?;
        Some(answer)
    }

    /// Take `text` if it comes next.
    fn text(&mut self, text: &str) -> Option<()> {
        self.rest = self.rest.strip_prefix(text)?;
        Some(())
    }

    /// The bytes that come before a space or a bracket.
    fn word(&mut self) -> &str {
        let end = self.rest.find([' ', '(', ')']);
        let (word, rest) = self.rest.split_at(end.unwrap_or(self.rest.len()));
        self.rest = rest;
        word
    }

    /// A part with the space before it.
    fn part<T>(&mut self, read: impl FnOnce(&mut Self) -> Option<T>) -> Option<T> {
        self.text(" ")?;
        read(self)
    }

    /// The word `none`, or what is read.
    fn or_none<T>(&mut self, read: impl FnOnce(&mut Self) -> Option<T>) -> Option<Option<T>> {
        match self.text("none") {
            Some(()) => Some(None),
            None => read(self).map(Some),
        }
    }

    /// Digits without a leading zero, at most 2^64 - 1.
    fn number(&mut self) -> Option<u64> {
        let word = self.word();
        let digits = !word.is_empty() && word.bytes().all(|byte| byte.is_ascii_digit());
        if !digits || (word.len() > 1 && word.starts_with('0')) {
            return None;
        }
        word.parse().ok()
    }

    fn view(&mut self) -> Option<View> {
        let source = self.part(|reader| match reader.word() {
            "installed" => Some(Source::Installed { settle: 0 }),
            "provisional" => Some(Source::Provisional),
            "previous" => Some(Source::Previous { settle: 0 }),
            "spare" => Some(Source::Spare),
            _ => None,
        })?;
        let handle = self.part(Self::number)?;
        // The settle number stands behind the handle.
        let source = match source {
            Source::Installed { .. } => Source::Installed {
                settle: self.part(Self::number)?,
            },
            Source::Previous { .. } => Source::Previous {
                settle: self.part(Self::number)?,
            },
            unnumbered => unnumbered,
        };
        Some(View {
            source,
            handle,
            readiness: self.part(Self::readiness)?,
        })
    }

    fn readiness(&mut self) -> Option<Readiness> {
        if self.rest.starts_with('(') {
            return self.cold().map(Readiness::Cold);
        }
        match self.word() {
            "ready" => Some(Readiness::Ready),
            "unprepared" => Some(Readiness::Unprepared),
            "superseded" => Some(Readiness::Superseded),
            "undelivered" => Some(Readiness::Undelivered),
            "abandoned" => Some(Readiness::Abandoned),
            _ => None,
        }
    }

    fn outcome(&mut self) -> Option<Outcome> {
        if self.text("(carried ").is_none() {
            return self.cold().map(Outcome::Cold);
        }
        let carried = self.number()?;
        self.text(")")?;
        Some(Outcome::Carried(carried))
    }

    fn cold(&mut self) -> Option<Cold> {
        self.text("(cold ")?;
        let link = self.or_none(Self::link_fault)?.unwrap_or(Link::Linked);
        let skip = self.part(Self::skip)?;
        self.text(")")?;
        Some(Cold { link, skip })
    }

    fn link(&mut self) -> Option<Link> {
        match self.text("linked") {
            Some(()) => Some(Link::Linked),
            None => self.link_fault(),
        }
    }

    fn link_fault(&mut self) -> Option<Link> {
        match self.word() {
            "no-parent" => Some(Link::NoParent),
            "not-consecutive" => Some(Link::NotConsecutive),
            "hash-unknown" => Some(Link::HashUnknown),
            "hash-mismatch" => Some(Link::HashMismatch),
            _ => None,
        }
    }

    fn skip(&mut self) -> Option<Skip> {
        if self.text("(").is_none() {
            return match self.word() {
                "none" => Some(Skip::None),
                "no-hash" => Some(Skip::NoHash),
                _ => None,
            };
        }
        let skip = match self.word() {
            "rpc" => Skip::Rpc(self.part(Self::number)?),
            "decode" => Skip::Decode(self.part(Self::number)?),
            _ => return None,
        };
        self.text(")")?;
        Some(skip)
    }

    fn end(&mut self) -> Option<End> {
        match self.word() {
            "none" => Some(End::None),
            "settled" => Some(End::Settled),
            "abandoned" => Some(End::Abandoned),
            _ => None,
        }
    }

    fn report(&mut self) -> Option<Report> {
        self.text("(")?;
        let outcome = self.outcome()?;
        let number = self.part(Self::number)?;
        self.text(")")?;
        Some(Report { outcome, number })
    }

    fn stats(&mut self) -> Option<Stats> {
        let mut counter = || self.part(Self::number);
        Some(Stats {
            delivered: counter()?,
            repeated: counter()?,
            superseded: counter()?,
            settled: counter()?,
            already_current: counter()?,
            discarded: counter()?,
            ready_views: counter()?,
            cold_views: counter()?,
        })
    }

    fn heads(&mut self) -> Option<Heads> {
        let mut head = || self.part(|reader| reader.or_none(Self::anchor));
        Some(Heads {
            current: head()?,
            installed: head()?,
            previous: head()?,
        })
    }

    fn refusal(&mut self) -> Option<Refusal> {
        Some(match self.part(Self::number)? {
            1 => Refusal::NoCall,
            2 => Refusal::ListAtOdds,
            3 => Refusal::NoSuchWaiter,
            11 => Refusal::Superseded {
                head: self.part(Self::anchor)?,
            },
            12 => Refusal::Foreign {
                list: self.part(Self::anchor)?,
                head: self.part(Self::anchor)?,
            },
            13 => Refusal::AlreadySettled,
            14 => Refusal::InFlight,
            15 => Refusal::WaiterNotFree,
            16 => Refusal::WaiterFree,
            _ => return None,
        })
    }

    fn anchor(&mut self) -> Option<Anchor> {
        self.text("(")?;
        let number = self.number()?;
        let hash = self.part(|reader| reader.or_none(Self::hash))?;
        self.text(")")?;
        Some(Anchor { number, hash })
    }

    /// `0x` and 64 lowercase digits.
    fn hash(&mut self) -> Option<Hash> {
        self.text("0x")?;
        let digits = self.word().as_bytes();
        if digits.len() != 64 {
            return None;
        }
        let mut hash = Hash::default();
        for (byte, pair) in hash.0.iter_mut().zip(digits.chunks_exact(2)) {
            *byte = digit(pair[0])? << 4 | digit(pair[1])?;
        }
        Some(hash)
    }
}

fn digit(byte: u8) -> Option<u8> {
    match byte {
        b'0'..=b'9' => Some(byte - b'0'),
        b'a'..=b'f' => Some(byte - b'a' + 10),
        _ => None,
    }
}
