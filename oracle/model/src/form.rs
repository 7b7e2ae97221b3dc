//! Sheet form: the bytes of a sheet read as what it shows, written as document 01 writes it.

use crate::fault::Fault;
use crate::read::{Form, Reader};
use crate::state::{Generation, Link, Outcome, Readiness, Shown, ShownHead, Skip, Stage, Waiter};

/// The name of a line and its parts.
type Line<'a> = (&'a [u8], Vec<Form<'a>>);

impl Reader {
    /// What the bytes show, if they are in sheet form: count, current, superseded, installed,
    /// previous, then waiters, each line with its line feed, and nothing after them.
    #[must_use]
    pub fn sheet(&self, bytes: &[u8]) -> Option<Shown> {
        let mut lines = bytes.split_inclusive(|byte| *byte == b'\n');
        let (counters, epoch) = self.count(&self.sheet_line(lines.next()?)?)?;
        let current = self.sheet_line(lines.next()?)?;
        let superseded = self.sheet_line(lines.next()?)?;
        let installed = self.sheet_line(lines.next()?)?;
        let previous = self.sheet_line(lines.next()?)?;
        Some(Shown {
            counters,
            epoch,
            current: part(&current, b"current", |parts| self.head(parts))?,
            superseded: part(&superseded, b"superseded", |parts| match parts {
                [anchor] => self.anchor(anchor),
                _ => None,
            })?,
            installed: part(&installed, b"installed", |parts| self.generation(parts))?,
            previous: part(&previous, b"previous", |parts| self.generation(parts))?,
            waiters: self.waiters(lines)?,
        })
    }

    /// A line of a sheet, its line feed with.
    fn sheet_line<'a>(&self, line: &'a [u8]) -> Option<Line<'a>> {
        let text = match line.strip_suffix(b"\n") {
            None if self.has(Fault::LastFeedMissing) => line,
            text => text?,
        };
        let mut forms = self.bracketed(text)?;
        match forms.remove(0) {
            Form::Word(name) => Some((name, forms)),
            Form::Row(_) => None,
        }
    }

    /// Eight counters, then epoch.
    fn count(&self, (name, parts): &Line) -> Option<([u64; 8], u64)> {
        if *name != b"count" || parts.len() != 9 {
            return None;
        }
        let mut counters = [0; 8];
        for (counter, part) in counters.iter_mut().zip(parts) {
            *counter = self.number(part)?;
        }
        Some((counters, self.number(&parts[8])?))
    }

    fn head(&self, parts: &[Form]) -> Option<ShownHead> {
        let [Form::Word(pose), anchor, parent, rest @ ..] = parts else {
            return None;
        };
        let stage = match (*pose, rest) {
            (b"unclaimed", [handle, Form::Word(b"open")]) => Stage::Unclaimed {
                handle: self.number(handle)?,
                abandoned: false,
            },
            (b"unclaimed", [handle, Form::Word(b"abandoned")]) => Stage::Unclaimed {
                handle: self.number(handle)?,
                abandoned: true,
            },
            (b"preparing", [handle]) => Stage::Preparing {
                handle: self.number(handle)?,
            },
            (b"settled", [Form::Word(b"none")]) => Stage::Settled { report: None },
            (b"settled", [report]) => Stage::Settled {
                report: Some(self.report(report)?),
            },
            _ => return None,
        };
        Some(ShownHead {
            anchor: self.anchor(anchor)?,
            parent: self.hash(parent)?,
            stage,
        })
    }

    fn report(&self, form: &Form) -> Option<(Outcome, u64)> {
        match row(form)? {
            [outcome, number] => Some((self.outcome(outcome)?, self.number(number)?)),
            _ => None,
        }
    }

    fn outcome(&self, form: &Form) -> Option<Outcome> {
        match row(form)? {
            [Form::Word(b"carried"), number] => Some(Outcome::Carried(self.number(number)?)),
            parts => self
                .cold(parts)
                .map(|(link, skip)| Outcome::Cold(link, skip)),
        }
    }

    fn generation(&self, parts: &[Form]) -> Option<Generation> {
        let [anchor, handle, number, readiness] = parts else {
            return None;
        };
        Some(Generation {
            anchor: self.anchor(anchor)?,
            handle: self.number(handle)?,
            number: self.number(number)?,
            readiness: self.settled_readiness(readiness)?,
        })
    }

    /// An installed or previous generation is ready or cold with its faults.
    fn settled_readiness(&self, form: &Form) -> Option<Readiness> {
        match form {
            Form::Word(b"ready") => Some(Readiness::Ready),
            Form::Word(_) => None,
            Form::Row(parts) => self
                .cold(parts)
                .map(|(link, skip)| Readiness::Cold(link, skip)),
        }
    }

    fn cold(&self, parts: &[Form]) -> Option<(Link, Skip)> {
        match parts {
            [Form::Word(b"cold"), Form::Word(link), skip] => {
                Some((self.link_fault(link)?, self.skip(skip)?))
            }
            _ => None,
        }
    }

    /// The link's part of a cold outcome: no fault is `none`.
    fn link_fault(&self, word: &[u8]) -> Option<Link> {
        match word {
            b"none" => Some(Link::Linked),
            b"no-parent" => Some(Link::NoParent),
            b"not-consecutive" => Some(Link::NotConsecutive),
            b"hash-unknown" => Some(Link::HashUnknown),
            b"hash-mismatch" => Some(Link::HashMismatch),
            b"linked" if self.has(Fault::LinkedInCold) => Some(Link::Linked),
            _ => None,
        }
    }

    /// Each waiter that is not free, ascending.
    fn waiters<'a>(&self, lines: impl Iterator<Item = &'a [u8]>) -> Option<[Waiter; 16]> {
        let mut waiters = [Waiter::Free; 16];
        let mut next = 0;
        for line in lines {
            let Some((number, waiter)) = self.waiter(line) else {
                return (self.has(Fault::TrailingTaken)).then_some(waiters);
            };
            let again = number + 1 == next && self.has(Fault::WaiterTwice);
            if number < next && !again && !self.has(Fault::AnyWaiterOrder) {
                return None;
            }
            next = number + 1;
            match waiters.get_mut(number) {
                Some(free) => *free = waiter,
                None if number == 16 && self.has(Fault::SixteenTaken) => {}
                None => return None,
            }
        }
        Some(waiters)
    }

    fn waiter(&self, line: &[u8]) -> Option<(usize, Waiter)> {
        let (b"wait", parts) = self.sheet_line(line)? else {
            return None;
        };
        let (number, waiter) = match parts.as_slice() {
            [number, Form::Word(b"parked")] => (number, Waiter::Parked),
            [number, Form::Word(b"abandoned"), anchor] => {
                (number, Waiter::Abandoned(self.anchor(anchor)?))
            }
            [number, Form::Word(b"ended"), anchor] => (number, Waiter::Ended(self.anchor(anchor)?)),
            _ => return None,
        };
        let number = self.number(number).filter(|number| *number <= 16)?;
        Some((usize::try_from(number).ok()?, waiter))
    }
}

/// The part that the line of that name shows: `none`, or what is read. None where it is not read.
fn part<T>(
    (name, parts): &Line,
    expected: &[u8],
    read: impl Fn(&[Form]) -> Option<T>,
) -> Option<Option<T>> {
    match parts.as_slice() {
        _ if *name != expected => None,
        [Form::Word(b"none")] => Some(None),
        parts => read(parts).map(Some),
    }
}

fn row<'a, 'b>(form: &'b Form<'a>) -> Option<&'b [Form<'a>]> {
    match form {
        Form::Row(row) => Some(row),
        Form::Word(_) => None,
    }
}
