//! Answers and sheets as text.

use crate::state::{
    Anchor, Answer, Generation, Link, Model, Outcome, Readiness, Shown, ShownHead, Skip, Stage,
    View, Waiter,
};
use std::fmt::{self, Display, Formatter};

/// The lines of one answer, each with its line feed.
pub struct Lines<'a>(pub &'a Model, pub &'a Answer);

impl Display for Lines<'_> {
    fn fmt(&self, f: &mut Formatter) -> fmt::Result {
        let Self(model, answer) = self;
        match answer {
            Answer::Ticket(seq) => writeln!(f, "(ticket {seq})"),
            Answer::Claimed(epoch) => writeln!(f, "(claimed {epoch})"),
            Answer::Done => writeln!(f, "(done)"),
            Answer::Settled(outcome) => writeln!(f, "(settled {outcome})"),
            Answer::View(view) => writeln!(f, "(view {view})"),
            Answer::Parked => writeln!(f, "(parked)"),
            Answer::Completion(end) => writeln!(f, "(completion {end})"),
            Answer::Link(Link::Linked) => writeln!(f, "(link linked)"),
            Answer::Link(link) => writeln!(f, "(link {link})"),
            Answer::Report => {
                let report = model.current.as_ref().and_then(|head| head.report);
                writeln!(f, "(report {})", OrNone(report.map(Report)))
            }
            Answer::Stats => writeln!(f, "(stats{})", Numbers(&model.counters)),
            Answer::Heads => writeln!(
                f,
                "(heads {} {} {})",
                OrNone(model.current.as_ref().map(|head| head.anchor)),
                OrNone(model.installed.map(|held| held.anchor)),
                OrNone(model.previous.map(|held| held.anchor)),
            ),
            Answer::Sheet => model.shown().fmt(f),
            Answer::Refused(number) => writeln!(f, "(refused {number})"),
            Answer::Superseded(anchor) => writeln!(f, "(refused 11 {anchor})"),
            Answer::Foreign(list, held) => writeln!(f, "(refused 12 {list} {held})"),
        }
    }
}

/// The sheet, each line with its line feed.
impl Display for Shown {
    fn fmt(&self, f: &mut Formatter) -> fmt::Result {
        writeln!(f, "(count{} {})", Numbers(&self.counters), self.epoch)?;
        writeln!(f, "(current {})", OrNone(self.current))?;
        writeln!(f, "(superseded {})", OrNone(self.superseded))?;
        writeln!(f, "(installed {})", OrNone(self.installed))?;
        writeln!(f, "(previous {})", OrNone(self.previous))?;
        for (number, waiter) in self.waiters.iter().enumerate() {
            match waiter {
                Waiter::Free => {}
                Waiter::Parked => writeln!(f, "(wait {number} parked)")?,
                Waiter::Abandoned(anchor) => writeln!(f, "(wait {number} abandoned {anchor})")?,
                Waiter::Ended(anchor) => writeln!(f, "(wait {number} ended {anchor})")?,
            }
        }
        Ok(())
    }
}

struct OrNone<T>(Option<T>);

impl<T: Display> Display for OrNone<T> {
    fn fmt(&self, f: &mut Formatter) -> fmt::Result {
        match &self.0 {
            Some(value) => value.fmt(f),
            None => f.write_str("none"),
        }
    }
}

struct Numbers<'a>(&'a [u64]);

impl Display for Numbers<'_> {
    fn fmt(&self, f: &mut Formatter) -> fmt::Result {
        self.0.iter().try_for_each(|number| write!(f, " {number}"))
    }
}

struct Report((Outcome, u64));

impl Display for Report {
    fn fmt(&self, f: &mut Formatter) -> fmt::Result {
        let (outcome, number) = &self.0;
        write!(f, "({outcome} {number})")
    }
}

impl Display for Anchor {
    fn fmt(&self, f: &mut Formatter) -> fmt::Result {
        match &self.hash {
            Some(hash) => write!(f, "({} 0x{})", self.number, digits(hash)),
            None => write!(f, "({} none)", self.number),
        }
    }
}

impl Display for ShownHead {
    fn fmt(&self, f: &mut Formatter) -> fmt::Result {
        let anchor = self.anchor;
        let parent = format!("0x{}", digits(&self.parent));
        match self.stage {
            Stage::Unclaimed { handle, abandoned } => {
                let end = if abandoned { "abandoned" } else { "open" };
                write!(f, "unclaimed {anchor} {parent} {handle} {end}")
            }
            Stage::Preparing { handle } => write!(f, "preparing {anchor} {parent} {handle}"),
            Stage::Settled { report } => {
                write!(
                    f,
                    "settled {anchor} {parent} {}",
                    OrNone(report.map(Report))
                )
            }
        }
    }
}

impl Display for Generation {
    fn fmt(&self, f: &mut Formatter) -> fmt::Result {
        let Self {
            anchor,
            handle,
            number,
            readiness,
        } = self;
        write!(f, "{anchor} {handle} {number} {readiness}")
    }
}

impl Display for View {
    fn fmt(&self, f: &mut Formatter) -> fmt::Result {
        let Self {
            source,
            handle,
            number,
            readiness,
        } = self;
        write!(f, "{source} {handle}")?;
        if let Some(number) = number {
            write!(f, " {number}")?;
        }
        write!(f, " {readiness}")
    }
}

impl Display for Outcome {
    fn fmt(&self, f: &mut Formatter) -> fmt::Result {
        match self {
            Self::Carried(carried) => write!(f, "(carried {carried})"),
            Self::Cold(link, skip) => write!(f, "(cold {link} {skip})"),
        }
    }
}

impl Display for Readiness {
    fn fmt(&self, f: &mut Formatter) -> fmt::Result {
        match self {
            Self::Ready => f.write_str("ready"),
            Self::Unprepared => f.write_str("unprepared"),
            Self::Superseded => f.write_str("superseded"),
            Self::Undelivered => f.write_str("undelivered"),
            Self::Abandoned => f.write_str("abandoned"),
            Self::Cold(link, skip) => write!(f, "(cold {link} {skip})"),
        }
    }
}

/// The link's part of a cold outcome: no fault is `none`.
impl Display for Link {
    fn fmt(&self, f: &mut Formatter) -> fmt::Result {
        f.write_str(match self {
            Self::Linked => "none",
            Self::NoParent => "no-parent",
            Self::NotConsecutive => "not-consecutive",
            Self::HashUnknown => "hash-unknown",
            Self::HashMismatch => "hash-mismatch",
        })
    }
}

impl Display for Skip {
    fn fmt(&self, f: &mut Formatter) -> fmt::Result {
        match self {
            Self::None => f.write_str("none"),
            Self::NoHash => f.write_str("no-hash"),
            Self::Rpc(number) => write!(f, "(rpc {number})"),
            Self::Decode(number) => write!(f, "(decode {number})"),
        }
    }
}

fn digits(hash: &[u8; 64]) -> &str {
    std::str::from_utf8(hash).expect("hex digits are text")
}
