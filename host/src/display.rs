//! Answers as text.

use crate::answer::{
    Anchor, Answer, Cold, End, Hash, Heads, Link, Outcome, Readiness, Refusal, Report, Skip,
    Source, Stats, View,
};
use std::fmt::{self, Display, Formatter};

/// The answer's line, without its line feed.
impl Display for Answer {
    fn fmt(&self, f: &mut Formatter) -> fmt::Result {
        match self {
            Self::Ticket(seq) => write!(f, "(ticket {seq})"),
            Self::Claimed(epoch) => write!(f, "(claimed {epoch})"),
            Self::Done => f.write_str("(done)"),
            Self::Settled(outcome) => write!(f, "(settled {outcome})"),
            Self::View(view) => view.fmt(f),
            Self::Parked => f.write_str("(parked)"),
            Self::Completion(end) => write!(f, "(completion {end})"),
            Self::Link(link) => write!(f, "(link {link})"),
            Self::Report(report) => write!(f, "(report {})", OrNone(report)),
            Self::Stats(stats) => stats.fmt(f),
            Self::Heads(heads) => heads.fmt(f),
            Self::Refused(refusal) => refusal.fmt(f),
        }
    }
}

impl Display for Outcome {
    fn fmt(&self, f: &mut Formatter) -> fmt::Result {
        match self {
            Self::Carried(carried) => write!(f, "(carried {carried})"),
            Self::Cold(cold) => cold.fmt(f),
        }
    }
}

impl Display for Cold {
    fn fmt(&self, f: &mut Formatter) -> fmt::Result {
        let link = (self.link != Link::Linked).then_some(self.link);
        write!(f, "(cold {} {})", OrNone(&link), self.skip)
    }
}

/// The word of a link answer.
impl Display for Link {
    fn fmt(&self, f: &mut Formatter) -> fmt::Result {
        f.write_str(match self {
            Self::Linked => "linked",
            Self::NoParent => "no-parent",
            Self::NotConsecutive => "not-consecutive",
            Self::HashUnknown => "hash-unknown",
            Self::HashMismatch => "hash-mismatch",
        })
    }
}

impl Display for Skip {
    fn fmt(&self, f: &mut Formatter) -> fmt::Result {
        match self {
            Self::None => f.write_str("none"),
            Self::NoHash => f.write_str("no-hash"),
            Self::Rpc(number) => write!(f, "(rpc {number})"),
            Self::Decode(number) => write!(f, "(decode {number})"),
        }
    }
}

impl Display for View {
    fn fmt(&self, f: &mut Formatter) -> fmt::Result {
        let Self {
            handle, readiness, ..
        } = self;
        match self.source {
            Source::Installed { settle } => {
                write!(f, "(view installed {handle} {settle} {readiness})")
            }
            Source::Provisional => write!(f, "(view provisional {handle} {readiness})"),
            Source::Previous { settle } => {
                write!(f, "(view previous {handle} {settle} {readiness})")
            }
            Source::Spare => write!(f, "(view spare {handle} {readiness})"),
        }
    }
}

impl Display for Readiness {
    fn fmt(&self, f: &mut Formatter) -> fmt::Result {
        match self {
            Self::Ready => f.write_str("ready"),
            Self::Unprepared => f.write_str("unprepared"),
            Self::Superseded => f.write_str("superseded"),
            Self::Undelivered => f.write_str("undelivered"),
            Self::Abandoned => f.write_str("abandoned"),
            Self::Cold(cold) => cold.fmt(f),
        }
    }
}

impl Display for End {
    fn fmt(&self, f: &mut Formatter) -> fmt::Result {
        f.write_str(match self {
            Self::None => "none",
            Self::Settled => "settled",
            Self::Abandoned => "abandoned",
        })
    }
}

impl Display for Report {
    fn fmt(&self, f: &mut Formatter) -> fmt::Result {
        write!(f, "({} {})", self.outcome, self.number)
    }
}

/// The line of the answer.
impl Display for Stats {
    fn fmt(&self, f: &mut Formatter) -> fmt::Result {
        let counters = [
            self.delivered,
            self.repeated,
            self.superseded,
            self.settled,
            self.already_current,
            self.discarded,
            self.ready_views,
            self.cold_views,
        ];
        f.write_str("(stats")?;
        counters
            .iter()
            .try_for_each(|counter| write!(f, " {counter}"))?;
        f.write_str(")")
    }
}

/// The line of the answer.
impl Display for Heads {
    fn fmt(&self, f: &mut Formatter) -> fmt::Result {
        let [current, installed, previous] =
            [&self.current, &self.installed, &self.previous].map(OrNone);
        write!(f, "(heads {current} {installed} {previous})")
    }
}

/// The line of the answer.
impl Display for Refusal {
    fn fmt(&self, f: &mut Formatter) -> fmt::Result {
        let number = self.number();
        match self {
            Self::Superseded { head } => write!(f, "(refused {number} {head})"),
            Self::Foreign { list, head } => write!(f, "(refused {number} {list} {head})"),
            _ => write!(f, "(refused {number})"),
        }
    }
}

impl Display for Anchor {
    fn fmt(&self, f: &mut Formatter) -> fmt::Result {
        write!(f, "({} {})", self.number, OrNone(&self.hash))
    }
}

impl Display for Hash {
    fn fmt(&self, f: &mut Formatter) -> fmt::Result {
        f.write_str("0x")?;
        self.0.iter().try_for_each(|byte| write!(f, "{byte:02x}"))
    }
}

impl fmt::Debug for Hash {
    fn fmt(&self, f: &mut Formatter) -> fmt::Result {
        Display::fmt(self, f)
    }
}

/// What is there, or the word `none`.
struct OrNone<'a, T>(&'a Option<T>);

impl<T: Display> Display for OrNone<'_, T> {
    fn fmt(&self, f: &mut Formatter) -> fmt::Result {
        match self.0 {
            Some(value) => value.fmt(f),
            None => f.write_str("none"),
        }
    }
}
