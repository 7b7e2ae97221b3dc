//! How often each kind of answer was given.

use harness::{Answer, Outcome, Refusal};
use std::fmt::{self, Display, Formatter};

/// Counts of answers by kind.
#[derive(Clone, Debug, Default)]
pub struct Tally {
    counts: Vec<(&'static str, u64)>,
}

impl Tally {
    pub(crate) fn count(&mut self, answer: &Answer) {
        self.raise(kind(answer), 1);
    }

    pub fn add(&mut self, other: &Self) {
        for (kind, count) in &other.counts {
            self.raise(kind, *count);
        }
    }

    fn raise(&mut self, kind: &'static str, by: u64) {
        match self.counts.iter_mut().find(|(known, _)| *known == kind) {
            Some((_, count)) => *count += by,
            None => self.counts.push((kind, by)),
        }
    }
}

#[cfg(test)]
impl Tally {
    /// How many kinds there are.
    pub(crate) const KINDS: usize = 25;

    /// How many kinds were counted.
    pub(crate) fn kinds(&self) -> usize {
        self.counts.len()
    }

    /// The count of one kind.
    pub(crate) fn of(&self, kind: &str) -> u64 {
        let found = self.counts.iter().find(|(known, _)| *known == kind);
        found.map_or(0, |(_, count)| *count)
    }
}

impl Display for Tally {
    fn fmt(&self, f: &mut Formatter) -> fmt::Result {
        let mut counts = self.counts.clone();
        counts.sort_unstable();
        for (kind, count) in counts {
            writeln!(f, "{count:>12}  {kind}")?;
        }
        Ok(())
    }
}

fn kind(answer: &Answer) -> &'static str {
    match answer {
        Answer::Ticket(_) => "ticket",
        Answer::Claimed(_) => "claimed",
        Answer::Done => "done",
        Answer::Settled(Outcome::Carried(_)) => "settled carried",
        Answer::Settled(Outcome::Cold { .. }) => "settled cold",
        Answer::View(view) if view.readiness.is_ready() => "view ready",
        Answer::View(_) => "view cold",
        Answer::Parked => "parked",
        Answer::Completion(_) => "completion",
        Answer::Link(None) => "link linked",
        Answer::Link(Some(_)) => "link with a fault",
        Answer::Report(None) => "report none",
        Answer::Report(Some(_)) => "report",
        Answer::Stats(_) => "stats",
        Answer::Heads(_) => "heads",
        Answer::Sheet(_) => "sheet",
        Answer::Refused(refusal) => refused(refusal),
    }
}

const fn refused(refusal: &Refusal) -> &'static str {
    match refusal {
        Refusal::NoCall => "refused 1",
        Refusal::ListAtOdds => "refused 2",
        Refusal::NoSuchWaiter => "refused 3",
        Refusal::Superseded { .. } => "refused 11",
        Refusal::Foreign { .. } => "refused 12",
        Refusal::AlreadySettled => "refused 13",
        Refusal::InFlight => "refused 14",
        Refusal::WaiterNotFree => "refused 15",
        Refusal::WaiterFree => "refused 16",
    }
}
