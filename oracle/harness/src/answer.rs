//! Document 01's answers and their lines.

use crate::sheet::Sheet;
use crate::text::{
    link_word, put_anchor, put_cold, put_number, put_numbered, put_optional_anchor, Skip,
};
use degenbot_simulation::sim::evm2::head_lifecycle::probe::Source;
use degenbot_simulation::sim::evm2::head_lifecycle::{
    HeadCold, HeadCompletion, HeadReadiness, HeadStats,
};
use degenbot_simulation::sim::evm2::read_hub::CarryRefusal;
use degenbot_simulation::sim::storage_memo::ReadAnchor;

#[derive(Debug, PartialEq, Eq)]
pub enum Answer {
    Ticket(u64),
    Claimed(u64),
    Done,
    Settled(Outcome),
    View(View),
    Parked,
    Completion(Option<HeadCompletion>),
    Link(Option<CarryRefusal>),
    Report(Option<(Outcome, u64)>),
    Stats(HeadStats),
    Heads([Option<ReadAnchor>; 3]),
    Sheet(Box<Sheet>),
    Refused(Refusal),
}

/// What an apply came to.
#[derive(Clone, Debug, PartialEq, Eq)]
pub enum Outcome {
    Carried(u64),
    Cold {
        link: Option<CarryRefusal>,
        skip: Skip,
    },
}

/// What a caller at one anchor reads.
#[derive(Debug, PartialEq, Eq)]
pub struct View {
    pub source: Source,
    pub handle: u64,
    pub readiness: HeadReadiness,
}

#[derive(Clone, Copy, Debug, PartialEq, Eq)]
pub enum Refusal {
    NoCall,
    ListAtOdds,
    NoSuchWaiter,
    Superseded {
        head: ReadAnchor,
    },
    Foreign {
        prepared: ReadAnchor,
        head: ReadAnchor,
    },
    AlreadySettled,
    InFlight,
    WaiterNotFree,
    WaiterFree,
}

impl Refusal {
    /// Document 01's number.
    #[must_use]
    pub const fn number(&self) -> u64 {
        match self {
            Self::NoCall => 1,
            Self::ListAtOdds => 2,
            Self::NoSuchWaiter => 3,
            Self::Superseded { .. } => 11,
            Self::Foreign { .. } => 12,
            Self::AlreadySettled => 13,
            Self::InFlight => 14,
            Self::WaiterNotFree => 15,
            Self::WaiterFree => 16,
        }
    }
}

impl Answer {
    /// Write the answer's lines, each with its line feed.
    pub fn write(&self, out: &mut Vec<u8>) {
        match self {
            Self::Ticket(seq) => put_numbered(out, b"(ticket ", *seq),
            Self::Claimed(epoch) => put_numbered(out, b"(claimed ", *epoch),
            Self::Done => out.extend_from_slice(b"(done)"),
            Self::Settled(outcome) => {
                out.extend_from_slice(b"(settled ");
                put_outcome(out, outcome);
                out.push(b')');
            }
            Self::View(view) => put_view(out, view),
            Self::Parked => out.extend_from_slice(b"(parked)"),
            Self::Completion(end) => put_worded(out, b"(completion ", completion_word(*end)),
            Self::Link(fault) => {
                put_worded(out, b"(link ", fault.as_ref().map_or(b"linked", link_word));
            }
            Self::Report(report) => {
                out.extend_from_slice(b"(report ");
                put_report(out, report.as_ref());
                out.push(b')');
            }
            Self::Stats(stats) => {
                out.extend_from_slice(b"(stats");
                put_stats(out, stats);
                out.push(b')');
            }
            Self::Heads(heads) => put_heads(out, heads),
            Self::Sheet(sheet) => return sheet.write(out),
            Self::Refused(refusal) => put_refusal(out, refusal),
        }
        out.push(b'\n');
    }
}

fn put_worded(out: &mut Vec<u8>, opened: &[u8], word: &[u8]) {
    out.extend_from_slice(opened);
    out.extend_from_slice(word);
    out.push(b')');
}

pub(crate) fn put_outcome(out: &mut Vec<u8>, outcome: &Outcome) {
    match outcome {
        Outcome::Carried(carried) => put_numbered(out, b"(carried ", *carried),
        Outcome::Cold { link, skip } => put_cold(out, link.as_ref(), *skip),
    }
}

/// `(OUTCOME REPORT)` or `none`.
pub(crate) fn put_report(out: &mut Vec<u8>, report: Option<&(Outcome, u64)>) {
    let Some((outcome, number)) = report else {
        out.extend_from_slice(b"none");
        return;
    };
    out.push(b'(');
    put_outcome(out, outcome);
    put_numbered(out, b" ", *number);
}

pub(crate) fn put_readiness(out: &mut Vec<u8>, readiness: &HeadReadiness) {
    match readiness {
        HeadReadiness::Ready => out.extend_from_slice(b"ready"),
        HeadReadiness::Cold(HeadCold::Settled { lineage, bal }) => {
            put_cold(out, lineage.as_ref(), Skip::reported(bal.as_ref()));
        }
        HeadReadiness::Cold(reason) => out.extend_from_slice(reason.label().as_bytes()),
    }
}

/// The eight counters, each after a space.
pub(crate) fn put_stats(out: &mut Vec<u8>, stats: &HeadStats) {
    let counters = [
        stats.delivered,
        stats.repeated,
        stats.superseded,
        stats.settled,
        stats.already_current,
        stats.discarded,
        stats.ready_views,
        stats.cold_views,
    ];
    for counter in counters {
        out.push(b' ');
        put_number(out, counter);
    }
}

fn put_view(out: &mut Vec<u8>, view: &View) {
    out.extend_from_slice(match view.source {
        Source::Installed => b"(view installed ",
        Source::Provisional => b"(view provisional ",
        Source::Previous => b"(view previous ",
        Source::Spare => b"(view spare ",
    });
    put_number(out, view.handle);
    out.push(b' ');
    put_readiness(out, &view.readiness);
    out.push(b')');
}

fn put_heads(out: &mut Vec<u8>, heads: &[Option<ReadAnchor>; 3]) {
    out.extend_from_slice(b"(heads");
    for head in heads {
        out.push(b' ');
        put_optional_anchor(out, *head);
    }
    out.push(b')');
}

fn put_refusal(out: &mut Vec<u8>, refusal: &Refusal) {
    out.extend_from_slice(b"(refused ");
    put_number(out, refusal.number());
    match refusal {
        Refusal::Superseded { head } => {
            out.push(b' ');
            put_anchor(out, *head);
        }
        Refusal::Foreign { prepared, head } => {
            out.push(b' ');
            put_anchor(out, *prepared);
            out.push(b' ');
            put_anchor(out, *head);
        }
        _ => {}
    }
    out.push(b')');
}

const fn completion_word(end: Option<HeadCompletion>) -> &'static [u8] {
    match end {
        None => b"none",
        Some(HeadCompletion::Settled) => b"settled",
        Some(HeadCompletion::Superseded) => b"superseded",
        Some(HeadCompletion::Abandoned) => b"abandoned",
    }
}

#[cfg(test)]
mod tests {
    use super::*;
    use alloy::primitives::B256;

    #[test]
    fn the_longest_answer_has_277_bytes_and_a_line_feed() {
        let anchor = ReadAnchor {
            number: u64::MAX,
            hash: Some(B256([0xab; 32])),
        };
        let mut line = Vec::new();
        Answer::Heads([Some(anchor); 3]).write(&mut line);
        assert_eq!(line.len(), 277 + 1);
        let written = format!("(18446744073709551615 0x{})", "ab".repeat(32));
        assert!(line.ends_with(format!(" {written})\n").as_bytes()));
    }
}
