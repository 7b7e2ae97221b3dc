//! The state sheet.

use crate::answer::{put_readiness, put_report, put_stats, Outcome};
use crate::text::{put_anchor, put_hash, put_number, put_numbered, put_optional_anchor};
use alloy::primitives::B256;
use degenbot_simulation::sim::evm2::head_lifecycle::{HeadReadiness, HeadStats};
use degenbot_simulation::sim::storage_memo::ReadAnchor;

#[derive(Debug, PartialEq, Eq)]
pub struct Sheet {
    pub(crate) stats: HeadStats,
    pub(crate) claim_epoch: u64,
    pub(crate) current: Option<SheetHead>,
    pub(crate) superseded: Option<ReadAnchor>,
    pub(crate) installed: Option<SheetGeneration>,
    pub(crate) previous: Option<SheetGeneration>,
    pub(crate) waiters: Vec<(usize, WaiterState)>,
}

#[derive(Debug, PartialEq, Eq)]
pub(crate) struct SheetHead {
    pub(crate) anchor: ReadAnchor,
    pub(crate) parent_hash: B256,
    pub(crate) pose: SheetPose,
}

#[derive(Debug, PartialEq, Eq)]
pub(crate) enum SheetPose {
    Unclaimed { handle: u64, abandoned: bool },
    Preparing { handle: u64 },
    Settled { report: Option<(Outcome, u64)> },
}

#[derive(Debug, PartialEq, Eq)]
pub(crate) struct SheetGeneration {
    pub(crate) anchor: ReadAnchor,
    pub(crate) handle: u64,
    pub(crate) readiness: HeadReadiness,
}

#[derive(Clone, Copy, Debug, PartialEq, Eq)]
pub(crate) enum WaiterState {
    Parked,
    Abandoned(ReadAnchor),
    Ended(ReadAnchor),
}

impl Sheet {
    pub(crate) fn write(&self, out: &mut Vec<u8>) {
        out.extend_from_slice(b"(count");
        put_stats(out, &self.stats);
        put_numbered(out, b" ", self.claim_epoch);
        out.extend_from_slice(b"\n(current ");
        put_current(out, self.current.as_ref());
        out.extend_from_slice(b")\n(superseded ");
        put_optional_anchor(out, self.shown_superseded());
        out.extend_from_slice(b")\n(installed ");
        put_generation(out, self.installed.as_ref());
        out.extend_from_slice(b")\n(previous ");
        put_generation(out, self.previous.as_ref());
        out.extend_from_slice(b")\n");
        for (number, state) in &self.waiters {
            put_waiter(out, *number, *state);
        }
    }

    /// The superseded anchor where it can still be told from none: no snapshot
    /// reaches it while it is the current anchor, or while the current head is
    /// settled and it is the previous anchor.
    fn shown_superseded(&self) -> Option<ReadAnchor> {
        let current = self.current.as_ref();
        let previous = self.previous.as_ref().map(|previous| previous.anchor);
        let settled = current.is_some_and(|head| matches!(head.pose, SheetPose::Settled { .. }));
        self.superseded.filter(|superseded| {
            current.map(|head| head.anchor) != Some(*superseded)
                && !(settled && previous == Some(*superseded))
        })
    }
}

fn put_current(out: &mut Vec<u8>, current: Option<&SheetHead>) {
    let Some(head) = current else {
        out.extend_from_slice(b"none");
        return;
    };
    out.extend_from_slice(match head.pose {
        SheetPose::Unclaimed { .. } => b"unclaimed ",
        SheetPose::Preparing { .. } => b"preparing ",
        SheetPose::Settled { .. } => b"settled ",
    });
    put_anchor(out, head.anchor);
    out.push(b' ');
    put_hash(out, head.parent_hash);
    out.push(b' ');
    match &head.pose {
        SheetPose::Unclaimed { handle, abandoned } => {
            put_number(out, *handle);
            out.extend_from_slice(if *abandoned { b" abandoned" } else { b" open" });
        }
        SheetPose::Preparing { handle } => put_number(out, *handle),
        SheetPose::Settled { report } => put_report(out, report.as_ref()),
    }
}

fn put_generation(out: &mut Vec<u8>, generation: Option<&SheetGeneration>) {
    let Some(generation) = generation else {
        out.extend_from_slice(b"none");
        return;
    };
    put_anchor(out, generation.anchor);
    out.push(b' ');
    put_number(out, generation.handle);
    out.push(b' ');
    put_readiness(out, &generation.readiness);
}

fn put_waiter(out: &mut Vec<u8>, number: usize, state: WaiterState) {
    out.extend_from_slice(b"(wait ");
    put_number(out, number as u64);
    match state {
        WaiterState::Parked => out.extend_from_slice(b" parked"),
        WaiterState::Abandoned(anchor) => {
            out.extend_from_slice(b" abandoned ");
            put_anchor(out, anchor);
        }
        WaiterState::Ended(anchor) => {
            out.extend_from_slice(b" ended ");
            put_anchor(out, anchor);
        }
    }
    out.extend_from_slice(b")\n");
}
