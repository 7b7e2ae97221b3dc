//! A child module of the published `head_lifecycle.rs`: it reads and drives the
//! items that are private there, and decides nothing itself.

use super::{
    BalHeadDriver, ClaimStart, CurrentHead, HeadCompletion, HeadOutcome, HeadReadiness, HeadStats,
    HeadTicket, PrepareClaim,
};
use crate::sim::evm2::delta_snapshot::{DeltaHub, DeltaReport};
use crate::sim::evm2::read_hub::{self, CarryRefusal};
use crate::sim::storage_memo::ReadAnchor;
use alloy::primitives::B256;
use degenbot_rpc::provider::AlloyProvider;
use std::sync::Arc;
use tokio::sync::watch;

/// The signal a waiter registers on: the end of one claim attempt.
pub type CompletionSignal = watch::Receiver<Option<HeadCompletion>>;

/// Where a generation that a view hands out is kept.
#[derive(Clone, Copy, Debug, PartialEq, Eq)]
pub enum Source {
    Installed,
    Provisional,
    Previous,
    /// Nowhere: the view minted it.
    Spare,
}

/// What the driver holds, as far as a sheet shows it.
pub struct Parts {
    pub stats: HeadStats,
    pub claim_epoch: u64,
    pub current: Option<CurrentPart>,
    pub superseded: Option<ReadAnchor>,
    pub installed: Option<GenerationPart>,
    pub previous: Option<GenerationPart>,
}

/// What the driver holds and no sheet shows as it stands.
#[derive(Clone, Copy, Debug, PartialEq, Eq)]
pub struct Unshown {
    pub superseded: Option<ReadAnchor>,
    /// The epoch of the current head's attempt.
    pub attempt: Option<u64>,
}

/// The current head.
pub struct CurrentPart {
    pub anchor: ReadAnchor,
    pub parent_hash: B256,
    pub pose: Pose,
}

/// The current head's pose with what it carries.
pub enum Pose {
    Unclaimed {
        provisional: Arc<DeltaHub>,
        end: Option<HeadCompletion>,
    },
    Preparing {
        provisional: Arc<DeltaHub>,
    },
    Settled {
        report: Option<Arc<DeltaReport>>,
    },
}

/// The installed or the previous generation.
pub struct GenerationPart {
    pub anchor: ReadAnchor,
    pub hub: Arc<DeltaHub>,
    pub readiness: HeadReadiness,
}

/// The ticket that names `anchor` and `seq`, whether or not a delivery minted it.
#[must_use]
pub const fn ticket(anchor: ReadAnchor, seq: u64) -> HeadTicket {
    HeadTicket { anchor, seq }
}

/// The delivery number that a ticket names.
#[must_use]
pub const fn seq(ticket: HeadTicket) -> u64 {
    ticket.seq
}

/// The published link test, which is private to its crate.
#[must_use]
pub fn classify_link(
    parent: Option<&ReadAnchor>,
    child: ReadAnchor,
    parent_hash: B256,
) -> Option<CarryRefusal> {
    read_hub::classify_link(parent, child, parent_hash)
}

impl BalHeadDriver {
    /// A new driver whose counters stand where they are put. The delivery
    /// number is the count of deliveries, as it is in every driver.
    #[must_use]
    pub fn started_at(provider: &AlloyProvider, stats: HeadStats, claim_epoch: u64) -> Self {
        let driver = Self::new(provider);
        {
            let mut state = driver.state.lock();
            state.stats = stats;
            state.seq = stats.delivered;
            state.claim_epoch = claim_epoch;
        }
        driver
    }

    /// The prologue of `advance_with_relevance`, which takes the claim.
    ///
    /// # Errors
    ///
    /// The outcome with which the published code refuses.
    pub fn claim(&self, ticket: HeadTicket) -> Result<u64, HeadOutcome> {
        let mut state = self.state.lock();
        match state.claim(ticket.anchor, ticket.seq, self.cache.anchor()) {
            ClaimStart::Claimed(epoch) => Ok(epoch),
            ClaimStart::Refused(outcome) => Err(outcome),
        }
    }

    /// The epilogue of `advance_with_relevance`, which drops the claim.
    pub fn release(&self, seq: u64, epoch: u64) {
        drop(PrepareClaim {
            driver: self,
            seq,
            epoch,
        });
    }

    /// The signal that `wait_for_head` registers on, where it registers.
    #[must_use]
    pub fn registration(&self, anchor: ReadAnchor) -> Option<CompletionSignal> {
        let state = self.state.lock();
        state.registration(anchor, self.cache.anchor())
    }

    /// Which place of the driver holds `hub`.
    #[must_use]
    pub fn source_of(&self, hub: &Arc<DeltaHub>) -> Source {
        let state = self.state.lock();
        let provisional = state.current.as_ref().and_then(CurrentHead::provisional);
        let previous = state.previous.as_ref().map(|previous| &previous.hub);
        if self
            .installed_hub()
            .is_some_and(|held| Arc::ptr_eq(&held, hub))
        {
            Source::Installed
        } else if provisional.is_some_and(|held| Arc::ptr_eq(held, hub)) {
            Source::Provisional
        } else if previous.is_some_and(|held| Arc::ptr_eq(held, hub)) {
            Source::Previous
        } else {
            Source::Spare
        }
    }

    /// The generation the cache has installed.
    #[must_use]
    pub fn installed_hub(&self) -> Option<Arc<DeltaHub>> {
        self.cache
            .anchor()
            .and_then(|anchor| self.cache.installed_hub(anchor))
    }

    /// The cold generation that the current head's callers share.
    #[must_use]
    pub fn provisional_hub(&self) -> Option<Arc<DeltaHub>> {
        let state = self.state.lock();
        state
            .current
            .as_ref()
            .and_then(CurrentHead::provisional)
            .map(Arc::clone)
    }

    /// The delivery number and the claim epoch.
    #[must_use]
    pub fn sequence(&self) -> (u64, u64) {
        let state = self.state.lock();
        (state.seq, state.claim_epoch)
    }

    /// What a sheet masks or leaves out.
    #[must_use]
    pub fn unshown(&self) -> Unshown {
        let state = self.state.lock();
        Unshown {
            superseded: state.superseded,
            attempt: state.current.as_ref().map(|head| head.attempt().epoch),
        }
    }

    /// Everything that a sheet shows.
    ///
    /// # Panics
    ///
    /// If the cache's slot and the lifecycle's record of it name different
    /// anchors, or if the delivery number is not the count of deliveries:
    /// document 01 has each pair as one.
    #[must_use]
    pub fn parts(&self) -> Parts {
        let state = self.state.lock();
        let recorded = state.installed.as_ref().map(|installed| installed.anchor);
        assert_eq!(recorded, self.cache.anchor());
        assert_eq!(state.seq, state.stats.delivered);
        Parts {
            stats: state.stats,
            claim_epoch: state.claim_epoch,
            current: state.current.as_ref().map(current_part),
            superseded: state.superseded,
            installed: self.installed_hub().map(|hub| GenerationPart {
                anchor: hub.anchor(),
                readiness: state.readiness_of(hub.anchor()),
                hub,
            }),
            previous: state.previous.as_ref().map(|previous| GenerationPart {
                anchor: previous.anchor,
                hub: Arc::clone(&previous.hub),
                readiness: previous.readiness.clone(),
            }),
        }
    }
}

fn current_part(head: &CurrentHead) -> CurrentPart {
    CurrentPart {
        anchor: head.anchor(),
        parent_hash: head.delivery().parent_hash,
        pose: match head {
            CurrentHead::Unclaimed(head) => Pose::Unclaimed {
                provisional: Arc::clone(&head.provisional),
                end: head.attempt.published(),
            },
            CurrentHead::Preparing(head) => Pose::Preparing {
                provisional: Arc::clone(&head.provisional),
            },
            CurrentHead::Settled(head) => Pose::Settled {
                report: head.report.as_ref().map(Arc::clone),
            },
        },
    }
}
