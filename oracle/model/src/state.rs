//! The driver as document 01 describes it, with the planted faults beside the
//! rules they spoil.

use crate::fault::Fault;

/// A hash as its 64 digits, in lowercase.
pub type Hash = [u8; 64];

#[derive(Clone, Copy, PartialEq, Eq)]
pub struct Anchor {
    pub number: u64,
    pub hash: Option<Hash>,
}

#[derive(Clone, Copy, PartialEq, Eq)]
pub enum Skip {
    None,
    NoHash,
    Rpc(u64),
    Decode(u64),
}

#[derive(Clone, Copy, PartialEq, Eq)]
pub enum Link {
    Linked,
    NoParent,
    NotConsecutive,
    HashUnknown,
    HashMismatch,
}

pub enum Call {
    Deliver(Anchor, Hash, u64),
    Claim(Anchor, u64),
    Release(u64, u64),
    Apply {
        anchor: Anchor,
        seq: u64,
        list: Anchor,
        skip: Skip,
        handle: u64,
        carried: u64,
        report: u64,
    },
    Snapshot(Anchor, u64),
    Wait(u64, Anchor, u64),
    Resume(u64, u64),
    Completion(Anchor),
    Link(Option<Anchor>, Anchor, Hash),
    Report,
    Stats,
    Heads,
    Sheet,
}

pub enum Answer {
    Ticket(u64),
    Claimed(u64),
    Done,
    Settled(Outcome),
    View(View),
    Parked,
    Completion(&'static str),
    Link(Link),
    Report,
    Stats,
    Heads,
    Sheet,
    Refused(u64),
    Superseded(Anchor),
    Foreign(Anchor, Anchor),
}

/// What a caller reads: where it comes from, its handle, and the delivery number under which it
/// settled. Only an installed or previous generation has settled.
#[derive(Clone, Copy)]
pub struct View {
    pub source: &'static str,
    pub handle: u64,
    pub number: Option<u64>,
    pub readiness: Readiness,
}

#[derive(Clone, Copy, PartialEq, Eq)]
pub enum Outcome {
    Carried(u64),
    Cold(Link, Skip),
}

#[derive(Clone, Copy, PartialEq, Eq)]
pub enum Readiness {
    Ready,
    Unprepared,
    Superseded,
    Undelivered,
    Abandoned,
    Cold(Link, Skip),
}

#[derive(Clone, Copy, PartialEq, Eq)]
pub enum Pose {
    Unclaimed,
    Preparing,
    Settled,
}

/// The end of the current head's attempt.
#[derive(Clone, Copy, PartialEq, Eq)]
pub enum End {
    Open,
    Settled,
    Abandoned,
}

#[derive(Clone, Copy)]
pub struct Head {
    pub anchor: Anchor,
    pub parent: Hash,
    pub pose: Pose,
    pub handle: u64,
    pub end: End,
    pub report: Option<(Outcome, u64)>,
    pub seq: u64,
    pub epoch: u64,
}

#[derive(Clone, Copy)]
pub struct Generation {
    pub anchor: Anchor,
    pub handle: u64,
    /// The delivery number of the head as which it settled.
    pub number: u64,
    pub readiness: Readiness,
}

#[derive(Clone, Copy, PartialEq, Eq)]
pub enum Waiter {
    Free,
    Parked,
    Abandoned(Anchor),
    Ended(Anchor),
}

// The eight counters in document 01's order.
pub const DELIVERED: usize = 0;
const REPEATED: usize = 1;
const SUPERSEDED: usize = 2;
const SETTLED: usize = 3;
const ALREADY_CURRENT: usize = 4;
const DISCARDED: usize = 5;
const READY_VIEWS: usize = 6;
const COLD_VIEWS: usize = 7;

/// What a sheet shows of a driver.
#[derive(Clone, Copy)]
pub struct Shown {
    pub counters: [u64; 8],
    pub epoch: u64,
    pub current: Option<ShownHead>,
    pub superseded: Option<Anchor>,
    pub installed: Option<Generation>,
    pub previous: Option<Generation>,
    pub waiters: [Waiter; 16],
}

impl Shown {
    /// The anchor of a current head that is settled.
    #[must_use]
    pub fn settled(&self) -> Option<Anchor> {
        let head = self.current?;
        matches!(head.stage, Stage::Settled { .. }).then_some(head.anchor)
    }

    /// The anchor of a current head that is not settled.
    #[must_use]
    pub fn unsettled(&self) -> Option<Anchor> {
        let head = self.current?;
        (!matches!(head.stage, Stage::Settled { .. })).then_some(head.anchor)
    }
}

/// What a sheet shows of the current head.
#[derive(Clone, Copy)]
pub struct ShownHead {
    pub anchor: Anchor,
    pub parent: Hash,
    pub stage: Stage,
}

/// Where the current head stands, with what a sheet shows only there.
#[derive(Clone, Copy)]
pub enum Stage {
    Unclaimed { handle: u64, abandoned: bool },
    Preparing { handle: u64 },
    Settled { report: Option<(Outcome, u64)> },
}

pub struct Model {
    pub counters: [u64; 8],
    pub epoch: u64,
    pub current: Option<Head>,
    pub superseded: Option<Anchor>,
    pub installed: Option<Generation>,
    pub previous: Option<Generation>,
    pub waiters: [Waiter; 16],
    pub seq: u64,
    pub fault: Option<Fault>,
}

impl Model {
    /// A new driver with its eight counters and its epoch at `count`.
    #[must_use]
    pub fn new(count: [u64; 9], fault: Option<Fault>) -> Self {
        let [counters @ .., epoch] = count;
        Self {
            counters,
            epoch,
            current: None,
            superseded: None,
            installed: None,
            previous: None,
            waiters: [Waiter::Free; 16],
            seq: counters[DELIVERED],
            fault,
        }
    }

    #[must_use]
    pub fn has(&self, fault: Fault) -> bool {
        self.fault == Some(fault)
    }

    pub fn step(&mut self, call: Call) -> Answer {
        match call {
            Call::Deliver(anchor, parent, handle) => self.deliver(anchor, parent, handle),
            Call::Claim(anchor, seq) => self.claim(anchor, seq),
            Call::Release(seq, epoch) => self.release(seq, epoch),
            Call::Apply {
                anchor,
                seq,
                list,
                skip,
                handle,
                carried,
                report,
            } => match self.apply_refusal(anchor, seq, list, skip) {
                Some(refusal) => refusal,
                None => self.settle(skip, handle, carried, report),
            },
            Call::Snapshot(anchor, spare) => self.snapshot(anchor, spare),
            Call::Wait(number, anchor, spare) => self.wait(number, anchor, spare),
            Call::Resume(number, spare) => self.resume(number, spare),
            Call::Completion(anchor) => self.completion(anchor),
            Call::Link(parent, child, hash) => Answer::Link(self.link(parent, child, hash)),
            Call::Report => Answer::Report,
            Call::Stats => Answer::Stats,
            Call::Heads => Answer::Heads,
            Call::Sheet => Answer::Sheet,
        }
    }

    fn raise(&mut self, counter: usize) {
        let wraps = counter >= READY_VIEWS && self.has(Fault::ViewsWrap);
        self.counters[counter] = next(self.counters[counter], wraps);
    }

    fn same_hash(&self, left: Hash, right: Hash) -> bool {
        if self.has(Fault::HashFirstWord) {
            left[..16] == right[..16]
        } else {
            left == right
        }
    }

    fn is_installed(&self, anchor: Anchor) -> bool {
        self.installed.is_some_and(|held| held.anchor == anchor)
    }

    fn deliver(&mut self, anchor: Anchor, parent: Hash, handle: u64) -> Answer {
        if let Some(seq) = self.repeated(anchor, parent, handle) {
            self.raise(REPEATED);
            return Answer::Ticket(seq);
        }
        self.seq = next(self.seq, self.has(Fault::SeqWraps));
        let kept = self.supersede(anchor);
        self.raise(DELIVERED);
        let settled = self.is_installed(anchor);
        if settled {
            self.raise(ALREADY_CURRENT);
            self.redeliver();
        }
        self.current = Some(Head {
            anchor,
            parent,
            pose: if settled {
                Pose::Settled
            } else {
                Pose::Unclaimed
            },
            handle,
            end: if settled { End::Settled } else { End::Open },
            report: kept.filter(|_| settled),
            seq: self.seq,
            epoch: 0,
        });
        Answer::Ticket(self.seq)
    }

    /// The old delivery number, if the delivery repeats the current head.
    fn repeated(&mut self, anchor: Anchor, parent: Hash, handle: u64) -> Option<u64> {
        let any_parent = self.has(Fault::RepeatedByAnchor);
        let any_hash = self.has(Fault::RepeatedByNumber);
        let takes_handle = self.has(Fault::RepeatedTakesHandle);
        let head = self.current.as_mut()?;
        let same_anchor =
            head.anchor == anchor || (any_hash && head.anchor.number == anchor.number);
        if !same_anchor || !(head.parent == parent || any_parent) {
            return None;
        }
        if takes_handle {
            head.handle = handle;
        }
        Some(head.seq)
    }

    /// End the current head for the delivery of `anchor`. The report is handed
    /// back for the one fault that keeps it.
    fn supersede(&mut self, anchor: Anchor) -> Option<(Outcome, u64)> {
        let head = self.current.take()?;
        let counted = if head.pose == Pose::Settled {
            self.has(Fault::SettledCountedSuperseded)
        } else {
            !(head.end == End::Abandoned && self.has(Fault::AbandonedNotCounted))
        };
        if counted {
            self.raise(SUPERSEDED);
        }
        self.superseded = Some(if self.has(Fault::SupersededFromNew) {
            anchor
        } else {
            head.anchor
        });
        self.wake(if self.has(Fault::SupersededWaitersAbandoned) {
            Waiter::Abandoned(head.anchor)
        } else {
            Waiter::Ended(head.anchor)
        });
        head.report
            .filter(|_| self.has(Fault::RedeliveryKeepsReport))
    }

    /// What faults do to the generations when the installed anchor comes again.
    fn redeliver(&mut self) {
        if self.has(Fault::RedeliveredColdReady) {
            if let Some(installed) = &mut self.installed {
                installed.readiness = Readiness::Ready;
            }
        }
        if self.has(Fault::RedeliveryRenumbers) {
            if let Some(installed) = &mut self.installed {
                installed.number = self.seq;
            }
        }
        if self.has(Fault::RedeliveryEmptiesPrevious) {
            self.previous = None;
        }
    }

    /// End every parked waiter as `ended`.
    fn wake(&mut self, ended: Waiter) {
        for waiter in &mut self.waiters {
            if matches!(waiter, Waiter::Parked) {
                *waiter = ended;
            }
        }
    }

    fn claim(&mut self, anchor: Anchor, seq: u64) -> Answer {
        let ignores_seq = self.has(Fault::ClaimIgnoresSeq);
        let names_ticket = self.has(Fault::ClaimNamesTicket);
        let keeps_end = self.has(Fault::RetryKeepsEnd);
        let wraps = self.has(Fault::EpochWraps);
        let settled = if self.has(Fault::SettledInFlight) {
            14
        } else {
            13
        };
        let Some(head) = &mut self.current else {
            return Answer::Superseded(anchor);
        };
        if head.anchor != anchor || !(head.seq == seq || ignores_seq) {
            return Answer::Superseded(if names_ticket { anchor } else { head.anchor });
        }
        match head.pose {
            Pose::Settled => Answer::Refused(settled),
            Pose::Preparing => Answer::Refused(14),
            Pose::Unclaimed => {
                self.epoch = next(self.epoch, wraps);
                head.pose = Pose::Preparing;
                head.epoch = self.epoch;
                if !keeps_end {
                    head.end = End::Open;
                }
                Answer::Claimed(self.epoch)
            }
        }
    }

    fn release(&mut self, seq: u64, epoch: u64) -> Answer {
        let any_seq = self.has(Fault::ReleaseIgnoresSeq);
        let any_epoch = self.has(Fault::ReleaseIgnoresEpoch);
        let unclaimed = self.has(Fault::ReleaseUnclaimed);
        let Some(head) = &mut self.current else {
            return Answer::Done;
        };
        let owned = head.pose == Pose::Preparing && (head.epoch == epoch || any_epoch);
        let taken = head.pose == Pose::Unclaimed && unclaimed;
        if (owned || taken) && (head.seq == seq || any_seq) {
            head.pose = Pose::Unclaimed;
            head.end = End::Abandoned;
            let ended = Waiter::Abandoned(head.anchor);
            self.wake_released(ended);
        }
        Answer::Done
    }

    fn wake_released(&mut self, ended: Waiter) {
        if !self.has(Fault::ReleaseWakesOne) {
            return self.wake(ended);
        }
        let parked = |waiter: &&mut Waiter| matches!(waiter, Waiter::Parked);
        if let Some(waiter) = self.waiters.iter_mut().find(parked) {
            *waiter = ended;
        }
    }

    /// Apply's refusals in their order: 2, 11, 12, 13.
    fn apply_refusal(
        &mut self,
        anchor: Anchor,
        seq: u64,
        list: Anchor,
        skip: Skip,
    ) -> Option<Answer> {
        let at_odds = (skip == Skip::NoHash) != list.hash.is_none();
        if at_odds && !self.has(Fault::OddsAfterTicket) {
            return Some(Answer::Refused(2));
        }
        let Some(head) = &self.current else {
            self.raise(DISCARDED);
            return Some(Answer::Superseded(anchor));
        };
        let held = head.anchor;
        let stale = held != anchor || head.seq != seq;
        let foreign = held != list;
        let settled = head.pose == Pose::Settled;
        if stale && !(foreign && self.has(Fault::ForeignFirst)) {
            self.raise(DISCARDED);
            return Some(Answer::Superseded(held));
        }
        if foreign && !(settled && self.has(Fault::SettledFirst)) {
            if !self.has(Fault::ForeignNotCounted) {
                self.raise(DISCARDED);
            }
            return Some(Answer::Foreign(list, held));
        }
        if settled {
            if self.has(Fault::SecondApplyCounted) {
                self.raise(SETTLED);
            }
            if self.has(Fault::SettledDiscarded) {
                self.raise(DISCARDED);
            }
            return Some(Answer::Refused(13));
        }
        at_odds.then_some(Answer::Refused(2))
    }

    /// Settle the current head with an admitted list.
    fn settle(&mut self, skip: Skip, handle: u64, carried: u64, report: u64) -> Answer {
        let Some(mut head) = self.current.take() else {
            unreachable!("an admitted list has a head");
        };
        let parent = self.installed.map(|installed| installed.anchor);
        let link = self.link(parent, head.anchor, head.parent);
        let outcome = self.outcome(link, skip, carried);
        self.raise(SETTLED);
        let kept = self.has(Fault::ColdKeepsPrevious);
        let readiness = match outcome {
            Outcome::Carried(_) => {
                self.previous = self.installed;
                if let (true, Some(previous)) = (self.has(Fault::PreviousReady), &mut self.previous)
                {
                    previous.readiness = Readiness::Ready;
                }
                if let (true, Some(previous)) =
                    (self.has(Fault::PreviousNumberedByNew), &mut self.previous)
                {
                    previous.number = head.seq;
                }
                Readiness::Ready
            }
            Outcome::Cold(link, skip) => {
                self.previous = self.previous.filter(|_| kept);
                Readiness::Cold(link, skip)
            }
        };
        let above = self.has(Fault::NumberOneAbove);
        self.installed = Some(Generation {
            anchor: head.anchor,
            handle,
            number: if above {
                next(head.seq, false)
            } else {
                head.seq
            },
            readiness,
        });
        if self.mints_epoch(&head) {
            self.epoch = next(self.epoch, self.has(Fault::EpochWraps));
        }
        head.pose = Pose::Settled;
        head.end = End::Settled;
        head.report = Some((outcome, report));
        self.wake(Waiter::Ended(head.anchor));
        self.current = Some(head);
        Answer::Settled(outcome)
    }

    fn outcome(&self, link: Link, skip: Skip, carried: u64) -> Outcome {
        let skipped = skip != Skip::None && !self.has(Fault::SkipCarries);
        if link == Link::Linked && !skipped {
            Outcome::Carried(carried)
        } else if link != Link::Linked && self.has(Fault::ColdDropsSkip) {
            Outcome::Cold(link, Skip::None)
        } else {
            Outcome::Cold(link, skip)
        }
    }

    /// A head whose attempt was abandoned settles on a new one.
    fn mints_epoch(&self, head: &Head) -> bool {
        match (head.pose, head.end) {
            (Pose::Unclaimed, End::Abandoned) => !self.has(Fault::AbandonedKeepsEpoch),
            (Pose::Unclaimed, _) => self.has(Fault::OpenMintsEpoch),
            _ => false,
        }
    }

    /// The generation a caller at `anchor` reads.
    fn find(&self, anchor: Anchor, spare: u64) -> View {
        let previous = self.previous.filter(|held| held.anchor == anchor);
        if let Some(held) = self.installed.filter(|held| held.anchor == anchor) {
            return self.settled_view("installed", held);
        }
        if let (Some(held), true) = (previous, self.has(Fault::PreviousFirst)) {
            return self.settled_view("previous", held);
        }
        if let Some(head) = &self.current {
            if head.anchor == anchor && head.pose != Pose::Settled {
                return View {
                    source: "provisional",
                    handle: head.handle,
                    number: None,
                    readiness: Readiness::Unprepared,
                };
            }
        }
        if let Some(held) = previous {
            return self.settled_view("previous", held);
        }
        let superseded = self.superseded == Some(anchor) && !self.has(Fault::SupersededForgotten);
        let reason = if superseded {
            Readiness::Superseded
        } else {
            Readiness::Undelivered
        };
        View {
            source: "spare",
            handle: spare,
            number: None,
            readiness: reason,
        }
    }

    fn settled_view(&self, source: &'static str, held: Generation) -> View {
        let latest = self.has(Fault::ViewNumberedByLatest);
        View {
            source,
            handle: held.handle,
            number: Some(if latest { self.seq } else { held.number }),
            readiness: held.readiness,
        }
    }

    fn count_view(&mut self, readiness: Readiness) {
        let settled_cold = matches!(readiness, Readiness::Cold(..));
        let ready =
            readiness == Readiness::Ready || (settled_cold && self.has(Fault::ColdCountedReady));
        self.raise(if ready { READY_VIEWS } else { COLD_VIEWS });
    }

    fn snapshot(&mut self, anchor: Anchor, spare: u64) -> Answer {
        let view = self.find(anchor, spare);
        self.count_view(view.readiness);
        Answer::View(view)
    }

    fn wait(&mut self, number: u64, anchor: Anchor, spare: u64) -> Answer {
        let Some(number) = self.waiter(number) else {
            return Answer::Refused(3);
        };
        if !matches!(self.waiters[number], Waiter::Free) {
            return Answer::Refused(15);
        }
        self.wait_anew(number, anchor, spare)
    }

    fn waiter(&self, number: u64) -> Option<usize> {
        let limit = if self.has(Fault::FifteenRefused) {
            15
        } else {
            16
        };
        usize::try_from(number)
            .ok()
            .filter(|number| *number < limit)
    }

    fn wait_anew(&mut self, number: usize, anchor: Anchor, spare: u64) -> Answer {
        let unclaimed = self.has(Fault::WaitParksUnclaimed);
        let parks = self.current.as_ref().is_some_and(|head| {
            let live = head.pose == Pose::Preparing || (head.pose == Pose::Unclaimed && unclaimed);
            live && head.anchor == anchor
        });
        if parks {
            self.waiters[number] = Waiter::Parked;
            return Answer::Parked;
        }
        self.waiters[number] = Waiter::Free;
        let mut view = self.find(anchor, spare);
        self.count_view(view.readiness);
        if view.readiness == Readiness::Unprepared && !self.has(Fault::WaitShowsUnprepared) {
            view.readiness = Readiness::Abandoned;
        }
        Answer::View(view)
    }

    fn resume(&mut self, number: u64, spare: u64) -> Answer {
        let Some(number) = self.waiter(number) else {
            return Answer::Refused(3);
        };
        let waiter = self.waiters[number];
        let answer = match waiter {
            Waiter::Free => return Answer::Refused(16),
            Waiter::Parked => return Answer::Parked,
            Waiter::Abandoned(anchor) if self.has(Fault::WokenFromRetry) => {
                self.wait_anew(number, anchor, spare)
            }
            Waiter::Abandoned(anchor) => self.abandoned(number, anchor, spare),
            Waiter::Ended(anchor) if self.has(Fault::NeverReparks) => {
                self.waiters[number] = Waiter::Free;
                self.snapshot(anchor, spare)
            }
            Waiter::Ended(anchor) => self.wait_anew(number, anchor, spare),
        };
        if matches!(answer, Answer::View(..)) && self.has(Fault::ViewKeepsWaiter) {
            self.waiters[number] = waiter;
        }
        answer
    }

    /// The answer to a waiter whose preparation was abandoned.
    fn abandoned(&mut self, number: usize, anchor: Anchor, spare: u64) -> Answer {
        self.waiters[number] = Waiter::Free;
        let mut view = self.find(anchor, spare);
        let ready = view.readiness == Readiness::Ready;
        if ready && self.has(Fault::AbandonedCountsCold) {
            self.raise(COLD_VIEWS);
        } else {
            self.count_view(view.readiness);
        }
        if ready && !self.has(Fault::AbandonedHandsOut) {
            view.source = "spare";
            view.handle = spare;
            view.number = None;
        }
        if self.has(Fault::AbandonedUnnumbered) {
            view.number = None;
        }
        view.readiness = Readiness::Abandoned;
        Answer::View(view)
    }

    fn completion(&self, anchor: Anchor) -> Answer {
        let any = self.has(Fault::CompletionAnyAnchor);
        let head = self
            .current
            .as_ref()
            .filter(|head| head.anchor == anchor || any);
        Answer::Completion(match head.map(|head| head.end) {
            None | Some(End::Open) => "none",
            Some(End::Settled) => "settled",
            Some(End::Abandoned) => "abandoned",
        })
    }

    fn link(&self, parent: Option<Anchor>, child: Anchor, child_parent: Hash) -> Link {
        let Some(parent) = parent else {
            return Link::NoParent;
        };
        if parent.hash.is_none() && self.has(Fault::LinkHashFirst) {
            return Link::HashUnknown;
        }
        let wrapped = parent.number == u64::MAX && !self.has(Fault::LinkWraps);
        if parent.number.wrapping_add(1) != child.number || wrapped {
            return Link::NotConsecutive;
        }
        if child.hash.is_none() && self.has(Fault::LinkOwnHash) {
            return Link::HashUnknown;
        }
        match parent.hash {
            None => Link::HashUnknown,
            Some(hash) if self.same_hash(hash, child_parent) => Link::Linked,
            Some(_) => Link::HashMismatch,
        }
    }

    /// What a sheet shows.
    #[must_use]
    pub fn shown(&self) -> Shown {
        Shown {
            counters: self.counters,
            epoch: self.epoch,
            current: self.current.as_ref().map(Head::shown),
            superseded: self.shown_superseded(),
            installed: self.installed,
            previous: self.previous,
            waiters: self.waiters,
        }
    }

    /// The superseded anchor as a sheet shows it.
    fn shown_superseded(&self) -> Option<Anchor> {
        let anchor = self.superseded?;
        let head = self.current.as_ref();
        let current = head.is_some_and(|head| head.anchor == anchor);
        let settled = head.is_some_and(|head| head.pose == Pose::Settled);
        let previous = self.previous.is_some_and(|held| held.anchor == anchor);
        let masked = (current && !self.has(Fault::MaskNever))
            || (previous && (settled || self.has(Fault::MaskUnsettled)));
        (!masked).then_some(anchor)
    }
}

impl Head {
    fn shown(&self) -> ShownHead {
        ShownHead {
            anchor: self.anchor,
            parent: self.parent,
            stage: match self.pose {
                Pose::Unclaimed => Stage::Unclaimed {
                    handle: self.handle,
                    abandoned: self.end == End::Abandoned,
                },
                Pose::Preparing => Stage::Preparing {
                    handle: self.handle,
                },
                Pose::Settled => Stage::Settled {
                    report: self.report,
                },
            },
        }
    }
}

/// A counter raised by 1: it stays at 2^64 - 1, unless a fault lets it wrap.
fn next(counter: u64, wraps: bool) -> u64 {
    if wraps {
        counter.wrapping_add(1)
    } else {
        counter.saturating_add(1)
    }
}
