//! One driver of the published code, called by document 01's calls.

use crate::answer::{Answer, Outcome, Refusal, View};
use crate::call::{Apply, Call};
use crate::names::Names;
use crate::sheet::{Sheet, SheetGeneration, SheetHead, SheetPose, WaiterState};
use crate::start::Start;
use crate::text::Skip;
use alloy::primitives::{Bytes, B256};
use alloy_eip7928::bal::EMPTY_RLP_LIST;
use degenbot_core::errors::{ProviderError, ProviderResult};
use degenbot_rpc::provider::{AlloyProvider, BlockAccessListResponse};
use degenbot_simulation::sim::evm2::delta_snapshot::{DeltaHub, DeltaReport, RelevanceSet};
use degenbot_simulation::sim::evm2::head_lifecycle::probe::{
    self, CompletionSignal, GenerationPart, Pose, Source, Unshown,
};
use degenbot_simulation::sim::evm2::head_lifecycle::{
    BalHeadDriver, HeadCompletion, HeadOutcome, HeadView,
};
use degenbot_simulation::sim::evm2::read_hub::{CarryOutcome, PreparedBal};
use degenbot_simulation::sim::storage_memo::ReadAnchor;
use std::future::Future;
use std::io::{self, BufRead, Write};
use std::pin::{pin, Pin};
use std::sync::Arc;
use std::task::{Context, Poll, Waker};

/// The number of waiter slots.
pub const WAITERS: usize = 16;

/// Output is handed on in pieces of about this many bytes.
const OUTPUT_PIECE: usize = 1 << 16;

/// A driver with what the host of document 01 keeps beside it.
pub struct Oracle {
    pub(crate) provider: AlloyProvider,
    pub(crate) driver: Arc<BalHeadDriver>,
    handles: Names<DeltaHub, u64>,
    reports: Names<DeltaReport, ReportNumbers>,
    waiters: [Option<Waiter>; WAITERS],
}

/// The host's numbers for one report.
#[derive(Clone, Copy)]
struct ReportNumbers {
    carried: u64,
    report: u64,
}

/// A parked wait: the published future, and the signal that it registered on,
/// held a second time so that a sheet can tell how that preparation ended.
struct Waiter {
    anchor: ReadAnchor,
    future: Pin<Box<dyn Future<Output = HeadView>>>,
    signal: CompletionSignal,
}

impl Default for Oracle {
    fn default() -> Self {
        Self::new(Start::default())
    }
}

impl Oracle {
    #[must_use]
    pub fn new(start: Start) -> Self {
        let provider = AlloyProvider::default();
        let driver = BalHeadDriver::started_at(&provider, start.stats, start.claim_epoch);
        Self {
            provider,
            driver: Arc::new(driver),
            handles: Names::new(),
            reports: Names::new(),
            waiters: [const { None }; WAITERS],
        }
    }

    /// The last delivery number and the last claim epoch.
    #[must_use]
    pub fn sequence(&self) -> (u64, u64) {
        self.driver.sequence()
    }

    /// What the driver holds and no sheet shows as it stands.
    #[must_use]
    pub fn unshown(&self) -> Unshown {
        self.driver.unshown()
    }

    /// Answer one line, given without its line feed.
    pub fn answer_line(&mut self, line: &[u8]) -> Answer {
        match Call::read(line) {
            Some(call) => self.step(call),
            None => Answer::Refused(Refusal::NoCall),
        }
    }

    /// Make one call.
    pub fn step(&mut self, call: Call) -> Answer {
        match call {
            Call::Deliver {
                anchor,
                parent_hash,
                handle,
            } => self.deliver(anchor, parent_hash, handle),
            Call::Claim { anchor, seq } => match self.driver.claim(probe::ticket(anchor, seq)) {
                Ok(epoch) => Answer::Claimed(epoch),
                Err(outcome) => Answer::Refused(refusal(&outcome)),
            },
            Call::Release { seq, epoch } => {
                self.driver.release(seq, epoch);
                Answer::Done
            }
            Call::Apply(apply) => self.apply(&apply),
            Call::Snapshot { anchor, handle } => {
                let view = self.driver.snapshot(anchor);
                self.view(view, handle)
            }
            Call::Wait {
                waiter,
                anchor,
                handle,
            } => self.wait(waiter, anchor, handle),
            Call::Resume { waiter, handle } => self.resume(waiter, handle),
            Call::Completion { anchor } => Answer::Completion(self.driver.completion(anchor)),
            Call::Link {
                parent,
                child,
                parent_hash,
            } => Answer::Link(probe::classify_link(parent.as_ref(), child, parent_hash)),
            Call::Report => {
                Answer::Report(self.driver.last_report().map(|report| self.report(&report)))
            }
            Call::Stats => Answer::Stats(self.driver.stats()),
            Call::Heads => Answer::Heads([
                self.driver.delivered(),
                self.driver.installed(),
                self.driver.previous(),
            ]),
            Call::Sheet => Answer::Sheet(Box::new(self.sheet())),
        }
    }

    fn deliver(&mut self, anchor: ReadAnchor, parent_hash: B256, handle: u64) -> Answer {
        let ticket = self.driver.deliver(anchor, parent_hash);
        if let Some(hub) = self.driver.provisional_hub() {
            // A repeated delivery minted no generation: the handle it brought
            // names nothing.
            if self.handles.get(&hub).is_none() {
                self.handles.give(&hub, handle);
            }
        }
        Answer::Ticket(probe::seq(ticket))
    }

    fn apply(&mut self, apply: &Apply) -> Answer {
        if (apply.skip == Skip::NoHash) != apply.list.hash.is_none() {
            return Answer::Refused(Refusal::ListAtOdds);
        }
        let prepared = self.prepare(apply.list, apply.skip);
        let ticket = probe::ticket(apply.anchor, apply.seq);
        let outcome = self
            .driver
            .apply_members(ticket, &prepared, &RelevanceSet::default());
        self.applied(&outcome, apply)
    }

    /// The list that the published preparation makes of a scripted answer.
    fn prepare(&self, anchor: ReadAnchor, skip: Skip) -> PreparedBal {
        if let Some(answer) = scripted_list(skip) {
            self.provider.answer_next_list(answer);
        }
        match poll_once(pin!(PreparedBal::prepare(&self.provider, anchor))) {
            Poll::Ready(prepared) => prepared,
            Poll::Pending => unreachable!("the scripted provider answers at once"),
        }
    }

    /// The answer for an apply's outcome; a settled one gets the host's numbers.
    pub(crate) fn applied(&mut self, outcome: &HeadOutcome, apply: &Apply) -> Answer {
        let HeadOutcome::Settled(report) = outcome else {
            return Answer::Refused(refusal(outcome));
        };
        let hub = self.driver.installed_hub();
        let hub = hub.expect("a settled apply installs a generation");
        self.handles.give(&hub, apply.handle);
        let numbers = ReportNumbers {
            carried: apply.carried,
            report: apply.report,
        };
        self.reports.give(report, numbers);
        Answer::Settled(self.report(report).0)
    }

    /// A report's outcome and its number.
    fn report(&self, report: &Arc<DeltaReport>) -> (Outcome, u64) {
        let numbers = self.reports.get(report);
        let numbers = numbers.expect("every report comes out of an apply");
        let outcome = match &report.outcome {
            CarryOutcome::Carried { .. } => Outcome::Carried(numbers.carried),
            CarryOutcome::Cold { lineage, bal } => Outcome::Cold {
                link: lineage.clone(),
                skip: Skip::reported(bal.as_ref()),
            },
            CarryOutcome::AlreadyCurrent => {
                unreachable!("an apply to the installed anchor is refused")
            }
        };
        (outcome, numbers.report)
    }

    fn view(&self, view: HeadView, spare: u64) -> Answer {
        let source = self.driver.source_of(&view.hub);
        Answer::View(View {
            source,
            handle: match source {
                Source::Spare => spare,
                _ => self.handle(&view.hub),
            },
            readiness: view.readiness,
        })
    }

    fn handle(&self, hub: &Arc<DeltaHub>) -> u64 {
        let handle = self.handles.get(hub);
        handle.expect("every generation that the driver holds was given a handle")
    }

    fn wait(&mut self, waiter: u64, anchor: ReadAnchor, handle: u64) -> Answer {
        let Some(slot) = slot(waiter) else {
            return Answer::Refused(Refusal::NoSuchWaiter);
        };
        if self.waiters[slot].is_some() {
            return Answer::Refused(Refusal::WaiterNotFree);
        }
        let driver = Arc::clone(&self.driver);
        let future = Box::pin(async move { driver.wait_for_head(anchor).await });
        self.poll(slot, anchor, future, handle)
    }

    fn resume(&mut self, waiter: u64, handle: u64) -> Answer {
        let Some(slot) = slot(waiter) else {
            return Answer::Refused(Refusal::NoSuchWaiter);
        };
        match self.waiters[slot].take() {
            Some(waiter) => self.poll(slot, waiter.anchor, waiter.future, handle),
            None => Answer::Refused(Refusal::WaiterFree),
        }
    }

    /// Poll a wait once: a view leaves the slot free, anything else parks it.
    fn poll(
        &mut self,
        slot: usize,
        anchor: ReadAnchor,
        mut future: Pin<Box<dyn Future<Output = HeadView>>>,
        handle: u64,
    ) -> Answer {
        match poll_once(future.as_mut()) {
            Poll::Ready(view) => self.view(view, handle),
            Poll::Pending => {
                let signal = self.driver.registration(anchor);
                self.waiters[slot] = Some(Waiter {
                    anchor,
                    future,
                    signal: signal.expect("a pending wait is registered"),
                });
                Answer::Parked
            }
        }
    }

    fn sheet(&self) -> Sheet {
        let parts = self.driver.parts();
        Sheet {
            stats: parts.stats,
            claim_epoch: parts.claim_epoch,
            current: parts.current.map(|head| SheetHead {
                anchor: head.anchor,
                parent_hash: head.parent_hash,
                pose: self.pose(&head.pose),
            }),
            superseded: parts.superseded,
            installed: parts.installed.map(|part| self.generation(part)),
            previous: parts.previous.map(|part| self.generation(part)),
            waiters: self.waiter_states(),
        }
    }

    fn pose(&self, pose: &Pose) -> SheetPose {
        match pose {
            Pose::Unclaimed { provisional, end } => SheetPose::Unclaimed {
                handle: self.handle(provisional),
                abandoned: *end == Some(HeadCompletion::Abandoned),
            },
            Pose::Preparing { provisional } => SheetPose::Preparing {
                handle: self.handle(provisional),
            },
            Pose::Settled { report } => SheetPose::Settled {
                report: report.as_ref().map(|report| self.report(report)),
            },
        }
    }

    fn generation(&self, part: GenerationPart) -> SheetGeneration {
        SheetGeneration {
            anchor: part.anchor,
            handle: self.handle(&part.hub),
            readiness: part.readiness,
        }
    }

    fn waiter_states(&self) -> Vec<(usize, WaiterState)> {
        let taken = self.waiters.iter().enumerate();
        taken
            .filter_map(|(number, waiter)| Some((number, waiter.as_ref()?.state())))
            .collect()
    }
}

impl Waiter {
    fn state(&self) -> WaiterState {
        match *self.signal.borrow() {
            None => WaiterState::Parked,
            Some(HeadCompletion::Abandoned) => WaiterState::Abandoned(self.anchor),
            Some(HeadCompletion::Settled | HeadCompletion::Superseded) => {
                WaiterState::Ended(self.anchor)
            }
        }
    }
}

/// The slot of a waiter number, if it has one.
fn slot(waiter: u64) -> Option<usize> {
    usize::try_from(waiter).ok().filter(|slot| *slot < WAITERS)
}

pub(crate) fn poll_once<F: Future + ?Sized>(future: Pin<&mut F>) -> Poll<F::Output> {
    future.poll(&mut Context::from_waker(Waker::noop()))
}

/// The node's answer that makes the published preparation skip as asked; none
/// where it asks no node.
pub(crate) fn scripted_list(skip: Skip) -> Option<ProviderResult<BlockAccessListResponse>> {
    match skip {
        Skip::NoHash => None,
        Skip::None => Some(Ok(BlockAccessListResponse::Raw(Bytes::copy_from_slice(
            &EMPTY_RLP_LIST,
        )))),
        Skip::Rpc(number) => Some(Err(ProviderError(number.to_string()))),
        // A number is no list: the error text of the JSON reader names it.
        Skip::Decode(number) => Some(Ok(BlockAccessListResponse::Json(number.into()))),
    }
}

/// Document 01's refusal for an outcome that settled nothing.
pub(crate) fn refusal(outcome: &HeadOutcome) -> Refusal {
    match *outcome {
        HeadOutcome::Superseded { head } => Refusal::Superseded { head },
        HeadOutcome::Foreign { prepared, head } => Refusal::Foreign { prepared, head },
        HeadOutcome::AlreadySettled => Refusal::AlreadySettled,
        HeadOutcome::InFlight => Refusal::InFlight,
        HeadOutcome::Settled(_) => unreachable!("a settled outcome is no refusal"),
    }
}

/// Answer every line of `input` on `output`. The last line may lack its line
/// feed; input that ends in one has no further line.
///
/// # Errors
///
/// Whatever reading or writing reports.
pub fn answer_lines(
    oracle: &mut Oracle,
    mut input: impl BufRead,
    mut output: impl Write,
) -> io::Result<()> {
    let mut line = Vec::new();
    let mut answers = Vec::new();
    while input.read_until(b'\n', &mut line)? > 0 {
        let call = line.strip_suffix(b"\n").unwrap_or(&line);
        oracle.answer_line(call).write(&mut answers);
        line.clear();
        if answers.len() >= OUTPUT_PIECE {
            output.write_all(&answers)?;
            answers.clear();
        }
    }
    output.write_all(&answers)?;
    output.flush()
}
